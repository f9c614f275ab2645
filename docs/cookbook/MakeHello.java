import dexasm.Dexasm;
import java.nio.file.Files;
import java.nio.file.Path;

/** {@code MakeHello OUT} writes a .dex file with one class, whose main prints "hello". */
public class MakeHello {
  public static void main(String[] words) throws Exception {
    String listing =
        String.join(
            "\n",
            "dex 035 listing 2",
            "class LMain; 0x1",
            "super Ljava/lang/Object;",
            "direct main ([Ljava/lang/String;)V 0x9",
            "code 3 1 2",
            "sget-object v0 Ljava/lang/System;->out:Ljava/io/PrintStream;",
            "const-string v1 \"hello\"",
            "invoke-virtual { v0 v1 } Ljava/io/PrintStream;->println(Ljava/lang/String;)V",
            "return-void",
            "end code",
            "end class",
            "");
    Files.write(Path.of(words[0]), Dexasm.assemble(listing, false));
  }
}
