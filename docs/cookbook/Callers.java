import dexasm.Dexasm;
import java.nio.file.Files;
import java.nio.file.Path;

/** {@code Callers FILE METHOD} prints each method of FILE whose code calls METHOD. */
public class Callers {
  public static void main(String[] words) throws Exception {
    String type = "";
    String method = "";
    boolean isPrinted = false;
    for (String line : Dexasm.list(Files.readAllBytes(Path.of(words[0]))).split("\n")) {
      String[] parts = line.split(" ");
      if (parts[0].equals("class")) {
        type = parts[1];
      } else if (parts[0].equals("direct") || parts[0].equals("virtual")) {
        method = type + "->" + parts[1] + parts[2];
        isPrinted = false;
      } else if (parts[0].startsWith("invoke-") && parts[parts.length - 1].equals(words[1]) && !isPrinted) {
        System.out.println(method);
        isPrinted = true;
      }
    }
  }
}
