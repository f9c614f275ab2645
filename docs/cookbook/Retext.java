import dexasm.Dexasm;
import java.nio.file.Files;
import java.nio.file.Path;
import java.util.stream.Collectors;

/** {@code Retext FILE OLD NEW OUT} writes FILE to OUT with the string NEW wherever it has the constant OLD. */
public class Retext {
  public static void main(String[] words) throws Exception {
    String listing = Dexasm.list(Files.readAllBytes(Path.of(words[0])));
    // In a listing a quote after a space begins a text and nothing else: quotes inside a text have a backslash.
    String edited = listing.replace(" \"" + words[1] + "\"", " \"" + escaped(words[2]) + "\"");
    Files.write(Path.of(words[3]), Dexasm.assemble(edited, false));
  }

  /** All but letters and digits of ASCII as \\uXXXX, so that NEW is one text and no other words or lines. */
  private static String escaped(String text) {
    return text.chars()
        .mapToObj(c -> String.format(c < 0x80 && Character.isLetterOrDigit(c) ? "%c" : "\\u%04x", c))
        .collect(Collectors.joining());
  }
}
