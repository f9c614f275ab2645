import dexasm.Dexasm;
import java.nio.file.Files;
import java.nio.file.Path;
import java.util.LinkedHashMap;
import java.util.Map;

/** {@code Changed OLD NEW} prints the classes that were added, changed or removed. */
public class Changed {
  public static void main(String[] words) throws Exception {
    Map<String, String> old = classes(words[0]);
    classes(words[1])
        .forEach(
            (type, text) -> {
              String was = old.remove(type);
              if (!text.equals(was)) {
                System.out.println((was == null ? "added " : "changed ") + type);
              }
            });
    old.keySet().forEach(type -> System.out.println("removed " + type));
  }

  /** The text of each class, by its type. */
  private static Map<String, String> classes(String file) throws Exception {
    Map<String, String> found = new LinkedHashMap<>();
    for (String text : Dexasm.list(Files.readAllBytes(Path.of(file))).split("\n(?=class )")) {
      if (text.startsWith("class ")) {
        found.put(text.split(" ")[1], text);
      }
    }
    return found;
  }
}
