import dexasm.Dexasm;
import dexasm.Refused;
import java.io.IOException;
import java.nio.file.Path;

/** {@code Verdict FILE ..} says of each file ok, or which rule it breaks and where. Status 1: one was refused. */
public class Verdict {
  public static void main(String[] words) throws IOException {
    int refusals = 0;
    for (String word : words) {
      try {
        Dexasm.check(Path.of(word));
        System.out.println(word + ": ok");
      } catch (Refused refused) {
        refusals++;
        System.out.println(word + ": " + refused.number() + " " + refused.name() + " at " + refused.place());
      }
    }
    System.exit(refusals > 0 ? 1 : 0);
  }
}
