package dexasm;

import dexasm.Listing.Row;
import java.util.List;
import java.util.Set;
import java.util.function.Predicate;

/**
 * Lines of a code that can't break the rule of a number, in place of those that may. All others stay, so that it is
 * this rule alone that answers.
 */
final class Calm {
  private static final Set<String> TO_PAYLOADS = Set.of("packed-switch", "sparse-switch", "fill-array-data");

  /** A label has 32 characters at most, and a number stands behind these. */
  private static final int LONGEST = 20;

  private final int number;
  private final boolean isFirstForm;

  Calm(int number, boolean isFirstForm) {
    this.number = number;
    this.isFirstForm = isFirstForm;
  }

  static boolean isOfTry(Row row) {
    return row.begins("try") || row.begins("catch") || row.begins("catchall");
  }

  boolean isInsn(Row row) {
    return row.text.charAt(0) != ':' && !isOfTry(row) && !row.begins("code") && !row.begins("end");
  }

  /** Whether the rule may be broken by this line. */
  boolean isAsked(Row row) {
    if (!isInsn(row)) {
      return number == 110 && row.begins("catch");
    }
    return number == 85 ? target(row) != null : !row.text.equals(calm(row));
  }

  /** Adds the lines of a code, calm but for those that are kept. */
  void add(List<String> lines, List<Row> code, Predicate<Row> isKept) {
    String marks = number == 85 ? unused(code) : null;
    Row before = null;
    int at = 0;
    for (Row row : code) {
      if (isInsn(row)) {
        boolean isBack = before != null && !key(before).endsWith("-payload");
        if (marks != null && !isFirstForm) {
          lines.add(marks + at);
        }
        String calm = number == 85 ? led(row, marks + (isBack ? at - 1 : at + 1)) : calm(row);
        lines.add(isKept.test(row) ? row.text : calm);
        before = row;
        at++;
      } else if (isKept.test(row) || !isAsked(row)) {
        lines.add(row.text);
      }
    }
  }

  private String key(Row row) {
    return row.word(isFirstForm ? 1 : 0);
  }

  private String calm(Row row) {
    String key = key(row);
    boolean isPayload = key.endsWith("-payload");
    boolean isToPayload = TO_PAYLOADS.contains(key);
    String count = isFirstForm ? row.word(0) + " " : "";
    switch (number) {
      case 82: // a text's index doesn't fit
        return key.equals("const-string") ? row.text.replaceFirst(key, key + "/jumbo") : row.text;
      case 110: // a name
        return isPayload || isToPayload ? row.text : count + "nop";
      case 114: // a payload's own form
        return isPayload ? count + "nop" : row.text;
      case 115: // where it leads
        return isPayload ? count + withoutTargets(row, key) : isToPayload ? row.text : count + "nop";
      case 118: // a register
        String target = row.word(isFirstForm ? 3 : 2);
        return isPayload ? row.text : count + (isToPayload ? key + " v0 " + target : "nop");
      default:
        return row.text;
    }
  }

  /** A payload that leads nowhere. */
  private String withoutTargets(Row row, String key) {
    String rest = row.text.substring(row.text.indexOf(key));
    return key.equals("array-payload") ? rest : key.equals("sparse-switch-payload") ? key : key + " 0";
  }

  /** Where a branch leads, by its last word; null of what is none. */
  private String target(Row row) {
    String key = key(row);
    int blank = row.text.lastIndexOf(' ');
    boolean isBranch = !key.endsWith("-payload") && !TO_PAYLOADS.contains(key) && row.text.indexOf('"') < 0;
    boolean isLed = isBranch && row.text.startsWith(isFirstForm ? "@" : ":", blank + 1);
    return isLed ? row.text.substring(blank + 1) : null;
  }

  /** A branch that leads elsewhere, and any other instruction as it is. */
  private String led(Row row, String target) {
    return target(row) == null ? row.text : row.text.substring(0, row.text.lastIndexOf(' ') + 1) + target;
  }

  /**
   * What stands before the number of an instruction where one leads to it: a label that is longer than each of the
   * code, as far as that goes. (Where it is one of the code, nothing is found, as the listing is refused for that.)
   */
  private String unused(List<Row> code) {
    if (isFirstForm) {
      return "@";
    }
    int most = 0;
    for (Row row : code) {
      most = row.text.charAt(0) == ':' ? Math.max(most, row.text.length()) : most;
    }
    return ":" + "n".repeat(Math.min(most, LONGEST));
  }
}
