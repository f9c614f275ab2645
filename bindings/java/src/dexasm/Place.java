package dexasm;

import dexasm.Listing.Item;
import dexasm.Listing.Row;
import java.nio.ByteBuffer;
import java.nio.charset.StandardCharsets;
import java.util.ArrayList;
import java.util.List;
import java.util.function.IntPredicate;
import java.util.function.Predicate;
import java.util.stream.Collectors;

/**
 * Where in a listing a refusal stands whose place is the number of a class.
 *
 * <p>The library is asked again: of the class with fewer of its members, and of a code in which the instructions from
 * one on are such as break no rule. Where the answer becomes the same fault of the same class, there it is; where none
 * does, what was found before is told, at least the class. So no rule is known here, and of instructions only what it
 * takes to leave them out: what leads to a payload and the payload need one another.
 */
final class Place {
  static final Place UNKNOWN = new Place(0, null, null);

  final int line;
  final String className;
  final String member;

  private Place(int line, String className, String member) {
    this.line = line;
    this.className = className;
    this.member = member;
  }

  /** Whether the place of a fault of this number is a class. */
  static boolean isClass(int number) {
    return 82 <= number && number <= 89 || 110 <= number && number <= 118;
  }

  /** The place of a fault in the listing that was refused, as far as it is found. */
  static Place of(byte[] text, boolean isAligned, int number, long index) {
    try {
      return new Search(new Listing(text, index), isAligned, number).place();
    } catch (OutOfMemoryError none) {
      return UNKNOWN;
    }
  }

  /** The lowest number from 0 to this one of which it holds; -1 where it doesn't hold of this one. */
  private static int first(int most, IntPredicate holds) {
    int below = -1;
    int at = most;
    boolean isFound = holds.test(most);
    while (isFound && at - below > 1) {
      int middle = (below + at) >>> 1;
      if (holds.test(middle)) {
        at = middle;
      } else {
        below = middle;
      }
    }
    return isFound ? at : -1;
  }

  /** What is asked about one refusal. */
  private static final class Search {
    private final Listing listing;
    private final boolean isAligned;
    private final int number;
    private final Calm calm;

    Search(Listing listing, boolean isAligned, int number) {
      this.listing = listing;
      this.isAligned = isAligned;
      this.number = number;
      this.calm = new Calm(number, listing.isFirstForm);
    }

    Place place() {
      int found = -1;
      if (listing.head() == null || !isSame(listing.text, listing.index)) {
        return UNKNOWN; // (another text than that one: somebody wrote the buffer meanwhile)
      }
      if (number == 82) { // a text's index doesn't fit its instruction
        return ofString();
      }
      if (number != 83 && number != 84) { // a field's, a method's: it counts what else is named, so nothing is left out
        found = first(listing.items.size(), this::isSameOf);
      }
      return found < 1 ? at(listing.head(), null) : in(listing.items.get(found - 1));
    }

    /** Whether a listing is refused for this rule, at its class of this number. */
    private boolean isSame(String text, int index) {
      try {
        ByteBuffer given = ByteBuffer.wrap(text.getBytes(StandardCharsets.ISO_8859_1));
        Dexasm.answer(isAligned ? Job.ALIGN : Job.ASSEMBLE, given);
        return false;
      } catch (Refused refused) {
        return refused.number() == number && refused.place() == index;
      }
    }

    private boolean isSame(List<String> lines) {
      return isSame(listing.alone(lines), 0);
    }

    /** Whether the class is refused with the first so many of its items; for its order among the others, with these. */
    private boolean isSameOf(int count) {
      List<String> lines = lines(listing.items.subList(0, count), row -> true);
      return number == 112 ? isSame(listing.amongEmpty(lines), listing.index) : isSame(lines);
    }

    private Place at(Row row, Item item) {
      String name = listing.head().word(1);
      return new Place(row.number, name, item == null ? null : item.member(name));
    }

    private Place in(Item item) {
      if (item.code.isEmpty() || isSame(List.of(item.line.text))) {
        return at(item.line, item);
      }
      boolean isOfTries = number == 87 || number == 88 || number == 117; // too long, too many, wrong
      Row found = isOfTries ? inTries(item) : inCode(item);
      return at(found == null ? item.line : found, item);
    }

    /** The try at fault: the last one that it takes. */
    private Row inTries(Item item) {
      List<Row> tries = rows(List.of(item), row -> row.begins("try"));
      int found = first(tries.size(), count -> {
        int after = count == tries.size() ? Integer.MAX_VALUE : tries.get(count).number;
        return isSame(lines(List.of(item), row -> row.number < after || row.begins("end") || !Calm.isOfTry(row)));
      });
      return found < 1 ? null : tries.get(found - 1);
    }

    /** The line of a code at fault: its first one, or an instruction, or a catch. */
    private Row inCode(Item item) {
      Row head = item.code.get(0);
      String nop = listing.isFirstForm ? "0: nop" : "nop";
      boolean isEmpty = rows(List.of(item), calm::isInsn).isEmpty();
      if (isEmpty ? number == 114 : isSame(List.of(item.line.text, head.text, nop, "end code"))) {
        return head;
      }
      return inRows(List.of(item), lines -> isSame(lines));
    }

    /** The const-string at fault: all others name their texts as widely as it takes. */
    private Place ofString() {
      Row found = inRows(listing.items, lines -> isSame(listing.amongAll(lines), listing.index));
      Item[] owner = {null};
      if (found != null) {
        listing.items.forEach(item -> owner[0] = item.line.number < found.number ? item : owner[0]);
      }
      return at(found == null ? listing.head() : found, owner[0]);
    }

    /** The first line without which it is right, if it is at fault also where all others are calm. */
    private Row inRows(List<Item> items, Predicate<List<String>> isSame) {
      List<Row> asked = rows(items, calm::isAsked);
      int found = first(asked.size(), count -> {
        int after = count == asked.size() ? Integer.MAX_VALUE : asked.get(count).number;
        return isSame.test(calmed(items, row -> row.number < after));
      });
      Row row = found < 1 ? null : asked.get(found - 1);
      return row != null && isSame.test(calmed(items, each -> each == row)) ? row : null;
    }

    private List<String> calmed(List<Item> items, Predicate<Row> isKept) {
      List<String> lines = new ArrayList<>();
      for (Item item : items) {
        lines.add(item.line.text);
        calm.add(lines, item.code, isKept);
      }
      return lines;
    }

    private static List<Row> rows(List<Item> items, Predicate<Row> isWanted) {
      return items.stream().flatMap(item -> item.code.stream()).filter(isWanted).collect(Collectors.toList());
    }

    private static List<String> lines(List<Item> items, Predicate<Row> isKept) {
      List<String> lines = new ArrayList<>();
      for (Item item : items) {
        lines.add(item.line.text);
        item.code.stream().filter(isKept).forEach(row -> lines.add(row.text));
      }
      return lines;
    }
  }
}
