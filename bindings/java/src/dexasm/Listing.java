package dexasm;

import java.nio.charset.StandardCharsets;
import java.util.ArrayList;
import java.util.List;

/**
 * One class of a listing, by the lines that somebody wrote. The library found them of a listing's form before
 * (docs/LISTING.md), so nothing is judged here.
 */
final class Listing {
  /** A line that says something: its number from 1, and its text without the blanks at both ends. */
  static final class Row {
    final int number;
    final String text;

    Row(int number, String text) {
      this.number = number;
      this.text = text;
    }

    /** A word from 0 on, null where there are fewer. Words of a text in quotes aren't told apart. */
    String word(int index) {
      int from = 0;
      for (int at = 0; at < index && from < text.length(); at++) {
        from = ended(from);
        while (from < text.length() && text.charAt(from) == ' ') {
          from++;
        }
      }
      return from < text.length() ? text.substring(from, ended(from)) : null;
    }

    private int ended(int from) {
      int blank = text.indexOf(' ', from);
      return blank < 0 ? text.length() : blank;
    }

    boolean begins(String word) {
      return text.startsWith(word) && (text.length() == word.length() || text.charAt(word.length()) == ' ');
    }
  }

  /** A line of a class, and the lines of the code after it, from its first to its last one. */
  static final class Item {
    final Row line;
    final List<Row> code = new ArrayList<>();

    Item(Row line) {
      this.line = line;
    }

    /** The member that it is, of a class of this name, as a listing names it elsewhere; null where it is none. */
    String member(String owner) {
      boolean isField = line.begins("static") || line.begins("instance");
      if (!isField && !line.begins("direct") && !line.begins("virtual")) {
        return null;
      }
      return owner + "->" + line.word(1) + (isField ? ":" : "") + line.word(2);
    }
  }

  final boolean isFirstForm;
  final int index;
  final List<Item> items = new ArrayList<>();

  final String text;

  private final List<Row> heads = new ArrayList<>();
  private final String first;
  private int begin;
  private int end;

  /** The class of this number, from 0. */
  Listing(byte[] listing, long index) {
    this.text = new String(listing, StandardCharsets.ISO_8859_1);
    this.index = (int) Math.min(index & Long.MAX_VALUE, Integer.MAX_VALUE);
    boolean isInClass = false;
    boolean isInCode = false;
    Row said = null;
    int number = 0;
    for (int from = 0, to; from < text.length(); from = to) {
      int feed = text.indexOf('\n', from);
      to = feed < 0 ? text.length() : feed + 1;
      Row row = new Row(++number, text.substring(from, to).strip());
      if (row.text.isEmpty() || row.text.charAt(0) == '#') {
        continue;
      }
      said = said == null ? row : said;
      boolean isEnd = row.begins("end");
      if (row.begins("class")) {
        heads.add(row);
        isInClass = heads.size() - 1 == this.index;
        begin = isInClass ? from : begin;
      } else if (isInClass && isEnd && !isInCode) {
        isInClass = false;
        end = to;
      } else if (isInClass) {
        isInCode = add(row, isInCode) && !isEnd;
      }
    }
    isFirstForm = said == null || said.word(2) == null;
    first = isFirstForm ? "dex 035\n" : "dex 035 listing 2\n";
  }

  /** Takes a line of the class, and answers whether it is one of a code. */
  private boolean add(Row row, boolean isInCode) {
    boolean isCode = isInCode || row.begins("code") && !items.isEmpty();
    if (isCode) {
      items.get(items.size() - 1).code.add(row);
    } else {
      items.add(new Item(row));
    }
    return isCode;
  }

  /** The line with which the class begins, null where there is no such class, or where it doesn't end. */
  Row head() {
    return index < heads.size() && end > begin ? heads.get(index) : null;
  }

  /** A listing of this class alone, with these lines. */
  String alone(List<String> lines) {
    return first + whole(head(), lines);
  }

  /** A listing of all classes, of which the others have no line and this one has these. */
  String amongEmpty(List<String> lines) {
    StringBuilder made = new StringBuilder(first);
    for (Row each : heads) {
      made.append(whole(each, each == head() ? lines : List.of()));
    }
    return made.toString();
  }

  /** The listing, in which this class has these lines. */
  String amongAll(List<String> lines) {
    return text.substring(0, begin) + whole(head(), lines) + text.substring(end);
  }

  private static String whole(Row head, List<String> lines) {
    String inner = lines.isEmpty() ? "" : String.join("\n", lines) + "\n";
    return head.text + "\n" + inner + "end class\n";
  }
}
