package dexasm;

import java.nio.ByteBuffer;

/**
 * The bytes are refused: they break a rule. The message is the line of the command, as {@code refused 9 Signature
 * at 12}.
 *
 * <p>The numbers and their rules are in docs/FORMAT.md and docs/LISTING.md, and in the manual page dexasm(1). A
 * number never changes its meaning, so a program goes by {@link #number} and {@link #place}.
 *
 * <p>Where {@code assemble} refused a listing, {@link #line}, {@link #className} and {@link #member} lead to the place.
 * Of a fault of a class (82 to 89, 110 to 118) they are looked for when one is first asked for, by some dozens of calls
 * of the library at most about a class, so that takes as long as these. Until then the listing is kept; after the
 * refusal was serialized nothing is found any more.
 */
public final class Refused extends Exception {
  private static final long serialVersionUID = 1;

  /** The number of the rule. */
  private final int number;

  /** The name of the rule. */
  private final String name;

  /** Where it is broken. */
  private final long place;

  private transient byte[] listing;
  private transient boolean isAligned;
  private transient Place found = Place.UNKNOWN;

  Refused(int number, String name, long place) {
    super("refused " + number + " " + name + " at " + Long.toUnsignedString(place));
    this.number = number;
    this.name = name;
    this.place = place;
  }

  /**
   * The number of a rule that is broken.
   *
   * @return a number from 1 to 65535
   */
  public int number() {
    return number;
  }

  /**
   * The name of the rule, as {@code Signature}.
   *
   * @return ASCII, at most 32 characters
   */
  public String name() {
    return name;
  }

  /**
   * Where the rule is broken: by the number a byte of a file from 0, a line of a listing from 1, or a class of a
   * program from 0. Of 80 and 81 it is how many types or prototypes are needed, of 90 it is 0.
   *
   * @return the place, an unsigned number
   */
  public long place() {
    return place;
  }

  /**
   * The line of the listing that breaks the rule: of a fault of a class that of the instruction, the try or the catch,
   * or else that of the member, or else that with which the class begins.
   *
   * @return a number from 1, or 0 if it isn't known
   */
  public int line() {
    return number >= 100 && number <= 106 ? (int) place : found().line;
  }

  /**
   * The class that breaks the rule, where {@link #place} is the number of a class in a listing.
   *
   * @return a type as the listing spells it, in ASCII, or null if it isn't known
   */
  public String className() {
    return found().className;
  }

  /**
   * The member of that class that breaks the rule.
   *
   * @return a field or a method as the listing spells it, as {@code LA;->show(I)V}, or null if it isn't known or the
   *     fault isn't in one
   */
  public String member() {
    return found().member;
  }

  /** Keeps the listing that was refused, so that the place can be found in it. */
  void keep(ByteBuffer text, boolean isAligned) {
    if (Place.isClass(number)) {
      try {
        byte[] kept = new byte[text.remaining()];
        text.duplicate().get(kept);
        this.listing = kept;
        this.isAligned = isAligned;
      } catch (OutOfMemoryError none) {
        this.listing = null; // (the place is a number all the same)
      }
    }
  }

  private synchronized Place found() {
    if (listing != null) {
      found = Place.of(listing, isAligned, number, place);
      listing = null;
    }
    return found == null ? Place.UNKNOWN : found;
  }
}
