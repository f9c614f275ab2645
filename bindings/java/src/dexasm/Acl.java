package dexasm;

import java.nio.ByteBuffer;
import java.nio.ByteOrder;

/**
 * An access control list as Linux keeps it (include/uapi/linux/posix_acl.h): a version, and entries of a tag, what it
 * lets do and, where the tag has names, whose it is.
 */
final class Acl {
  private static final int VERSION = 2;
  private static final int HEAD = 4;
  private static final int ENTRY = 8;
  private static final int MAY = 2; // in an entry
  private static final int ALL = 7;
  private static final int OWNER = 1;
  private static final int USER = 2;
  private static final int OWNERS_GROUP = 4;
  private static final int GROUP = 8;
  private static final int MASK = 16;
  private static final int OTHERS = 32;

  private final ByteBuffer entries;

  /** Of an attribute's bytes. */
  Acl(byte[] given) throws Posix.Failed {
    entries = ByteBuffer.wrap(given).order(ByteOrder.LITTLE_ENDIAN);
    boolean isWhole = given.length >= HEAD && given.length % ENTRY == HEAD && entries.getInt(0) == VERSION;
    if (!isWhole || !has(OWNER) || !has(OWNERS_GROUP) || !has(OTHERS)) {
      throw new Posix.Failed(Posix.EINVAL);
    }
  }

  byte[] bytes() {
    return entries.array();
  }

  private boolean has(int tags) {
    for (int at = HEAD; at < entries.limit(); at += ENTRY) {
      if ((entries.getShort(at) & tags) != 0) {
        return true;
      }
    }
    return false;
  }

  /** What each entry with such a tag lets do; of none that is all. */
  private int rights(int tags) {
    int every = ALL;
    for (int at = HEAD; at < entries.limit(); at += ENTRY) {
      if ((entries.getShort(at) & tags) != 0) {
        every &= entries.getShort(at + MAY);
      }
    }
    return every;
  }

  /** For a file of another group, which may do what all others may and no more. */
  void leaveGroup() {
    int others = rights(OTHERS);
    for (int at = HEAD; at < entries.limit(); at += ENTRY) {
      if (entries.getShort(at) == OWNERS_GROUP) {
        entries.putShort(at + MAY, (short) (entries.getShort(at + MAY) & others));
      }
    }
  }

  /**
   * The permissions of a file that can't have the list. The group's are what the list lets the group do, not the mask
   * that a file with a list shows in their place; and whom it names may do no more as one of the group or the others.
   */
  int without(int permissions) {
    int group = rights(OWNERS_GROUP | USER) & rights(MASK);
    int others = rights(OTHERS | USER | GROUP) & (has(USER | GROUP) ? rights(MASK) : ALL);
    return permissions & ~077 | group << 3 | others;
  }
}
