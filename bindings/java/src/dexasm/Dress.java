package dexasm;

import java.nio.charset.StandardCharsets;
import java.util.Set;

/** Gives a new file the mode, the access control list, the attributes and the owner of the one that it will replace. */
final class Dress {
  private static final String LIST = "system.posix_acl_access";
  private static final byte[] LIST_NAME = LIST.getBytes(StandardCharsets.US_ASCII);
  // What isn't copied: the list, which is given apart; rights of a program, which any write takes away; sums of what
  // the file held.
  private static final Set<String> APART = Set.of(LIST, "security.capability", "security.evm", "security.ima");
  private static final int AS_IT_IS = -1; // of an owner
  private static final int SET_USER = 04000;
  private static final int SET_GROUP = 02000;
  private static final int GROUP = 070;

  private Dress() {}

  /** As far as the system lets. What can't be given lets nobody do what the other file didn't let them. */
  static void give(Opened made, Opened like) throws Posix.Failed {
    Stat there = like.stat();
    int mode = there.permissions();
    Acl list = list(like);
    giveOwner(made, there);
    Stat now = made.stat();
    if (now.user != there.user) {
      mode &= ~SET_USER;
    }
    if (now.group != there.group) {
      mode &= ~SET_GROUP;
      if (list == null) {
        mode &= ~GROUP | mode << 3; // (the group may do what all others may, and no more)
      } else {
        list.leaveGroup();
      }
    }
    copyAttributes(made, like);
    made.allow(isGiven(made, list) ? mode : list.without(mode));
  }

  private static Acl list(Opened file) throws Posix.Failed {
    byte[] given = file.attribute(LIST_NAME);
    return given == null ? null : new Acl(given);
  }

  /** User and group, or the group alone. */
  private static void giveOwner(Opened made, Stat there) {
    for (int user : new int[] {there.user, AS_IT_IS}) {
      try {
        made.own(user, there.group);
        return;
      } catch (Posix.Failed refused) {
        continue;
      }
    }
  }

  private static void copyAttributes(Opened made, Opened like) {
    try {
      for (String name : new String(like.attributes(), StandardCharsets.ISO_8859_1).split("\0")) {
        if (!APART.contains(name)) {
          copyAttribute(made, like, name.getBytes(StandardCharsets.ISO_8859_1));
        }
      }
    } catch (Posix.Failed none) {
      return;
    }
  }

  private static void copyAttribute(Opened made, Opened like, byte[] name) {
    try {
      byte[] value = like.attribute(name);
      if (value != null) {
        made.setAttribute(name, value);
      }
    } catch (Posix.Failed refused) {
      return;
    }
  }

  /** Whether the file has the list then; one that it got from its folder is taken away. */
  private static boolean isGiven(Opened made, Acl list) throws Posix.Failed {
    if (list != null) {
      try {
        made.setAttribute(LIST_NAME, list.bytes());
        return true;
      } catch (Posix.Failed refused) {
        // (as where there are none)
      }
    }
    if (made.attribute(LIST_NAME) != null) {
      made.removeAttribute(LIST_NAME);
    }
    return list == null;
  }
}
