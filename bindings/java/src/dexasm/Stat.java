package dexasm;

import static dexasm.Posix.done;

import java.nio.ByteBuffer;
import java.nio.ByteOrder;

/** What the system says of a file (struct statx of include/uapi/linux/stat.h). */
final class Stat {
  private static final int ROOM = 256;
  private static final int PERMISSIONS = 07777; // of a mode
  private static final int TYPE = 0170000; // of a mode
  private static final int REGULAR = 0100000;
  private static final int LINK = 0120000;

  final int names;
  final int user;
  final int group;
  final long size;
  private final int mode;
  private final long inode;
  private final long device;

  private Stat(ByteBuffer room) {
    names = room.getInt(16);
    user = room.getInt(20);
    group = room.getInt(24);
    mode = Short.toUnsignedInt(room.getShort(28));
    inode = room.getLong(32);
    size = room.getLong(40);
    device = room.getLong(136); // (major and minor)
  }

  /** Of what stands at a path, which is a link itself or what it leads to. */
  static Stat of(byte[] path, boolean isFollowed) throws Posix.Failed {
    return of(Posix.AT_FDCWD, path, isFollowed ? 0 : Posix.AT_SYMLINK_NOFOLLOW);
  }

  /** Of an open file. */
  static Stat of(int file) throws Posix.Failed {
    return of(file, new byte[0], Posix.AT_EMPTY_PATH);
  }

  private static Stat of(int at, byte[] path, int flags) throws Posix.Failed {
    byte[] room = new byte[ROOM];
    done(() -> Posix.statx(at, Posix.text(path), flags, Posix.STATX_BASIC_STATS, room));
    return new Stat(ByteBuffer.wrap(room).order(ByteOrder.nativeOrder()));
  }

  boolean isLink() {
    return (mode & TYPE) == LINK;
  }

  boolean isRegular() {
    return (mode & TYPE) == REGULAR;
  }

  int permissions() {
    return mode & PERMISSIONS;
  }

  boolean isSame(Stat other) {
    return inode == other.inode && device == other.device;
  }
}
