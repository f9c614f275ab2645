package dexasm;

import static dexasm.Posix.done;

import com.sun.jna.Native;
import com.sun.jna.Pointer;
import java.util.Arrays;

/** A file that is open, by its number for the system. */
final class Opened implements AutoCloseable {
  private static final int LONGEST = 1 << 16; // bytes of an attribute, and of all names of attributes

  final byte[] path;
  private final int number;

  private Opened(byte[] path, int flags, int mode) throws Posix.Failed {
    this.path = path;
    number = (int) done(() -> Posix.open(Posix.text(path), flags | Posix.O_NOCTTY | Posix.O_CLOEXEC, mode));
  }

  /** Opens what is there. */
  static Opened old(byte[] path, int flags) throws Posix.Failed {
    return new Opened(path, flags, 0);
  }

  /** Makes a file where nothing was, not even a link. */
  static Opened made(byte[] path, int mode) throws Posix.Failed {
    return new Opened(path, Posix.O_WRONLY | Posix.O_CREAT | Posix.O_EXCL, mode);
  }

  @Override
  public void close() throws Posix.Failed {
    if (Posix.close(number) < 0) {
      int error = Native.getLastError();
      if (error != Posix.EINTR) { // (it is closed then: the number may be another file's)
        throw new Posix.Failed(error);
      }
    }
  }

  Stat stat() throws Posix.Failed {
    return Stat.of(number);
  }

  /** Writes all the bytes, however few the system takes at a time. */
  void put(Pointer bytes, long length) throws Posix.Failed {
    for (long at = 0; at < length; ) {
      Pointer left = bytes.share(at);
      long most = length - at;
      long count = done(() -> Posix.write(number, left, most));
      if (count == 0) {
        throw new Posix.Failed(Posix.EIO);
      }
      at += count;
    }
  }

  /** Puts the bytes in the place of what it holds: it isn't cut first, so that what it held still has room. */
  void overwrite(Pointer bytes, long length) throws Posix.Failed {
    done(() -> Posix.lseek(number, 0, 0));
    put(bytes, length);
    done(() -> Posix.ftruncate(number, length));
  }

  /** Its first bytes; answers whether it has so many and they may be read. */
  boolean get(Pointer room, long length) {
    try {
      for (long at = 0; at < length; ) {
        long from = at;
        long count = done(() -> Posix.pread(number, room.share(from), length - from, from));
        if (count == 0) {
          return false;
        }
        at += count;
      }
      return true;
    } catch (Posix.Failed unread) {
      return false;
    }
  }

  void sync() throws Posix.Failed {
    done(() -> Posix.fsync(number));
  }

  void own(int user, int group) throws Posix.Failed {
    done(() -> Posix.fchown(number, user, group));
  }

  void allow(int mode) throws Posix.Failed {
    done(() -> Posix.fchmod(number, mode));
  }

  /** The names of its attributes, each with a zero after it. */
  byte[] attributes() throws Posix.Failed {
    byte[] room = new byte[LONGEST];
    return Arrays.copyOf(room, (int) done(() -> Posix.flistxattr(number, room, LONGEST)));
  }

  /** An attribute; null where the file has none of this name. */
  byte[] attribute(byte[] name) throws Posix.Failed {
    byte[] room = new byte[LONGEST];
    try {
      return Arrays.copyOf(room, (int) done(() -> Posix.fgetxattr(number, Posix.text(name), room, LONGEST)));
    } catch (Posix.Failed failed) {
      if (failed.is(Posix.ENODATA, Posix.EOPNOTSUPP, Posix.ENOSYS)) {
        return null;
      }
      throw failed;
    }
  }

  void setAttribute(byte[] name, byte[] value) throws Posix.Failed {
    done(() -> Posix.fsetxattr(number, Posix.text(name), value, value.length, 0));
  }

  void removeAttribute(byte[] name) throws Posix.Failed {
    done(() -> Posix.fremovexattr(number, Posix.text(name)));
  }
}
