package dexasm;

import com.sun.jna.Native;
import com.sun.jna.NativeLibrary;
import com.sun.jna.Pointer;
import java.io.IOException;
import java.util.Arrays;
import java.util.function.LongSupplier;

/**
 * Calls of the C library, by JNA's direct mapping: Java's own tell few errors apart, end a write where a thread is
 * interrupted, and have neither owners nor access control lists of open files. The numbers are those of Linux on
 * x86-64, where alone libdexasm runs.
 */
final class Posix {
  static final int O_WRONLY = 01;
  static final int O_RDWR = 02;
  static final int O_CREAT = 0100;
  static final int O_EXCL = 0200;
  static final int O_NOCTTY = 0400;
  static final int O_NOFOLLOW = 0400000;
  static final int O_CLOEXEC = 02000000;

  static final int AT_FDCWD = -100;
  static final int AT_SYMLINK_NOFOLLOW = 0x100;
  static final int AT_EMPTY_PATH = 0x1000;
  static final int STATX_BASIC_STATS = 0x7ff;

  static final int EPERM = 1;
  static final int ENOENT = 2;
  static final int EINTR = 4;
  static final int EIO = 5;
  static final int EACCES = 13;
  static final int EBUSY = 16;
  static final int EEXIST = 17;
  static final int EINVAL = 22;
  static final int EROFS = 30;
  static final int ENAMETOOLONG = 36;
  static final int ENOSYS = 38;
  static final int ELOOP = 40;
  static final int ENODATA = 61;
  static final int EOPNOTSUPP = 95;

  static {
    Native.register(Posix.class, NativeLibrary.getProcess());
  }

  private Posix() {}

  static native int open(byte[] path, int flags, int mode);

  static native int close(int file);

  static native int statx(int folder, byte[] path, int flags, int mask, byte[] room);

  static native long readlink(byte[] path, byte[] room, long length);

  static native int rename(byte[] from, byte[] to);

  static native int unlink(byte[] path);

  static native long write(int file, Pointer bytes, long length);

  static native long pread(int file, Pointer room, long length, long at);

  static native long lseek(int file, long at, int whence);

  static native int ftruncate(int file, long length);

  static native int fsync(int file);

  static native int fchown(int file, int user, int group);

  static native int fchmod(int file, int mode);

  static native long flistxattr(int file, byte[] room, long length);

  static native long fgetxattr(int file, byte[] name, byte[] room, long length);

  static native int fsetxattr(int file, byte[] name, byte[] value, long length, int flags);

  static native int fremovexattr(int file, byte[] name);

  private static native String strerror(int number);

  /** A text as the system takes it. */
  static byte[] text(byte[] bytes) {
    return Arrays.copyOf(bytes, bytes.length + 1);
  }

  /** What a call returns; it is made again where a signal has ended it. */
  static long done(LongSupplier call) throws Failed {
    while (true) {
      long returned = call.getAsLong();
      if (returned >= 0) {
        return returned;
      }
      int number = Native.getLastError();
      if (number != EINTR) {
        throw new Failed(number);
      }
    }
  }

  /** How a call has failed. */
  static final class Failed extends IOException {
    private static final long serialVersionUID = 1;

    final int number;

    Failed(int number) {
      super(strerror(number));
      this.number = number;
    }

    boolean is(int... numbers) {
      for (int one : numbers) {
        if (number == one) {
          return true;
        }
      }
      return false;
    }
  }
}
