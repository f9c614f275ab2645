package dexasm;

import static dexasm.Posix.done;

import com.sun.jna.Pointer;
import java.io.IOException;
import java.net.URLDecoder;
import java.nio.charset.StandardCharsets;
import java.nio.file.AccessDeniedException;
import java.nio.file.FileSystemException;
import java.nio.file.FileSystems;
import java.nio.file.NoSuchFileException;
import java.nio.file.Path;
import java.nio.file.ProviderMismatchException;
import java.util.Arrays;
import java.util.concurrent.Semaphore;

/**
 * Brings an answer to a file OUT, by the rules of the command: at each moment OUT holds what it held or the whole
 * answer, or the whole answer stands beside it. (python/src/dexasm/deliver.py has all of them.)
 */
final class Output {
  private static final int TURNS = 100; // how often OUT is looked at, if it is another file each time
  private static final int LINKS = 40; // how many links the system follows
  private static final int LONGEST_PATH = 4096; // bytes
  private static final int PRIVATE = 0600; // the mode of a part, until it looks as OUT
  private static final int ANY = 0666; // the mode of a new OUT, of which the system takes what it doesn't give
  private static final long MOST_KEPT = 1 << 28; // bytes that are put back where a file can only be written in place

  private final Pointer answer; // (off the heap from the beginning, so that no room is asked for amid the writing)
  private final long length;
  private byte[] place; // of OUT, a path without a link at its end; null where none leads there
  private byte[] kept; // the part that has the whole answer, where OUT may have none

  private Output(Pointer answer, long length) {
    this.answer = answer;
    this.length = length;
  }

  static void write(Path out, byte[] answer) throws IOException {
    byte[] path = bytes(out);
    Pointer bytes = Library.take(answer.length);
    Output output = new Output(bytes, answer.length);
    try {
      bytes.write(0, answer, 0, answer.length);
      output.deliver(path);
    } catch (Posix.Failed failed) {
      throw output.told(out.toString(), failed);
    } finally {
      Library.free(bytes);
    }
  }

  /** The bytes of a path, as the system has them. (URIs alone spell all names, whatever the locale.) */
  private static byte[] bytes(Path path) {
    if (path.getFileSystem() != FileSystems.getDefault()) {
      throw new ProviderMismatchException();
    }
    String spelled = Path.of("/").resolve(path).toUri().getRawPath().replaceFirst("(?<=.)/$", "");
    String read = URLDecoder.decode(spelled.replace("+", "%2B"), StandardCharsets.ISO_8859_1);
    return read.substring(path.isAbsolute() ? 0 : 1).getBytes(StandardCharsets.ISO_8859_1);
  }

  /** A failure as Java's own calls tell it. */
  private IOException told(String out, Posix.Failed failed) {
    String why = failed.getMessage();
    if (kept != null) {
      String beside = new String(kept, StandardCharsets.UTF_8);
      return new FileSystemException(out, beside, why + ": the whole answer is in " + beside);
    }
    switch (failed.number) {
      case Posix.ENOENT:
        return new NoSuchFileException(out, null, why);
      case Posix.EACCES:
        return new AccessDeniedException(out, null, why);
      default:
        return new FileSystemException(out, null, why);
    }
  }

  private void deliver(byte[] out) throws IOException {
    try (Opened file = reached(out)) {
      if (file == null || file.stat().isRegular()) {
        bringHeld(file);
      } else {
        file.put(answer, length);
      }
    }
  }

  /** OUT, open for writing, of which the place is known then; null where nothing stands. */
  private Opened reached(byte[] out) throws Posix.Failed {
    for (int turn = 0; turn < TURNS; turn++) {
      Stat itself = look(out, false);
      boolean isLink = itself != null && itself.isLink();
      byte[] end = isLink ? endOf(out) : out;
      Stat there = isLink ? look(out, true) : itself;
      Stat last = isLink ? look(end, false) : itself;
      if (there == null && last == null) {
        place = end;
        return null;
      }
      Opened file = there == null ? null : opened(out, isLink, there);
      if (file != null) {
        place = last != null && last.isSame(there) ? end : null;
        return file;
      }
    }
    throw new Posix.Failed(Posix.EBUSY);
  }

  /** What stands at a path; null where nothing does. (The system follows a link, but not one that it finds unsafe.) */
  private static Stat look(byte[] path, boolean isFollowed) throws Posix.Failed {
    try {
      return Stat.of(path, isFollowed);
    } catch (Posix.Failed failed) {
      return nothing(failed);
    }
  }

  /** Null where nothing stands; else the failure. */
  private static <T> T nothing(Posix.Failed failed) throws Posix.Failed {
    if (failed.number != Posix.ENOENT) {
      throw failed;
    }
    return null;
  }

  /** Where a link leads at last, be it to nothing. */
  private static byte[] endOf(byte[] link) throws Posix.Failed {
    byte[] path = link;
    for (int turn = 0; turn < LINKS; turn++) {
      byte[] to = target(path);
      if (to == null) {
        return path;
      }
      path = to.length > 0 && to[0] == '/' ? to : joined(folder(path), to);
    }
    throw new Posix.Failed(Posix.ELOOP);
  }

  /** What stands in a link; null of what is none. */
  private static byte[] target(byte[] path) throws Posix.Failed {
    byte[] room = new byte[LONGEST_PATH];
    try {
      return Arrays.copyOf(room, (int) done(() -> Posix.readlink(Posix.text(path), room, LONGEST_PATH)));
    } catch (Posix.Failed failed) {
      return failed.number == Posix.EINVAL ? null : nothing(failed);
    }
  }

  /** The beginning of a path, to its last slash. */
  private static byte[] folder(byte[] path) {
    int length = path.length;
    while (length > 0 && path[length - 1] != '/') {
      length--;
    }
    return Arrays.copyOf(path, length);
  }

  private static byte[] joined(byte[] one, byte[] other) {
    byte[] both = Arrays.copyOf(one, one.length + other.length);
    System.arraycopy(other, 0, both, one.length, other.length);
    return both;
  }

  /** What was looked at, for writing; null where that has left its place. */
  private static Opened opened(byte[] out, boolean isLink, Stat there) throws Posix.Failed {
    Opened file;
    try {
      file = openedOnce(out, isLink ? 0 : Posix.O_NOFOLLOW, there.isRegular());
    } catch (Posix.Failed failed) {
      return nothing(failed);
    }
    boolean isSame = false;
    try {
      isSame = file.stat().isSame(there);
    } finally {
      if (!isSame) {
        file.close();
      }
    }
    return isSame ? file : null;
  }

  /** A regular file for reading too, where that is allowed. (A pipe that is open for both waits for no reader.) */
  private static Opened openedOnce(byte[] out, int flags, boolean isRegular) throws Posix.Failed {
    if (isRegular) {
      try {
        return Opened.old(out, Posix.O_RDWR | flags);
      } catch (Posix.Failed failed) {
        if (!failed.is(Posix.EACCES, Posix.EPERM)) {
          throw failed;
        }
      }
    }
    return Opened.old(out, Posix.O_WRONLY | flags);
  }

  /** If Java is to end meanwhile, as by a signal, it waits until the file is written. */
  private void bringHeld(Opened file) throws IOException {
    Semaphore ends = new Semaphore(0);
    Thread hook = new Thread(ends::acquireUninterruptibly);
    try {
      Runtime.getRuntime().addShutdownHook(hook);
    } catch (IllegalStateException ending) {
      throw new IOException("Java is ending", ending);
    }
    try {
      bring(file);
    } finally {
      ends.release();
      removeHook(hook);
    }
  }

  private static void removeHook(Thread hook) {
    try {
      Runtime.getRuntime().removeShutdownHook(hook);
    } catch (IllegalStateException ending) {
      return; // (it has been called)
    }
  }

  /** To the place, where this file stands or nothing does. */
  private void bring(Opened file) throws Posix.Failed {
    boolean isShared = file != null && file.stat().names > 1;
    Opened made = place == null ? null : newPart(file == null ? ANY : PRIVATE);
    if (made == null) {
      writeAlone(file);
      return;
    }
    fill(made, file);
    if (isShared || !hasMoved(made.path)) {
      copyOver(made.path, file);
    }
  }

  /** A new file beside; null where the folder takes none of this name. */
  private Opened newPart(int mode) throws Posix.Failed {
    for (int number = 0; number < Integer.MAX_VALUE; number++) {
      try {
        return Opened.made(joined(place, ("." + number + ".part").getBytes(StandardCharsets.US_ASCII)), mode);
      } catch (Posix.Failed failed) {
        if (failed.is(Posix.EACCES, Posix.EPERM, Posix.EROFS, Posix.ENAMETOOLONG)) {
          return null;
        } else if (failed.number != Posix.EEXIST) {
          throw failed;
        }
      }
    }
    throw new Posix.Failed(Posix.EEXIST);
  }

  /** The whole answer in a new file, which is removed if that fails. */
  private void fill(Opened made, Opened like) throws Posix.Failed {
    boolean isWhole = false;
    try {
      fillAndClose(made, like);
      isWhole = true;
    } finally {
      if (!isWhole) {
        remove(made.path);
      }
    }
  }

  /** Where another one is to be replaced, it looks as that, and is on the disk then. */
  private void fillAndClose(Opened made, Opened like) throws Posix.Failed {
    try (made) {
      if (like != null) {
        Dress.give(made, like);
      }
      made.put(answer, length);
      if (like != null) {
        made.sync();
      }
    }
  }

  private static void remove(byte[] path) {
    Posix.unlink(Posix.text(path)); // (if that fails, there is nothing else to do)
  }

  /** Whether the part has taken OUT's place, which it hasn't where OUT keeps it: a mount point, a sticky folder. */
  private boolean hasMoved(byte[] beside) throws Posix.Failed {
    try {
      done(() -> Posix.rename(Posix.text(beside), Posix.text(place)));
      return true;
    } catch (Posix.Failed failed) {
      if (failed.is(Posix.EBUSY, Posix.EPERM, Posix.EACCES)) {
        return false;
      }
      remove(beside);
      throw failed;
    }
  }

  /** The bytes of the part in OUT. Where they don't fit there, the part stays. */
  private void copyOver(byte[] beside, Opened file) throws Posix.Failed {
    kept = beside;
    if (file == null) {
      fill(Opened.made(place, ANY), null);
    } else {
      file.overwrite(answer, length);
      file.sync();
    }
    kept = null;
    remove(beside);
  }

  /** The answer in OUT itself, with nothing beside it. Where it doesn't fit, what OUT held comes back. */
  private void writeAlone(Opened file) throws Posix.Failed {
    if (file == null) {
      fill(Opened.made(place, ANY), null);
      return;
    }
    long size = file.stat().size;
    Pointer old = size > MOST_KEPT ? null : Library.take(size);
    try {
      boolean isHeld = old != null && file.get(old, size);
      overwrite(file, isHeld ? old : null, size);
    } finally {
      if (old != null) {
        Library.free(old);
      }
    }
  }

  private void overwrite(Opened file, Pointer old, long size) throws Posix.Failed {
    try {
      file.overwrite(answer, length);
    } catch (Posix.Failed failed) {
      if (old != null) {
        putBack(file, old, size);
      }
      throw failed;
    }
  }

  private static void putBack(Opened file, Pointer old, long size) {
    try {
      file.overwrite(old, size);
    } catch (Posix.Failed full) {
      return; // (what stands behind a limit on the size of files wasn't written before either)
    }
  }
}
