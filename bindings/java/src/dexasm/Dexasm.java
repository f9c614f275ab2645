package dexasm;

import com.sun.jna.Native;
import com.sun.jna.Pointer;
import java.io.IOException;
import java.io.InputStream;
import java.lang.ref.Reference;
import java.nio.ByteBuffer;
import java.nio.charset.StandardCharsets;
import java.nio.file.Files;
import java.nio.file.Path;

/**
 * Checks, lists, assembles and strips .dex files (Dalvik Executable, version 035), by libdexasm.
 *
 * <pre>{@code
 * import dexasm.Dexasm;
 * import dexasm.Refused;
 * import java.nio.file.Files;
 * import java.nio.file.Path;
 *
 * public class Small {
 *   public static void main(String[] words) throws Exception {
 *     byte[] file = Files.readAllBytes(Path.of(words[0]));
 *     try {
 *       Dexasm.check(file);
 *       byte[] small = Dexasm.strip(file);
 *       System.out.println(file.length + " bytes, stripped " + small.length);
 *     } catch (Refused refused) {
 *       System.out.println(refused.getMessage()); // as: refused 8 Checksum at 8
 *     }
 *   }
 * }
 * }</pre>
 *
 * <p>Lengths and capacities are bytes. What breaks a rule is {@link Refused}; where memory runs out, that of the
 * library or that of Java, a call throws {@link OutOfMemoryError}, and so it does where an answer is longer than an
 * array can be. Where there is no library, or one of another version, each call throws {@link
 * UnsatisfiedLinkError}, whose message says why.
 *
 * <p>Calls of several threads don't disturb one another, and no call keeps anything. Arrays and buffers on the Java
 * heap are copied first. A direct buffer isn't: until the call returns nobody may write it or give its memory back.
 * A mapped file that somebody cuts short meanwhile ends the process, so take the forms with a {@link Path} for
 * files that others write.
 *
 * <p>The library is the file that the property {@code dexasm.library} or the variable {@code DEXASM_LIBRARY} names,
 * or the one inside the jar, or the system's {@code libdexasm.so.0}.
 */
public final class Dexasm {
  // What a call tells beside its answer: needed (8 bytes), the fault's code (2), and at a multiple of 8 its place.
  private static final int CODE = 8;
  private static final int PLACE = 16;
  private static final int TOLD = 24;

  private Dexasm() {}

  /**
   * Returns if the bytes are a file that keeps every rule of the format.
   *
   * @param file the bytes of a .dex file
   * @throws Refused if they break a rule
   */
  public static void check(byte[] file) throws Refused {
    answer(Job.CHECK, ByteBuffer.wrap(file));
  }

  /**
   * Returns if the bytes from the buffer's position to its limit are a file that keeps every rule of the format.
   *
   * @param file the bytes of a .dex file; position and limit stay as they are
   * @throws Refused if they break a rule
   */
  public static void check(ByteBuffer file) throws Refused {
    answer(Job.CHECK, file);
  }

  /**
   * Returns if this is a file that keeps every rule of the format.
   *
   * @param file a .dex file
   * @throws Refused if it breaks a rule
   * @throws IOException if it can't be read
   */
  public static void check(Path file) throws Refused, IOException {
    answer(Job.CHECK, read(file));
  }

  /**
   * The listing of a file's program: ASCII, of which docs/LISTING.md has the form.
   *
   * @param file the bytes of a .dex file
   * @return the listing
   * @throws Refused if they break a rule
   */
  public static String list(byte[] file) throws Refused {
    return list(ByteBuffer.wrap(file));
  }

  /**
   * The listing of a file's program, as {@link #list(byte[])}.
   *
   * @param file the bytes of a .dex file, from position to limit, which stay as they are
   * @return the listing
   * @throws Refused if they break a rule
   */
  public static String list(ByteBuffer file) throws Refused {
    return new String(answer(Job.LIST, file), StandardCharsets.ISO_8859_1);
  }

  /**
   * Writes the listing of a file's program. See {@link #strip(Path, Path)} for what becomes of {@code out}.
   *
   * @param file a .dex file
   * @param out where the listing goes
   * @throws Refused if the file breaks a rule
   * @throws IOException if reading or writing fails
   */
  public static void list(Path file, Path out) throws Refused, IOException {
    Output.write(out, answer(Job.LIST, read(file)));
  }

  /**
   * The file of a listed program.
   *
   * @param text a listing
   * @param align whether a nop is put before each payload that would stand at an odd address; else that is refused
   * @return the bytes of a .dex file
   * @throws Refused if the listing breaks a rule
   */
  public static byte[] assemble(String text, boolean align) throws Refused {
    return assemble(ByteBuffer.wrap(ascii(text)), align);
  }

  /**
   * The file of a listed program, as {@link #assemble(String, boolean)}.
   *
   * @param text the bytes of a listing, from position to limit, which stay as they are
   * @param align whether a nop is put before each payload that would stand at an odd address
   * @return the bytes of a .dex file
   * @throws Refused if the listing breaks a rule
   */
  public static byte[] assemble(ByteBuffer text, boolean align) throws Refused {
    ByteBuffer given = text.slice();
    try {
      return answer(align ? Job.ALIGN : Job.ASSEMBLE, given);
    } catch (Refused refused) {
      refused.keep(given, align);
      throw refused;
    }
  }

  /**
   * Writes the file of a listed program. See {@link #strip(Path, Path)} for what becomes of {@code out}.
   *
   * @param text a listing
   * @param out where the .dex file goes
   * @param align whether a nop is put before each payload that would stand at an odd address
   * @throws Refused if the listing breaks a rule
   * @throws IOException if reading or writing fails
   */
  public static void assemble(Path text, Path out, boolean align) throws Refused, IOException {
    Output.write(out, assemble(read(text), align));
  }

  /**
   * A file's program, written again without what it doesn't need: debug information, annotations and unneeded names.
   *
   * @param file the bytes of a .dex file
   * @return the bytes of a .dex file
   * @throws Refused if they break a rule
   */
  public static byte[] strip(byte[] file) throws Refused {
    return strip(ByteBuffer.wrap(file));
  }

  /**
   * A file's program, written again without what it doesn't need, as {@link #strip(byte[])}.
   *
   * @param file the bytes of a .dex file, from position to limit, which stay as they are
   * @return the bytes of a .dex file
   * @throws Refused if they break a rule
   */
  public static byte[] strip(ByteBuffer file) throws Refused {
    return answer(Job.STRIP, file);
  }

  /**
   * Writes a file's program again without what it doesn't need.
   *
   * <p>{@code out} may be {@code file}. It is replaced by the whole answer, and keeps its mode, its access control
   * list, its attributes and, where the system allows it, its owner; if the file is refused, or the disk is full, it
   * stays as it was. The answer is written beside it ({@code OUT.0.part} and the like), as the manual page dexasm(1)
   * says under FILES, also of an {@code out} that can't be replaced: a file with several names, a mount point, a
   * device. Where such a one doesn't take all of it, the whole answer stays beside: it is the other file of the {@link
   * java.nio.file.FileSystemException}.
   *
   * @param file a .dex file
   * @param out where the .dex file goes
   * @throws Refused if the file breaks a rule
   * @throws IOException if reading or writing fails
   */
  public static void strip(Path file, Path out) throws Refused, IOException {
    Output.write(out, answer(Job.STRIP, read(file)));
  }

  /**
   * The name of a fault's number.
   *
   * @param number any number
   * @return its name, as {@code Signature}, and {@code Unknown} for a number that has none
   */
  public static String faultName(int number) {
    Library.ready();
    return number < 0 || number > 0xffff ? "Unknown" : Library.faultName(number);
  }

  /**
   * The version of the library.
   *
   * @return as {@code 0.7.0}
   */
  public static String version() {
    Library.ready();
    return Library.version();
  }

  /** The bytes of a file, read in pieces: at once Java would take as much direct memory, and keep it for the thread. */
  static ByteBuffer read(Path file) throws IOException {
    try (InputStream in = Files.newInputStream(file)) {
      return ByteBuffer.wrap(in.readAllBytes());
    }
  }

  /** A listing is ASCII. What isn't becomes a byte that no listing has, so that it is refused, half a character too. */
  private static byte[] ascii(String text) {
    byte[] made = new byte[text.length()];
    for (int at = 0; at < made.length; at++) {
      char one = text.charAt(at);
      made[at] = one < 0x80 ? (byte) one : (byte) 0xff;
    }
    return made;
  }

  /** The answer to a job; nothing of {@code check}. */
  static byte[] answer(Job job, ByteBuffer asked) throws Refused {
    ByteBuffer given = asked.slice(); // whoever moves the buffer's position meanwhile doesn't move this one's
    Library.ready();
    int length = given.remaining();
    boolean isCopied = !given.isDirect() || length == 0; // (an empty buffer may have no address)
    Pointer told = Library.take(TOLD + (isCopied ? (long) length : 0));
    try {
      if (isCopied && length > 0) {
        told.getByteBuffer(TOLD, length).put(given);
      }
      Pointer bytes = isCopied ? told.share(TOLD) : Native.getDirectBufferPointer(given);
      return job == Job.CHECK ? checked(bytes, length, told) : answer(job, bytes, length, told);
    } finally {
      Library.free(told);
      Reference.reachabilityFence(given);
    }
  }

  private static byte[] checked(Pointer bytes, long length, Pointer told) throws Refused {
    ended(Library.dexasm_check(bytes, length, told.share(CODE)), told);
    return new byte[0];
  }

  private static byte[] answer(Job job, Pointer bytes, long length, Pointer told) throws Refused {
    long capacity = job.guess(length);
    while (true) {
      Pointer out = Library.take(capacity);
      try {
        int status = call(job, bytes, length, out, capacity, told);
        long needed = told.getLong(0);
        if (status != Library.TOO_SMALL || needed <= capacity) {
          ended(status, told);
          return out.getByteArray(0, array(needed));
        }
        capacity = array(needed);
      } finally {
        Library.free(out);
      }
    }
  }

  private static int call(Job job, Pointer bytes, long length, Pointer out, long capacity, Pointer told) {
    Pointer fault = told.share(CODE);
    switch (job) {
      case LIST:
        return Library.dexasm_list(bytes, length, out, capacity, told, fault);
      case STRIP:
        return Library.dexasm_strip(bytes, length, out, capacity, told, fault);
      default:
        return Library.dexasm_assemble(bytes, length, (byte) (job == Job.ALIGN ? 1 : 0), out, capacity, told, fault);
    }
  }

  /** Returns if the call answered. */
  private static void ended(int status, Pointer told) throws Refused {
    switch (status) {
      case Library.ANSWERED:
        return;
      case Library.REFUSED:
        int number = Short.toUnsignedInt(told.getShort(CODE));
        throw new Refused(number, Library.faultName(number), told.getLong(PLACE));
      case Library.MEMORY:
        throw new OutOfMemoryError("dexasm: out of memory");
      default:
        throw new InternalError("libdexasm ended with status " + status);
    }
  }

  /** A length as that of an array. */
  private static int array(long bytes) {
    if (bytes < 0 || bytes > Integer.MAX_VALUE - 8) {
      String length = Long.toUnsignedString(bytes);
      throw new OutOfMemoryError("dexasm: the answer has " + length + " bytes, more than an array can hold");
    }
    return (int) bytes;
  }
}
