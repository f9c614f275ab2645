package dexasm;

import com.sun.jna.Function;
import com.sun.jna.Native;
import com.sun.jna.NativeLibrary;
import com.sun.jna.Pointer;
import java.io.File;
import java.io.IOException;
import java.nio.charset.StandardCharsets;

/**
 * libdexasm's calls as dexasm.h declares them, by JNA's direct mapping. On x86-64, where alone the library runs,
 * size_t is a long and bool a byte.
 */
final class Library {
  /** The version that these calls belong to. */
  static final String VERSION = "0.7.0-dev";

  static final int ANSWERED = 0;
  static final int REFUSED = 1;
  static final int MEMORY = 4;
  static final int TOO_SMALL = 5;

  private static final String INSIDE = "/linux-x86-64/libdexasm.so";
  private static final int TEXT_AT = 8; // after needed
  private static final int SHORT_TEXT = 64; // bytes: room for a name of a fault (32 at most) or a version

  /** Why there is no library; null where there is one. */
  private static final String WHY_NOT = register();

  private Library() {}

  static native int dexasm_check(Pointer bytes, long length, Pointer fault);

  static native int dexasm_list(Pointer bytes, long length, Pointer out, long capacity, Pointer needed, Pointer fault);

  static native int dexasm_assemble(
      Pointer text, long length, byte align, Pointer out, long capacity, Pointer needed, Pointer fault);

  static native int dexasm_strip(Pointer bytes, long length, Pointer out, long capacity, Pointer needed, Pointer fault);

  static native int dexasm_fault_name(short code, Pointer out, long capacity, Pointer needed);

  static native int dexasm_version(Pointer out, long capacity, Pointer needed);

  /** Fails, each time with the reason, where there is no library. */
  static void ready() {
    if (WHY_NOT != null) {
      throw new UnsatisfiedLinkError(WHY_NOT);
    }
  }

  /** Memory of the C heap, which the caller frees. */
  static Pointer take(long bytes) {
    long address = Native.malloc(bytes);
    if (address == 0) {
      throw new OutOfMemoryError("dexasm: out of memory");
    }
    return new Pointer(address);
  }

  /** Whether a file descriptor is a terminal: System.console() asks of input and output together. */
  static boolean isTerminal(int descriptor) {
    return Function.getFunction("c", "isatty").invokeInt(new Object[] {descriptor}) == 1;
  }

  static void free(Pointer taken) {
    Native.free(Pointer.nativeValue(taken));
  }

  static String faultName(int number) {
    Pointer room = take(TEXT_AT + SHORT_TEXT);
    try {
      return text(room, dexasm_fault_name((short) number, room.share(TEXT_AT), SHORT_TEXT, room));
    } finally {
      free(room);
    }
  }

  static String version() {
    Pointer room = take(TEXT_AT + SHORT_TEXT);
    try {
      return text(room, dexasm_version(room.share(TEXT_AT), SHORT_TEXT, room));
    } finally {
      free(room);
    }
  }

  /** A text that a call has put after its length. */
  private static String text(Pointer room, int status) {
    long length = room.getLong(0);
    if (status != ANSWERED || length < 0 || length > SHORT_TEXT) {
      throw new InternalError("libdexasm ended with status " + status + " and a text of " + length + " bytes");
    }
    return new String(room.getByteArray(TEXT_AT, (int) length), StandardCharsets.US_ASCII);
  }

  private static String register() {
    String none = "no libdexasm " + VERSION + ": ";
    try {
      String found = find();
      Native.register(Library.class, NativeLibrary.getInstance(found));
      String version = version();
      return version.equals(VERSION) ? null : none + found + " is of version " + version;
    } catch (IOException | UnsatisfiedLinkError why) {
      return none + String.valueOf(why.getMessage()).strip().replaceAll(":?\\s*\\R\\s*", "; ");
    }
  }

  /** The library that is named, or the one inside the jar, or the system's. */
  private static String find() throws IOException {
    for (String named : new String[] {System.getProperty("dexasm.library"), System.getenv("DEXASM_LIBRARY")}) {
      if (named != null && !named.isEmpty()) {
        File file = new File(named).getAbsoluteFile();
        if (!file.exists()) {
          throw new IOException(file + " isn't there, which dexasm.library or DEXASM_LIBRARY names");
        }
        return file.getPath();
      }
    }
    if (Library.class.getResource(INSIDE) != null) {
      return Native.extractFromResourcePath(INSIDE, Library.class.getClassLoader()).getAbsolutePath();
    }
    return "libdexasm.so.0";
  }
}
