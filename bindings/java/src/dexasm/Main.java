package dexasm;

import java.io.FileDescriptor;
import java.io.FileOutputStream;
import java.io.IOException;
import java.nio.ByteBuffer;
import java.nio.charset.StandardCharsets;
import java.nio.file.Files;
import java.nio.file.InvalidPathException;
import java.nio.file.Path;
import java.util.Iterator;
import java.util.List;
import java.util.Locale;
import java.util.stream.Collectors;
import java.util.stream.Stream;

/** {@code java -jar dexasm.jar check|list|assemble|strip ..}: as the command dexasm, with its lines and its status. */
public final class Main {
  private static final int BAD_WORDS = 2;
  private static final int FAILED = 3;
  private static final int NO_LIBRARY = 70; // as of the command's launcher where there is no program
  private static final int PIECE = 1 << 20; // bytes: the runtime copies as much as is written at once
  private static final String HELP =
      "Checks, lists, assembles and strips .dex files (Dalvik Executable, version 035), by libdexasm\n"
          + "\n"
          + "Usage: java -jar dexasm.jar check    [FILE] [--output OUT]\n"
          + "       java -jar dexasm.jar list     [FILE] [--output OUT]\n"
          + "       java -jar dexasm.jar assemble [FILE] [--output OUT] [--align]\n"
          + "       java -jar dexasm.jar strip    [FILE] [--output OUT]\n"
          + "\n"
          + "Without FILE, or if FILE is -, it reads standard input; without --output, or if OUT is -,\n"
          + "it writes to standard output. A .dex file is not written to a terminal. OUT is replaced only when\n"
          + "the output is complete.\n"
          + "\n"
          + "  -o, --output OUT  Write to OUT\n"
          + "      --align       Put a nop before each payload at an odd address\n"
          + "  -h, --help        Print help\n"
          + "  -V, --version     Print version\n"
          + "\n"
          + "Exit status: 0 success, 1 the file or the listing is refused, 2 usage error,\n"
          + "3 reading or writing failed, 4 out of memory, 70 there is no library or no JNA.\n";

  private final Job job;
  private String file;
  private String out;
  private boolean isAligned;

  private Main(Job job) {
    this.job = job;
  }

  /** How a run ends before it is done: its status, and what it says. */
  private static final class Ended extends Exception {
    private static final long serialVersionUID = 1;

    private final int status;

    Ended(int status, String said) {
      super(said, null, false, false);
      this.status = status;
    }
  }

  /**
   * Runs the command, and ends the process with its status.
   *
   * @param words the words of the command line
   */
  public static void main(String[] words) {
    int status = 0;
    try {
      run(List.of(words));
    } catch (Ended ended) {
      status = ended.status;
      System.err.println(ended.getMessage());
    } catch (OutOfMemoryError none) {
      status = Library.MEMORY;
      System.err.println("dexasm: out of memory");
    } catch (NoClassDefFoundError none) {
      status = NO_LIBRARY;
      System.err.println("dexasm: JNA isn't there: put its jna.jar beside dexasm.jar (Debian has it as libjna-java)");
    } catch (UnsatisfiedLinkError none) {
      status = NO_LIBRARY;
      System.err.println("dexasm: " + escaped(none.getMessage()));
    }
    System.exit(status);
  }

  private static void run(List<String> words) throws Ended {
    for (String word : words) {
      if (isMangled(word)) {
        throw new Ended(BAD_WORDS, "dexasm: an argument is not UTF-8, or this locale isn't: try LC_ALL=C.UTF-8");
      }
    }
    String first = words.isEmpty() ? "" : words.get(0);
    if (first.startsWith("-h") || first.equals("--help")) {
      print(HELP.getBytes(StandardCharsets.US_ASCII));
    } else if (first.startsWith("-V") || first.equals("--version")) {
      print(("dexasm " + Dexasm.version() + "\n").getBytes(StandardCharsets.US_ASCII));
    } else if (words.isEmpty()) {
      throw wrong("a subcommand is required: check, list, assemble or strip");
    } else {
      Main asked = new Main(jobOf(first));
      if (asked.takes(words.subList(1, words.size()).iterator())) {
        asked.serve();
      }
    }
  }

  private static Job jobOf(String word) throws Ended {
    for (Job job : Job.values()) {
      if (job != Job.ALIGN && word.equals(job.name().toLowerCase(Locale.ROOT))) {
        return job;
      }
    }
    throw wrong(word.startsWith("-") ? unexpected(word) : "unrecognized subcommand '" + word + "'");
  }

  /** Whether the words ask for the job, and not for help. */
  private boolean takes(Iterator<String> words) throws Ended {
    boolean isOption = true;
    while (words.hasNext()) {
      String word = words.next();
      if (isOption && word.equals("--")) {
        isOption = false;
      } else if (isOption && (word.startsWith("-h") || word.equals("--help"))) {
        print(HELP.getBytes(StandardCharsets.US_ASCII));
        return false;
      } else if (isOption && word.startsWith("-") && word.length() > 1) {
        takeOption(word, words);
      } else if (file == null) {
        file = word;
      } else {
        throw wrong(unexpected(word));
      }
    }
    return true;
  }

  private void takeOption(String word, Iterator<String> words) throws Ended {
    if (word.equals("--align") && job == Job.ASSEMBLE) {
      once("--align", isAligned);
      isAligned = true;
    } else if (word.equals("--output") || word.equals("-o")) {
      once("--output <OUT>", out != null);
      out = valueIn(words);
    } else if (word.startsWith("--output=") || word.startsWith("-o")) {
      once("--output <OUT>", out != null);
      String value = word.substring(word.startsWith("-o") ? 2 : "--output=".length());
      out = word.startsWith("-o=") ? value.substring(1) : value;
    } else {
      throw wrong(unexpected(word));
    }
  }

  private static String valueIn(Iterator<String> words) throws Ended {
    String value = words.hasNext() ? words.next() : "--";
    if (value.startsWith("-") && value.length() > 1) {
      throw wrong("a value is required for '--output <OUT>' but none was supplied");
    }
    return value;
  }

  private static void once(String option, boolean isGiven) throws Ended {
    if (isGiven) {
      throw wrong("the argument '" + option + "' cannot be used multiple times");
    }
  }

  private void serve() throws Ended {
    boolean isToOutput = isStream(out);
    if (isToOutput && (job == Job.ASSEMBLE || job == Job.STRIP) && Library.isTerminal(1)) {
      throw new Ended(BAD_WORDS, "dexasm: a .dex file isn't for a terminal: use --output FILE or a pipe");
    }
    ByteBuffer given;
    try {
      given = isStream(file) ? ByteBuffer.wrap(input()) : Dexasm.read(path(file));
    } catch (IOException | InvalidPathException why) {
      throw new Ended(FAILED, "dexasm: cannot read");
    }
    byte[] made;
    try {
      made = Dexasm.answer(isAligned ? Job.ALIGN : job, given);
    } catch (Refused refused) {
      throw new Ended(Library.REFUSED, "dexasm: " + refused.getMessage());
    }
    if (job == Job.CHECK) {
      made = "ok\n".getBytes(StandardCharsets.US_ASCII);
    }
    if (isToOutput) {
      print(made);
      return;
    }
    try {
      Output.write(path(out), made);
    } catch (IOException | InvalidPathException why) {
      throw new Ended(FAILED, "dexasm: cannot write");
    }
  }

  /** Whether a word, or none, stands for a standard stream. */
  private static boolean isStream(String word) {
    return word == null || word.equals("-");
  }

  private static byte[] input() throws IOException {
    if (isInputClosed()) {
      throw new IOException("standard input is closed");
    }
    return System.in.readAllBytes();
  }

  /**
   * Whether there was no standard input when Java began. Its number has then gone to the first file that Java opens and
   * keeps open, that of its classes, which no other number leads to.
   */
  private static boolean isInputClosed() {
    Path classes = Path.of(System.getProperty("java.home"), "lib", "modules");
    try (Stream<Path> all = Files.list(Path.of("/proc/self/fd"))) {
      Stream<Path> own = all.filter(one -> isSame(one, classes));
      return own.map(one -> one.getFileName().toString()).collect(Collectors.toList()).equals(List.of("0"));
    } catch (IOException unknown) {
      return false; // (/proc isn't there)
    }
  }

  private static boolean isSame(Path one, Path other) {
    try {
      return Files.isSameFile(one, other);
    } catch (IOException absent) {
      return false;
    }
  }

  /** A path as the system takes it: Java drops the slash at the end, which says that a folder is meant. */
  private static Path path(String word) throws IOException {
    if (word.isEmpty() || word.endsWith("/")) {
      throw new IOException("no file's name");
    }
    return Path.of(word);
  }

  /** To standard output, whose failures System.out would keep to itself. */
  private static void print(byte[] made) throws Ended {
    try (FileOutputStream to = new FileOutputStream(FileDescriptor.out)) {
      for (int at = 0; at < made.length; at += PIECE) {
        to.write(made, at, Math.min(PIECE, made.length - at));
      }
    } catch (IOException why) {
      throw new Ended(FAILED, "dexasm: cannot write");
    }
  }

  /** Whether Java may have another word than was typed: it has a sign in the place of what the locale doesn't spell. */
  private static boolean isMangled(String word) {
    boolean isUtf8 = "UTF-8".equalsIgnoreCase(System.getProperty("sun.jnu.encoding"));
    return word.indexOf('\ufffd') >= 0 || !isUtf8 && word.indexOf('?') >= 0;
  }

  private static Ended wrong(String what) {
    return new Ended(BAD_WORDS, "error: " + escaped(what) + "\n\nFor more information, try '--help'.");
  }

  private static String unexpected(String word) {
    return "unexpected argument '" + word + "' found";
  }

  /** A text with escapes in the place of what a terminal obeys. */
  private static String escaped(String text) {
    return text.codePoints().mapToObj(Main::escaped).collect(Collectors.joining());
  }

  private static String escaped(int one) {
    switch (Character.getType(one)) {
      case Character.CONTROL:
      case Character.FORMAT:
      case Character.LINE_SEPARATOR:
      case Character.PARAGRAPH_SEPARATOR:
      case Character.PRIVATE_USE:
      case Character.SURROGATE:
      case Character.UNASSIGNED:
        return String.format("\\u{%x}", one);
      default:
        return Character.toString(one);
    }
  }
}
