import dexasm.Dexasm;
import dexasm.Refused;
import java.io.ByteArrayInputStream;
import java.io.ByteArrayOutputStream;
import java.io.IOException;
import java.io.ObjectInputStream;
import java.io.ObjectOutputStream;
import java.nio.ByteBuffer;
import java.nio.ByteOrder;
import java.nio.charset.StandardCharsets;
import java.nio.file.Files;
import java.nio.file.Path;
import java.nio.file.attribute.PosixFilePermissions;
import java.security.MessageDigest;
import java.util.ArrayList;
import java.util.Arrays;
import java.util.List;
import java.util.stream.Collectors;
import java.util.stream.Stream;
import java.util.zip.Adler32;

/**
 * Tries the binding: {@code Tries FOLDER VERSION} on the cases that FOLDER/cases lists, each with what the command
 * answers; {@code Tries small FOLDER} with too small a heap; {@code Tries places FOLDER} on the listings that
 * FOLDER/places lists, each with where it is refused. The last line is 'N tried, M failed'.
 */
public final class Tries {
  private static final int BIG = 50_000_000; // bytes
  private static final String HELLO = "dex 035 listing 2\nclass LHello; 0x1\nend class\n";
  private static final byte[] HELLO_FILE = file(HELLO);

  private static int tried;
  private static int failed;

  private Tries() {}

  private interface Action {
    Object run() throws Exception;
  }

  public static void main(String[] words) throws Exception {
    if (words[0].equals("small")) {
      trySmallHeap(Path.of(words[1]));
    } else if (words[0].equals("places")) {
      tryPlaces(Path.of(words[1]));
      tryRefusals(Path.of(words[1]));
    } else {
      Path folder = Path.of(words[0]);
      for (String line : Files.readAllLines(folder.resolve("cases"))) {
        tryCase(folder, line.split("\t", -1));
      }
      tryTexts(words[1]);
      tryWrongArguments();
      tryPaths(folder);
      tryEnding(folder);
      tryBig();
      tryThreads();
    }
    System.out.println(tried + " tried, " + failed + " failed");
    System.exit(failed == 0 ? 0 : 1);
  }

  private static void check(String what, Object seen, Object wanted) {
    tried++;
    if (!wanted.equals(seen)) {
      failed++;
      System.err.println("Tries: " + what + ": FAILED: " + seen + ", and not " + wanted);
    }
  }

  /** What it answers, in words: a refusal's line, or the name of what else is thrown. */
  private static String ended(Action action) {
    try {
      Object made = action.run();
      return made instanceof byte[] ? shown((byte[]) made) : String.valueOf(made);
    } catch (Refused refused) {
      String line = "refused " + refused.number() + " " + refused.name() + " at " + refused.place();
      return line.equals(refused.getMessage()) ? line : "another message: " + refused.getMessage();
    } catch (Throwable thrown) {
      return thrown.getClass().getSimpleName();
    }
  }

  private static String shown(byte[] made) {
    return made.length + " bytes " + Arrays.hashCode(made);
  }

  private static byte[] file(String listing) {
    try {
      return Dexasm.assemble(listing, false);
    } catch (Refused refused) {
      throw new AssertionError(refused);
    }
  }

  private static Object run(String job, ByteBuffer given) throws Refused {
    switch (job) {
      case "check":
        Dexasm.check(given);
        return new byte[0];
      case "list":
        return Dexasm.list(given).getBytes(StandardCharsets.UTF_8);
      case "strip":
        return Dexasm.strip(given);
      default:
        return Dexasm.assemble(given, job.equals("align"));
    }
  }

  private static Object run(String job, byte[] given) throws Refused {
    switch (job) {
      case "check":
        Dexasm.check(given);
        return new byte[0];
      case "list":
        return Dexasm.list(given).getBytes(StandardCharsets.UTF_8);
      case "strip":
        return Dexasm.strip(given);
      default:
        return Dexasm.assemble(new String(given, StandardCharsets.ISO_8859_1), job.equals("align"));
    }
  }

  private static Object run(String job, Path given, Path out) throws Refused, IOException {
    Files.deleteIfExists(out);
    switch (job) {
      case "check":
        Dexasm.check(given);
        return new byte[0];
      case "list":
        Dexasm.list(given, out);
        break;
      case "strip":
        Dexasm.strip(given, out);
        break;
      default:
        Dexasm.assemble(given, out, job.equals("align"));
    }
    return Files.readAllBytes(out);
  }

  /** A line of cases: job, file, the line of a refusal or nothing, the file of the answer. */
  private static void tryCase(Path folder, String[] cells) throws IOException {
    String job = cells[0];
    byte[] given = Files.readAllBytes(folder.resolve(cells[1]));
    String wanted = cells[2].isEmpty() ? shown(Files.readAllBytes(folder.resolve(cells[3]))) : cells[2];
    String what = job + " of " + cells[1];
    check(what, ended(() -> run(job, given)), wanted);
    check(what + " as a path", ended(() -> run(job, folder.resolve(cells[1]), folder.resolve("out"))), wanted);
    int room = given.length + 20;
    ByteBuffer direct = ByteBuffer.allocateDirect(room);
    for (ByteBuffer buffer : List.of(ByteBuffer.allocate(room), direct, ByteBuffer.allocateDirect(room))) {
      buffer.position(7);
      buffer.put(given).flip().position(7);
      ByteBuffer asked = buffer == direct ? buffer : buffer.asReadOnlyBuffer();
      check(what + " as " + asked, ended(() -> run(job, asked)), wanted);
      check(what + ": position and limit", List.of(asked.position(), asked.limit()), List.of(7, 7 + given.length));
    }
  }

  private static void tryTexts(String version) {
    check("version", Dexasm.version(), version);
    int[] numbers = {1, 9, 73, 118, 255, 256, 65535, 65536 + 1, -65535, -1, Integer.MIN_VALUE};
    List<String> names = Arrays.stream(numbers).mapToObj(Dexasm::faultName).collect(Collectors.toList());
    List<String> wanted = new ArrayList<>(List.of("TooShort", "Signature", "Register", "Register", "Memory"));
    wanted.addAll(List.of("Unknown", "Unknown", "Unknown", "Unknown", "Unknown", "Unknown"));
    check("names of faults", names, wanted);
    for (String odd : List.of("\ud800", "\udfff", "\u00e9", "\u0100", "\ud83d\ude00", "\0", "\u2028")) {
      String listing = HELLO.replace("end class", "source \"" + odd + "\"\nend class");
      String what = "a listing with " + (int) odd.charAt(0);
      check(what, ended(() -> Dexasm.assemble(listing, false)), "refused 100 Word at 3");
    }
  }

  private static void tryWrongArguments() {
    check("no array", ended(() -> Dexasm.strip((byte[]) null)), "NullPointerException");
    check("no buffer", ended(() -> Dexasm.strip((ByteBuffer) null)), "NullPointerException");
    check("no text", ended(() -> Dexasm.assemble((String) null, false)), "NullPointerException");
    String none = "refused 1 TooShort at 0";
    check("an array of 0 bytes", ended(() -> Dexasm.strip(new byte[0])), none);
    check("a direct buffer of 0 bytes", ended(() -> Dexasm.strip(ByteBuffer.allocateDirect(0))), none);
    check("a listing of 0 bytes", ended(() -> Dexasm.assemble("", true)), "refused 106 NotEnded at 0");
  }

  private static void tryPaths(Path folder) throws Exception {
    Path given = Files.write(folder.resolve("given.dex"), HELLO_FILE);
    Path bad = Files.write(folder.resolve("bad.dex"), new byte[3]);
    Path out = Files.write(folder.resolve("kept"), new byte[] {1});
    Files.setPosixFilePermissions(out, PosixFilePermissions.fromString("rw-r----x"));
    check("OUT of a refused file", ended(() -> run("strip", bad, folder.resolve("none"))), "refused 1 TooShort at 3");
    check("OUT of a refused file is made", Files.exists(folder.resolve("none")), false);
    check("OUT of a refused file", ended(() -> kept(bad, out)), "refused 1 TooShort at 3");
    check("OUT of a refused file stays", shown(Files.readAllBytes(out)), shown(new byte[] {1}));
    check("no file", ended(() -> kept(folder.resolve("nothing"), out)), "NoSuchFileException");
    check("a folder", ended(() -> kept(folder, out)), "IOException");
    check("OUT", ended(() -> kept(given, out)), shown(HELLO_FILE));
    check("OUT's mode", PosixFilePermissions.toString(Files.getPosixFilePermissions(out)), "rw-r----x");
    check("OUT that is FILE", ended(() -> kept(out, out)), shown(HELLO_FILE));
    check("OUT in no folder", ended(() -> kept(given, folder.resolve("no/out"))), "NoSuchFileException");
    check("OUT that is a folder", ended(() -> kept(given, folder)), "FileSystemException");
    Thread.currentThread().interrupt();
    check("OUT of an interrupted thread", ended(() -> kept(given, out)), shown(HELLO_FILE));
    check("the thread is interrupted", Thread.interrupted(), true);
    try (Stream<Path> names = Files.list(folder)) {
      check("what is left beside OUT", names.filter(name -> name.toString().endsWith(".part")).count(), 0L);
    }
  }

  /** Lines of places: file, whether aligned, the lines that may be told, class and member where these are asked. */
  private static void tryPlaces(Path folder) throws IOException {
    for (String line : Files.readAllLines(folder.resolve("places"))) {
      String[] cells = line.split("\t", -1);
      ByteBuffer text = ByteBuffer.wrap(Files.readAllBytes(folder.resolve(cells[0])));
      Refused refused = refused(() -> Dexasm.assemble(text, cells[1].equals("1")));
      Arrays.fill(text.array(), (byte) ' '); // (its owner may write it again)
      String seen = refused == null ? "accepted" : String.valueOf(refused.line());
      boolean isSo = List.of(cells[2].split(" ")).contains(seen);
      check(cells[0] + ", a line of " + cells[2] + ", and not " + seen, isSo, true);
      if (refused != null && !cells[3].isEmpty()) {
        check(cells[0] + ", class and member", refused.className() + " " + refused.member(), cells[3]);
      }
    }
  }

  private static Refused refused(Action action) {
    try {
      action.run();
    } catch (Refused refused) {
      return refused;
    } catch (Exception other) {
      throw new AssertionError(other);
    }
    return null;
  }

  /** A refusal knows its place however the listing was given, and keeps no more than its words where it is sent. */
  private static void tryRefusals(Path folder) throws Exception {
    String listing = HELLO.replace("end class", "direct m ()V 9\ncode 1 0 0\nnop\nmove v0 v1\nend code\nend class");
    Path file = Files.writeString(folder.resolve("refused.txt"), listing);
    ByteBuffer direct = ByteBuffer.allocateDirect(listing.length() + 9);
    direct.position(9);
    direct.put(listing.getBytes(StandardCharsets.US_ASCII)).position(9);
    for (Action each : List.<Action>of(
        () -> Dexasm.assemble(listing, true),
        () -> Dexasm.assemble(direct, false),
        () -> {
          Dexasm.assemble(file, folder.resolve("none"), false);
          return null;
        })) {
      Refused refused = refused(each);
      String seen = refused.number() + " " + refused.line() + " " + refused.className() + " " + refused.member();
      check("the place of a refusal", seen, "118 6 LHello; LHello;->m()V");
      check("its message", refused.getMessage(), "refused 118 Register at 0");
    }
    ByteArrayOutputStream sent = new ByteArrayOutputStream();
    new ObjectOutputStream(sent).writeObject(refused(() -> Dexasm.assemble(listing, false)));
    Refused come = (Refused) new ObjectInputStream(new ByteArrayInputStream(sent.toByteArray())).readObject();
    check("a refusal that was sent", come.getMessage(), "refused 118 Register at 0");
    check("its place", come.line() + " " + come.className() + " " + come.member(), "0 null null");
    check("its size", sent.size() < 5000, true);
    Refused of = refused(() -> Dexasm.assemble(HELLO.replace("0x1", "x"), false));
    check("a fault of a line", of.number() + " " + of.line() + of.className() + of.member(), "102 2nullnull");
    of = refused(() -> Dexasm.assemble("", false));
    check("a fault of no line", of.number() + " " + of.line(), "106 0");
    of = refused(() -> Dexasm.strip(new byte[118]));
    check("a fault of a file", of.line() + of.className() + of.member(), "0nullnull");
  }

  /** Where Java is ending nothing waits for a file, so none is begun. */
  private static void tryEnding(Path folder) {
    Path given = folder.resolve("given.dex");
    Runtime.getRuntime().addShutdownHook(new Thread(() -> {
      if (!ended(() -> kept(given, folder.resolve("late"))).equals("IOException")) {
        Runtime.getRuntime().halt(9);
      }
    }));
  }

  private static byte[] kept(Path given, Path out) throws Refused, IOException {
    Dexasm.strip(given, out);
    return Files.readAllBytes(out);
  }

  /** A file of 50 MB: a small one, and zeros after it that nothing refers to. */
  private static void tryBig() throws Exception {
    byte[] big = Arrays.copyOf(HELLO_FILE, BIG);
    ByteBuffer fields = ByteBuffer.wrap(big).order(ByteOrder.LITTLE_ENDIAN);
    fields.putInt(32, BIG);
    MessageDigest signature = MessageDigest.getInstance("SHA-1");
    signature.update(big, 32, BIG - 32);
    System.arraycopy(signature.digest(), 0, big, 12, 20);
    Adler32 checksum = new Adler32();
    checksum.update(big, 12, BIG - 12);
    fields.putInt(8, (int) checksum.getValue());
    check("50 MB: check", ended(() -> run("check", big)), shown(new byte[0]));
    check("50 MB: strip", ended(() -> run("strip", big)), shown(HELLO_FILE));
    big[BIG - 1] = 1;
    check("50 MB, damaged", ended(() -> run("check", big)), "refused 8 Checksum at 8");
  }

  private static void tryThreads() throws InterruptedException {
    List<String> wrong = new ArrayList<>();
    List<Thread> threads = new ArrayList<>();
    for (int number = 0; number < 8; number++) {
      String listing = HELLO.replace("Hello", "Hello" + "x".repeat(number));
      String wanted = shown(file(listing));
      threads.add(new Thread(() -> repeat(listing, wanted, wrong)));
    }
    threads.forEach(Thread::start);
    for (Thread thread : threads) {
      thread.join();
    }
    check("eight threads", wrong, List.of());
  }

  private static void repeat(String listing, String wanted, List<String> wrong) {
    for (int round = 0; round < 50; round++) {
      String seen = ended(() -> Dexasm.strip(Dexasm.assemble(Dexasm.list(file(listing)), true)));
      String refused = ended(() -> Dexasm.strip(listing.getBytes(StandardCharsets.US_ASCII)));
      if (!seen.equals(wanted) || !refused.equals("refused 1 TooShort at " + listing.length())) {
        synchronized (wrong) {
          wrong.add(seen + " " + refused);
        }
      }
    }
  }

  /** With -Xmx8m: neither the file of 50 MB nor the answer of 10 MB has room. */
  private static void trySmallHeap(Path folder) throws IOException {
    ByteBuffer listing = ByteBuffer.allocateDirect(9_000_000);
    listing.put("dex 035\n".getBytes(StandardCharsets.US_ASCII));
    String name = "x".repeat(140); // long, since there are 65535 types at most
    for (int number = 0; listing.remaining() > 200; number++) {
      listing.put(String.format("class L%06d%s; 0x1\nend class\n", number, name).getBytes(StandardCharsets.US_ASCII));
    }
    listing.flip();
    Path big = folder.resolve("big");
    try (java.io.RandomAccessFile file = new java.io.RandomAccessFile(big.toFile(), "rw")) {
      file.setLength(BIG);
    }
    for (int round = 0; round < 2; round++) {
      check("no room for the answer", ended(() -> Dexasm.assemble(listing, false)), "OutOfMemoryError");
      check("no room for the file", ended(() -> kept(big, folder.resolve("none"))), "OutOfMemoryError");
      check("OUT without a room", Files.exists(folder.resolve("none")), false);
      check("the next call", ended(() -> Dexasm.list(HELLO_FILE)), HELLO);
    }
  }
}
