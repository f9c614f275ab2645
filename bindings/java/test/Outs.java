package dexasm;

import com.sun.jna.Function;
import com.sun.jna.NativeLibrary;
import java.io.BufferedReader;
import java.io.IOException;
import java.io.InputStreamReader;
import java.net.URI;
import java.net.URLEncoder;
import java.nio.charset.StandardCharsets;
import java.nio.file.FileSystemException;
import java.nio.file.Files;
import java.nio.file.Path;
import java.util.Arrays;
import java.util.stream.IntStream;

/**
 * Writes answers for tests/library/test_java_outs.py, many in one process. Each line of standard input asks for one;
 * its cells, between tabs, are a user, groups, a umask, the folder to be in, OUT, the file with the answer, and a call
 * of the C library that is to fail. A line says how it ended; or all ends with that, if OUT is a word of the command.
 */
public final class Outs {
  private static final Path BEGINS = Path.of("/it begins"); // (looked for by who reads the calls of this process)

  private Outs() {}

  public static void main(String[] words) throws IOException {
    if (words.length > 0) {
      byte[] answer = Files.readAllBytes(Path.of(words[1]));
      Files.exists(BEGINS);
      System.exit(ended(Path.of(words[0]), answer).equals("done\0") ? 0 : 3);
    }
    BufferedReader asked = new BufferedReader(new InputStreamReader(System.in, StandardCharsets.US_ASCII));
    for (String line = asked.readLine(); line != null; line = asked.readLine()) {
      System.out.println(URLEncoder.encode(ended(line.split("\t", -1)), StandardCharsets.UTF_8));
    }
  }

  private static String ended(String[] cells) throws IOException {
    byte[] answer = Files.readAllBytes(path(cells[5]));
    int user = Integer.parseInt(cells[0]);
    call("chdir", cells[3].isEmpty() ? "/" : path(cells[3]).toString());
    call("umask", Integer.parseInt(cells[2], 8));
    become(user, cells[1]);
    String[] fault = cells[6].split(" ");
    boolean isFailed = fault.length == 3;
    if (isFailed) {
      call("fail_call", fault[0], Integer.parseInt(fault[1]), Integer.parseInt(fault[2]));
    }
    try {
      return ended(path(cells[4]), answer) + (isFailed && call("has_failed") != 0 ? "\0met" : "\0");
    } catch (IllegalArgumentException wrong) {
      return "ValueError\0\0";
    } finally {
      become(0, "");
    }
  }

  /** Goes on as this effective user of these groups, or again as the one who started the process. */
  private static void become(int user, String groups) {
    if (user == 0) {
      call("seteuid", call("getuid"));
      call("setegid", call("getgid"));
      return;
    }
    IntStream numbers = Arrays.stream(groups.split(" ")).filter(one -> !one.isEmpty()).mapToInt(Integer::parseInt);
    int[] all = numbers.toArray();
    call("setgroups", (long) all.length, all);
    call("setegid", user);
    call("seteuid", user);
  }

  private static int call(String name, Object... given) {
    Function function = NativeLibrary.getProcess().getFunction(name);
    return function.invokeInt(given);
  }

  /** A path that is spelled as in a URI, so that it may have any byte. */
  private static Path path(String spelled) {
    if (spelled.startsWith("/")) {
      return Path.of(URI.create("file://" + spelled));
    }
    Path below = Path.of(URI.create("file:///" + spelled));
    return spelled.isEmpty() ? Path.of("") : below.subpath(0, below.getNameCount());
  }

  /** How writing ends: "done", or the system's reason; and after a zero the part that has the whole answer. */
  private static String ended(Path out, byte[] answer) {
    try {
      Output.write(out, answer);
      return "done\0";
    } catch (FileSystemException failed) {
      return failed.getReason() + "\0" + (failed.getOtherFile() == null ? "" : failed.getOtherFile());
    } catch (IOException failed) {
      return failed.getClass().getSimpleName() + "\0";
    }
  }
}
