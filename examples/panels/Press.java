import java.io.IOException;
import java.math.BigInteger;
import java.net.URI;
import java.net.http.HttpClient;
import java.net.http.HttpRequest;
import java.net.http.HttpResponse;
import java.nio.channels.FileChannel;
import java.nio.charset.StandardCharsets;
import java.nio.file.Files;
import java.nio.file.Path;
import java.nio.file.StandardCopyOption;
import java.nio.file.StandardOpenOption;
import java.time.Duration;
import java.util.List;
import java.util.Map;
import java.util.concurrent.TimeUnit;
import java.util.regex.Matcher;
import java.util.regex.Pattern;

/**
 * Presses one command, and repeats it until the desk has said its last word on it.
 *
 * <p>Usage: {@code java Press.java http://127.0.0.1:8080 P1 p1.state R101-SET 8 2150}
 *
 * <p>The value {@code null} relinquishes. The file has the command that was pressed last, before it is sent; what a stop
 * left without an answer is sent again first. Without the file the numbers go on behind all that were used. Last words
 * go to the standard output, all else to the standard error. The status is that of this command:
 *
 * <pre>
 * 0 done                       5 differs
 * 1 a file or the disk failed  6 another run has the file
 * 2 the words                  7 the file is another panel's, or damaged
 * 3 refused                    8 the desk has no such panel, or can't read the request
 * 4 skipped, forgotten         9 the panel's numbers are used up
 * </pre>
 */
public class Press {
    private static final long LAST_NUMBER = 1_000_000_000_000L;
    private static final long WINDOW = 64;
    private static final Map<String, Integer> STATUSES =
            Map.of("done", 0, "refused", 3, "H6", 3, "skipped", 4, "forgotten", 4, "differs", 5);
    private static final List<String> ANSWERS =
            List.of("done", "refused", "H6", "skipped", "forgotten", "differs", "parked", "too_far");
    /** These end the run, and the command stays in the file. H1 to H5 tell of what stands before the desk. */
    private static final List<String> FAULTS = List.of("no_panel", "no_route", "bad_number", "H1", "H2", "H4", "H5");
    private static final String NAME = "[A-Za-z0-9_.-]{1,32}";
    private static final String COMMAND = NAME + " (?:[1-9]|1[0-6]) (?:null|0|-?[1-9][0-9]{0,18})";
    private static final String RULES =
            "names are 1 to 32 of A-Z a-z 0-9 - _ ., the priority 1 to 16, the value whole in 64 bits or null";
    private static final Pattern STATE =
            Pattern.compile("(" + NAME + ") ([1-9][0-9]{0,12}) (waits|answered|behind) (" + COMMAND + ")\n");

    /** In a field, since a channel that nothing holds is closed. */
    private static FileChannel locked;

    private final HttpClient client = HttpClient.newBuilder().version(HttpClient.Version.HTTP_1_1).build();
    private final String address;
    private final String panel;
    private final Path file;
    private String told = "";
    // What the file says: the command that was pressed last, its number, and how it stands.
    private long number;
    private String state = "behind";
    private String command;

    Press(String address, String panel, String file) {
        this.address = address.replaceAll("/+$", "");
        this.panel = panel;
        this.file = Path.of(file).toAbsolutePath();
    }

    /** Tells a line, but not the same again and again. */
    private void tell(String line) {
        if (!line.equals(told)) {
            System.err.println("press: " + line);
            told = line;
        }
    }

    private static void endUnless(boolean holds, int status, String line) {
        if (!holds) {
            System.err.println("press: " + line);
            System.exit(status);
        }
    }

    private static boolean isAddress(String word) {
        try {
            HttpRequest.newBuilder(URI.create(word));
            return URI.create(word).getPort() < 65_536;
        } catch (IllegalArgumentException malformed) {
            return false;
        }
    }

    private static void checkWords(String[] words) {
        endUnless(words.length == 6, 2, "usage: java Press.java ADDRESS PANEL FILE POINT PRIORITY VALUE");
        endUnless(isAddress(words[0]), 2, words[0] + " is no http:// or https:// address");
        String value = words[5];
        String named = String.join(" ", words[1], words[3], words[4], value);
        boolean isFormed = named.matches(NAME + " " + COMMAND);
        boolean isRight = isFormed && (value.equals("null") || new BigInteger(value).bitLength() < 64);
        endUnless(isRight, 2, named + ": " + RULES);
    }

    private Path beside(String ending) {
        return file.resolveSibling(file.getFileName() + ending);
    }

    /** The lock goes when this process does, killed or not. */
    private void lock() throws IOException {
        locked = FileChannel.open(beside(".lock"), StandardOpenOption.CREATE, StandardOpenOption.WRITE);
        endUnless(locked.tryLock() != null, 6, "another run has " + file);
    }

    private void load() throws IOException {
        if (!Files.exists(file)) {
            return;
        }
        Matcher found = STATE.matcher(Files.readString(file, StandardCharsets.ISO_8859_1));
        boolean isWhole = found.matches() && Long.parseLong(found.group(2)) <= LAST_NUMBER;
        endUnless(isWhole, 7, file + " is damaged: remove it, and the numbers go on behind all that were used");
        endUnless(found.group(1).equals(panel), 7, file + " is panel " + found.group(1) + "'s");
        number = Long.parseLong(found.group(2));
        state = found.group(3);
        command = found.group(4);
    }

    private void keep() throws IOException {
        Path written = beside(".new");
        Files.writeString(written, String.format("%s %d %s %s\n", panel, number, state, command));
        sync(written, StandardOpenOption.WRITE);
        Files.move(written, file, StandardCopyOption.ATOMIC_MOVE, StandardCopyOption.REPLACE_EXISTING);
        sync(file.getParent(), StandardOpenOption.READ);
    }

    private static void sync(Path path, StandardOpenOption option) throws IOException {
        try (FileChannel channel = FileChannel.open(path, option)) {
            channel.force(true);
        }
    }

    /** What came back, or why nothing did. */
    private String post(String route, String body) {
        // The request's own timeout lasts to the head of the response, the other one to its end.
        HttpRequest request = HttpRequest.newBuilder(URI.create(address + "/panels/" + panel + "/" + route))
                .timeout(Duration.ofSeconds(6)).POST(HttpRequest.BodyPublishers.ofString(body)).build();
        return client.sendAsync(request, HttpResponse.BodyHandlers.ofString()).orTimeout(6, TimeUnit.SECONDS)
                .handle((response, failed) -> failed == null ? response.body().strip() : failed.toString()).join();
    }

    private static String find(String key, String text) {
        Matcher found = Pattern.compile("\"" + key + "\"\\s*:\\s*\"?([A-Za-z0-9_]+)").matcher(text);
        return text.startsWith("{") && found.find() ? found.group(1) : "";
    }

    private static long next(String text) {
        return Long.parseLong(find("next", text));
    }

    private static String word(String text) {
        String fault = find("fault", text);
        return fault.isEmpty() ? find("answer", text) : fault;
    }

    /** Posts a delivery until one of the wanted answers comes. */
    private String ask(String route, String body, List<String> wanted) throws InterruptedException {
        for (long pause = 100; ; pause = Math.min(2 * pause, 6_000)) {
            String text = post(route, body);
            if (wanted.contains(word(text))) {
                return text;
            }
            endUnless(!FAULTS.contains(word(text)), 8, address + " answers " + text);
            String said = text.lines().findFirst().orElse("an empty page");
            tell("no answer from " + address + ", which is asked again: " + said);
            Thread.sleep(pause);
        }
    }

    /** Gives up what the desk, whose next number is told, has no command for below a number. */
    private void giveUp(long below, long next) throws InterruptedException {
        while (next < below) {
            String body = String.format("{\"upto\":%d}", Math.min(below, next + WINDOW));
            next = next(ask("skip", body, List.of("skip", "too_far")));
        }
    }

    /**
     * The first number behind all that may have been used. Under the last number of all the desk says {@code too_far} and
     * changes nothing; where it is near enough to be taken, priority 6 is refused.
     */
    private long begin() throws InterruptedException {
        String body = String.format("{\"number\":%d,\"point\":\"%s\",\"priority\":6,\"value\":null}", LAST_NUMBER, panel);
        String reply = ask("commands", body, ANSWERS);
        long first = word(reply).equals("too_far") ? next(reply) + WINDOW : LAST_NUMBER + 1;
        endUnless(first <= LAST_NUMBER, 9, "the panel's numbers are used up");
        giveUp(first, first - WINDOW);
        return first;
    }

    /** Sends the command until its last word has come, and answers the status of that. */
    private int finish() throws IOException, InterruptedException {
        String[] words = command.split(" ");
        String body = String.format("{\"number\":%d,\"point\":\"%s\",\"priority\":%s,\"value\":%s}",
                number, words[0], words[1], words[2]);
        String reply = ask("commands", body, ANSWERS);
        while (!STATUSES.containsKey(word(reply))) {
            // No older number is in flight.
            tell("the desk waits for older numbers, as one that was restored from a backup: they are given up");
            giveUp(number, next(reply));
            Thread.sleep(1_000);
            reply = ask("commands", body, ANSWERS);
        }
        System.out.println(reply);
        if (word(reply).equals("H6")) {
            tell("the desk can't read this command, so its number is given up");
            giveUp(number + 1, number);
        }
        // A number that was used or given up before tells of an older file that was put back: so may the next one be.
        int status = STATUSES.get(word(reply));
        state = status <= STATUSES.get("refused") ? "answered" : "behind";
        keep();
        if (status != 0) {
            String wasUsed = "had been used for another command, or given up: press it again";
            tell("number " + number + " (" + command + ") " + (state.equals("behind") ? wasUsed : "was refused"));
        }
        return status;
    }

    private int press(String pressed) throws IOException, InterruptedException {
        lock();
        load();
        if (state.equals("waits")) {
            finish();
        }
        number = state.equals("behind") ? begin() : number + 1;
        endUnless(number <= LAST_NUMBER, 9, "the panel's numbers are used up");
        state = "waits";
        command = pressed;
        keep();
        return finish();
    }

    public static void main(String[] words) throws InterruptedException {
        checkWords(words);
        try {
            System.exit(new Press(words[0], words[1], words[2]).press(String.join(" ", words[3], words[4], words[5])));
        } catch (IOException failed) {
            endUnless(false, 1, failed.toString());
        }
    }
}
