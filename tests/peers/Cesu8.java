/*
 * CESU-8 against Java's charset of that name, by way of probe.
 *
 * usage: java Cesu8.java PROBE
 *
 * Java reads each half of a pair for itself. It gives out a half that stands alone, which is bad here, and
 * its malformed items end with the half. So it has other bad stretches in two cases (OTHER_STRETCH):
 *   - ED B0..BF after no first half: ED is bad alone, and Java takes it with what follows;
 *   - a first half, then ED, or ED B0..BF, and no second half: these 4 or 5 bytes are one stretch, and two
 *     items of Java's.
 * There the stretch is as the rules have it, and what is around it as Java has it.
 */
import java.io.IOException;
import java.io.UncheckedIOException;
import java.nio.ByteBuffer;
import java.nio.CharBuffer;
import java.nio.charset.Charset;
import java.nio.charset.CoderResult;
import java.nio.charset.StandardCharsets;
import java.util.ArrayList;
import java.util.Arrays;
import java.util.HexFormat;
import java.util.List;
import java.util.Random;
import java.util.regex.Matcher;
import java.util.regex.Pattern;
import java.util.stream.Collectors;
import java.util.stream.IntStream;

final class Cesu8 {
    private static final Charset CESU_8 = Charset.forName("CESU-8");
    private static final int LAST = 1, STRICT = 4, SHOW = 8;
    private static final int[] READER_FLAGS = {0, LAST, STRICT, STRICT | LAST, SHOW, SHOW | LAST};
    private static final int MOST_DIFFERENCES = 10;
    private static final int MOST_CALLS = 500; // many more than a run of these needs
    private static final HexFormat HEX = HexFormat.of().withUpperCase();
    private static final byte[] BORDER = HEX.parseHex("00417F808F909FA0AFB0BFC0C1C2DFE0E1ECEDEEEFF0F4FF");
    private static final byte[] NARROW_BORDER = HEX.parseHex("41809FA0AFB0E0EDF0");
    private static final String PAIR = "EDA080EDB080";
    private static final List<String> LONG_FORMS = List.of(PAIR, "EDA080EDBFBF", "EDAFBFEDB080", "EDAFBFEDBFBF", "F0908080", "F48FBFBF");
    private static final int[] LIMITS = {0x80, 0x800, 0xD800, 0x110000};
    private static final String START = "0".repeat(32);

    private static final String FIRST_HALF = "\\xED[\\xA0-\\xAF][\\x80-\\xBF]", SECOND_HALF = "\\xED[\\xB0-\\xBF][\\x80-\\xBF]";
    private static final Pattern OTHER_STRETCH = Pattern.compile(
        "(?<!" + FIRST_HALF + ")\\xED(?=[\\xB0-\\xBF])|" + FIRST_HALF + "(?!" + SECOND_HALF + ")\\xED[\\xB0-\\xBF]?");
    private static final Pattern CUT_PAIR = Pattern.compile(FIRST_HALF + "(\\xED[\\xB0-\\xBF]?)?");

    private final String probe;
    private final Random random = new Random(88172645463325252L);
    private final List<String> commands = new ArrayList<>(), expected = new ArrayList<>();
    private int compared, differences, otherwise;

    private Cesu8(String probe) {
        this.probe = probe;
    }

    // Inputs.

    /** All strings of that length over the bytes. */
    private static List<byte[]> stringsOver(byte[] bytes, int length) {
        if (length == 0)
            return List.of(new byte[0]);
        List<byte[]> all = new ArrayList<>();
        for (byte[] s : stringsOver(bytes, length - 1))
            for (byte b : bytes) {
                byte[] longer = Arrays.copyOf(s, length);
                longer[length - 1] = b;
                all.add(longer);
            }
        return all;
    }

    /** The string with one byte changed to a border byte, in every way. */
    private static List<byte[]> changed(byte[] s) {
        List<byte[]> all = new ArrayList<>();
        for (int at = 0; at < s.length; at++)
            for (byte b : BORDER) {
                byte[] other = s.clone();
                other[at] = b;
                all.add(other);
            }
        return all;
    }

    private static List<byte[]> beginnings(byte[] s) {
        return IntStream.range(1, s.length).mapToObj(length -> Arrays.copyOf(s, length)).toList();
    }

    private static boolean isSurrogate(int code) {
        return 0xD800 <= code && code <= 0xDFFF;
    }

    private int randomCode() {
        int code = random.nextInt(LIMITS[random.nextInt(LIMITS.length)]);
        return isSurrogate(code) ? 0x2032 : code;
    }

    private int[] randomText() {
        return IntStream.generate(this::randomCode).limit(1 + random.nextInt(12)).toArray();
    }

    private static byte[] encode(int[] codes) {
        return new String(codes, 0, codes.length).getBytes(CESU_8);
    }

    /** A text of which one byte is changed; some are UTF-8, with four bytes for a pair. */
    private byte[] damaged() {
        int[] codes = randomText();
        byte[] bytes = random.nextInt(4) == 0 ? new String(codes, 0, codes.length).getBytes(StandardCharsets.UTF_8) : encode(codes);
        bytes[random.nextInt(bytes.length)] = (byte) random.nextInt(256);
        return bytes;
    }

    private List<byte[]> strings() {
        List<byte[]> all = new ArrayList<>();
        for (int length = 1; length <= 3; length++)
            all.addAll(stringsOver(BORDER, length));
        all.addAll(stringsOver(NARROW_BORDER, 4));
        for (String form : LONG_FORMS)
            for (byte[] s : changed(HEX.parseHex(form))) {
                all.add(s);
                all.addAll(beginnings(s));
            }
        changed(HEX.parseHex(PAIR)).forEach(s -> all.addAll(changed(s)));
        for (int i = 0; i < 2000; i++)
            all.add(encode(randomText()));
        for (int i = 0; i < 8000; i++)
            all.add(damaged());
        return all.stream().map(HEX::formatHex).distinct().map(HEX::parseHex).toList();
    }

    // Java's side.

    /** The codes before the first bad or cut sequence, its place, and its length if it is bad, else 0. */
    private record Reading(int[] codes, int at, int length) {
        boolean bad() {
            return length > 0;
        }

        String shownLength() {
            return bad() ? "" + length : "-";
        }
    }

    private static String latin1(byte[] s) {
        return new String(s, StandardCharsets.ISO_8859_1);
    }

    /** A half that Java gives out alone is bad, unless it begins a cut pair. */
    private static Reading read(byte[] s, boolean last) {
        CharBuffer chars = CharBuffer.allocate(s.length);
        CoderResult result = CESU_8.newDecoder().decode(ByteBuffer.wrap(s), chars, last);
        String text = chars.flip().toString();
        int[] codes = text.codePoints().takeWhile(code -> !isSurrogate(code)).toArray();
        int at = encode(codes).length;
        String rest = latin1(s).substring(at);
        if (!last && CUT_PAIR.matcher(rest).matches())
            return new Reading(codes, at, 0);
        boolean half = codes.length < text.codePoints().count();
        int length = half ? 3 : result.isMalformed() ? result.length() : 0;
        Matcher other = OTHER_STRETCH.matcher(rest);
        if (!other.lookingAt())
            return new Reading(codes, at, length);
        if (other.end() == length)
            throw new IllegalStateException("no other stretch than Java's: " + shown(s));
        return new Reading(codes, at, other.end());
    }

    private static int[] readMarked(byte[] s) {
        Matcher other = OTHER_STRETCH.matcher(latin1(s));
        StringBuilder text = new StringBuilder();
        int at = 0;
        while (other.region(at, s.length).find()) {
            text.append(new String(s, at, other.start() - at, CESU_8)).append('\uFFFD');
            at = other.end();
        }
        text.append(new String(s, at, s.length - at, CESU_8));
        return text.codePoints().map(code -> isSurrogate(code) ? 0xFFFD : code).toArray();
    }

    // One call a line.

    private static String shown(int[] codes) {
        return codes.length == 0 ? "-" : Arrays.stream(codes).mapToObj(Integer::toHexString).collect(Collectors.joining(",")).toUpperCase();
    }

    private static String shown(byte[] s) {
        return s.length == 0 ? "-" : HEX.formatHex(s);
    }

    private void addRead(int flags, byte[] s, String answer) {
        commands.add("cesu8-read " + flags + " " + s.length + " " + shown(s));
        expected.add(answer);
    }

    private void addWrite(int flags, int[] codes, byte[] s) {
        commands.add("cesu8-write " + flags + " " + s.length + " " + shown(codes));
        expected.add("0 " + codes.length + " " + shown(s));
    }

    /** Codes to bytes and back. */
    private void addText(int[] codes, int[] writerFlags, int[] readerFlags) {
        byte[] s = encode(codes);
        for (int flags : writerFlags)
            addWrite(flags, codes, s);
        String back = shown(new String(s, CESU_8).codePoints().toArray());
        for (int flags : readerFlags)
            addRead(flags, s, "0 " + s.length + " " + back + " -");
    }

    private void addScalars() {
        for (int first = 0; first < 0x110000; first += 128)
            if (!isSurrogate(first))
                addText(IntStream.range(first, first + 128).toArray(), new int[] {0}, new int[] {STRICT | LAST});
    }

    private void addTexts() {
        for (int i = 0; i < 1500; i++)
            addText(randomText(), new int[] {0, STRICT}, READER_FLAGS);
    }

    private void addString(byte[] s) {
        Reading found = read(s, true);
        addRead(STRICT | LAST, s, (found.bad() ? 3 : 0) + " " + found.at + " " + shown(found.codes) + " " + found.shownLength());
        addRead(SHOW | LAST, s, "0 " + s.length + " " + shown(readMarked(s)) + " -");
        if (OTHER_STRETCH.matcher(latin1(s)).find())
            otherwise++;
    }

    // Both sides.

    private static void feed(Process process, List<String> commands) {
        try (var to = process.getOutputStream()) {
            to.write((String.join("\n", commands) + "\n").getBytes(StandardCharsets.US_ASCII));
        } catch (IOException e) {
            throw new UncheckedIOException(e);
        }
    }

    private List<String> ask(List<String> commands) throws IOException, InterruptedException {
        Process process = new ProcessBuilder(probe).redirectError(ProcessBuilder.Redirect.INHERIT).start();
        Thread feeder = new Thread(() -> feed(process, commands));
        feeder.start();
        List<String> answers = new String(process.getInputStream().readAllBytes(), StandardCharsets.US_ASCII).lines().toList();
        feeder.join();
        if (process.waitFor() != 0 || answers.size() != commands.size())
            throw new IllegalStateException(commands.size() + " commands, " + answers.size() + " answers, exit status " + process.exitValue());
        return answers;
    }

    private void compare(String what, String expected, String answer) {
        compared++;
        if (answer.equals(expected) || differences == MOST_DIFFERENCES)
            return;
        System.out.printf("difference: %s%n  Java: %s%n  here: %s%n", what, expected, answer);
        differences++;
    }

    private void compareCalls() throws IOException, InterruptedException {
        List<String> answers = ask(commands);
        for (int i = 0; i < answers.size(); i++)
            compare(commands.get(i), expected.get(i), answers.get(i));
    }

    // The 16-bit steps against Java's chars. All runs go on together: a batch has one command of each.

    private static final class Run {
        final byte[] source;
        final StringBuilder units = new StringBuilder();
        String record = START, bad = "-", length = "-";
        int at;
        boolean over;

        Run(byte[] source) {
            this.source = source;
        }

        String command(int bytes) {
            byte[] piece = Arrays.copyOfRange(source, at, Math.min(at + bytes, source.length));
            return "cesu8-step16 " + record + " " + shown(piece);
        }

        void end(String why) {
            bad = why;
            over = true;
        }

        void take(String answer) {
            String[] fields = answer.split(" ");
            if (fields.length != 7 || !fields[0].matches("unit|null|continuation|incomplete|bad")) {
                end(answer);
                return;
            }
            at += Integer.parseInt(fields[3]);
            if (!fields[2].equals("-"))
                units.append(fields[2]).append(',');
            length = fields[5];
            record = fields[6];
            if (fields[0].equals("bad"))
                end("" + (at - Integer.parseInt(fields[4])));
            else
                over = at == source.length && !record.startsWith("03"); // 03: a second unit is due
        }

        String outcome() {
            return units + " " + bad + " " + length + " " + record;
        }
    }

    private static String heldRecord(byte[] held) {
        return held.length == 0 ? START : (String.format("01%02X", held.length) + HEX.formatHex(held) + START).substring(0, 32);
    }

    /** The units, the first bad place and its length, and the state after the last byte. */
    private static String outcomeByJava(byte[] s) {
        Reading found = read(s, false);
        String units = new String(found.codes, 0, found.codes.length).chars().mapToObj(u -> String.format("%X,", u)).collect(Collectors.joining());
        byte[] held = Arrays.copyOfRange(s, found.at, s.length);
        return units + " " + (found.bad() ? found.at : "-") + " " + found.shownLength() + " " + (found.bad() ? START : heldRecord(held));
    }

    private void compareRuns(List<byte[]> sources) throws IOException, InterruptedException {
        List<Run> runs = sources.stream().map(Run::new).toList(), live = runs;
        for (int call = 0; call < MOST_CALLS && !live.isEmpty(); call++) {
            List<String> answers = ask(live.stream().map(run -> run.command(random.nextInt(7))).toList());
            for (int i = 0; i < answers.size(); i++)
                live.get(i).take(answers.get(i));
            live = live.stream().filter(run -> !run.over).toList();
        }
        live.forEach(run -> run.end("no end"));
        for (Run run : runs)
            compare("steps over " + shown(run.source), outcomeByJava(run.source), run.outcome());
    }

    public static void main(String[] args) throws IOException, InterruptedException {
        if (args.length != 1) {
            System.err.println("usage: java Cesu8.java PROBE");
            System.exit(2);
        }
        Cesu8 test = new Cesu8(args[0]);
        List<byte[]> strings = test.strings();
        test.addScalars();
        test.addTexts();
        strings.forEach(test::addString);
        test.compareCalls();
        test.compareRuns(strings);
        System.out.printf("strings with another stretch than Java's: %d of %d%n", test.otherwise, strings.size());
        System.out.printf("%d comparisons, %d differences%n", test.compared, test.differences);
        System.exit(test.differences == 0 ? 0 : 1);
    }
}
