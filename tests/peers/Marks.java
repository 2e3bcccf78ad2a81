/*
 * SHOW against Java's decoding, which replaces malformed input, by way of probe.
 *
 * usage: java Marks.java PROBE
 *
 * Java takes ED A0..BF, and 80..BF after it, for one malformed item, where the standard's Table 3-9
 * has each of the bytes for itself: it marks by the table as SURRO widens it, and marks surrogates too.
 */
import java.io.IOException;
import java.io.UncheckedIOException;
import java.nio.charset.StandardCharsets;
import java.util.ArrayList;
import java.util.Arrays;
import java.util.HexFormat;
import java.util.List;
import java.util.Random;
import java.util.stream.Collectors;
import java.util.stream.IntStream;

final class Marks {
    private static final int LAST = 1, SURRO = 2, SHOW = 8;
    private static final int MOST_DIFFERENCES = 10;
    private static final HexFormat HEX = HexFormat.of().withUpperCase();
    private static final byte[] BORDER = HEX.parseHex("00417F808F909FA0B2BFC0C1C2DFE0E1ECEDEEEFF0F1F3F4F5F7F8FF");
    private static final byte[] NARROW_BORDER = HEX.parseHex("41808F909FA0BFC2E0EDF0F4");
    private static final int[] LIMITS = {0x80, 0x800, 0xD800, 0x110000};

    private final Random random = new Random(88172645463325252L);
    private final List<String> commands = new ArrayList<>(), expected = new ArrayList<>();

    // Inputs.

    /** All strings of that length over the bytes. */
    private static List<byte[]> stringsOver(byte[] bytes, int length) {
        if (length == 0)
            return List.of(new byte[0]);
        List<byte[]> all = new ArrayList<>();
        for (byte[] s : stringsOver(bytes, length - 1))
            for (byte b : bytes) {
                byte[] longer = Arrays.copyOf(s, length);
                longer[length - 1] = b;
                all.add(longer);
            }
        return all;
    }

    private int randomCode() {
        int code = random.nextInt(LIMITS[random.nextInt(LIMITS.length)]);
        return 0xD800 <= code && code <= 0xDFFF ? 0x2032 : code;
    }

    /** A text of which one byte is changed. */
    private byte[] damaged() {
        int[] codes = IntStream.generate(this::randomCode).limit(1 + random.nextInt(12)).toArray();
        byte[] bytes = new String(codes, 0, codes.length).getBytes(StandardCharsets.UTF_8);
        bytes[random.nextInt(bytes.length)] = (byte) random.nextInt(256);
        return bytes;
    }

    private List<byte[]> strings() {
        List<byte[]> all = new ArrayList<>();
        for (int length = 1; length <= 3; length++)
            all.addAll(stringsOver(BORDER, length));
        all.addAll(stringsOver(NARROW_BORDER, 4));
        for (int i = 0; i < 30_000; i++)
            all.add(damaged());
        return all;
    }

    // Both sides.

    private static boolean beginsSurrogate(byte[] s, int at) {
        return s[at] == (byte) 0xED && (byte) 0xA0 <= s[at + 1] && s[at + 1] <= (byte) 0xBF;
    }

    private void add(byte[] s, int flags) {
        String codes = new String(s, StandardCharsets.UTF_8).codePoints().mapToObj(c -> String.format("%X", c))
            .collect(Collectors.joining(","));
        commands.add("read " + flags + " " + s.length + " " + HEX.formatHex(s));
        expected.add("0 " + s.length + " " + codes + " -");
    }

    private void add(byte[] s) {
        add(s, LAST | SURRO | SHOW);
        if (IntStream.range(0, s.length - 1).noneMatch(at -> beginsSurrogate(s, at)))
            add(s, LAST | SHOW);
    }

    /** An answer with the surrogates marked that SURRO has read. */
    private static String marked(String answer) {
        return answer.replaceAll("\\bD[89A-F][0-9A-F]{2}\\b", "FFFD");
    }

    private void feed(Process process) {
        try (var to = process.getOutputStream()) {
            to.write((String.join("\n", commands) + "\n").getBytes(StandardCharsets.US_ASCII));
        } catch (IOException e) {
            throw new UncheckedIOException(e);
        }
    }

    private List<String> ask(String probe) throws IOException, InterruptedException {
        Process process = new ProcessBuilder(probe).redirectError(ProcessBuilder.Redirect.INHERIT).start();
        Thread feeder = new Thread(() -> feed(process));
        feeder.start();
        List<String> answers = new String(process.getInputStream().readAllBytes(), StandardCharsets.US_ASCII).lines().toList();
        feeder.join();
        if (process.waitFor() != 0 || answers.size() != commands.size())
            throw new IllegalStateException(commands.size() + " commands, " + answers.size() + " answers, exit status " + process.exitValue());
        return answers;
    }

    private int compare(List<String> answers) {
        int differences = 0;
        for (int i = 0; i < answers.size() && differences < MOST_DIFFERENCES; i++) {
            if (expected.get(i).equals(marked(answers.get(i))))
                continue;
            System.out.printf("difference: %s%n  Java: %s%n  here: %s%n", commands.get(i), expected.get(i), answers.get(i));
            differences++;
        }
        return differences;
    }

    public static void main(String[] args) throws IOException, InterruptedException {
        if (args.length != 1) {
            System.err.println("usage: java Marks.java PROBE");
            System.exit(2);
        }
        Marks marks = new Marks();
        marks.strings().forEach(marks::add);
        int differences = marks.compare(marks.ask(args[0]));
        System.out.printf("%d comparisons, %d differences%n", marks.commands.size(), differences);
        System.exit(differences == 0 ? 0 : 1);
    }
}
