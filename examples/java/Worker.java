import java.io.BufferedReader;
import java.io.IOException;
import java.io.InputStreamReader;
import java.io.PrintStream;
import java.nio.charset.StandardCharsets;
import java.nio.file.Files;
import java.nio.file.Path;
import java.util.ArrayList;
import java.util.Arrays;
import java.util.List;
import java.util.stream.IntStream;

/** The worker of ../c/worker.c, by Dexkit.java: a request a line, an answer a line. */
public final class Worker {
    private static final String[] CAPPED = {"types", "protos", "fields", "methods", "short-strings", "weight"};

    private static byte[] load(String name) throws IOException {
        try {
            return Files.readAllBytes(Path.of(name));
        } catch (IOException why) {
            throw new IOException(name + ": cannot be read", why);
        }
    }

    private static byte[][] loadAll(List<String> names) throws IOException {
        byte[][] files = new byte[names.size()][];
        for (int i = 0; i < files.length; i++) files[i] = load(names.get(i));
        return files;
    }

    private static String store(String name, byte[] bytes) throws IOException {
        try {
            Files.write(Path.of(name), bytes);
        } catch (IOException why) {
            throw new IOException(name + ": cannot be written", why);
        }
        return "0\t";
    }

    private static byte[] digestLines(String name, byte[] file) throws Dexkit.Refused {
        List<Dexkit.ClassDigest> found = new ArrayList<>();
        StringBuilder lines = new StringBuilder();
        Dexkit.digests(file, found);
        for (Dexkit.ClassDigest each : found) {
            for (byte part : each.sha1) lines.append(String.format("%02x", part));
            lines.append('\t').append(each.name).append('\t').append(name).append('\n');
        }
        return lines.toString().getBytes(StandardCharsets.UTF_8);
    }

    private static byte[] countLines(long[] counts) {
        StringBuilder lines = new StringBuilder();
        for (int i = 0; i < CAPPED.length; i++) {
            lines.append(CAPPED[i]).append(' ').append(Long.toUnsignedString(counts[i])).append(" of ")
                .append(Dexkit.GREATEST_CAPS[i]).append('\n');
        }
        lines.append("classes ").append(counts[6]).append("\nstrings ").append(counts[7]).append('\n');
        return lines.toString().getBytes(StandardCharsets.UTF_8);
    }

    private static String serve(String call, List<String> words, List<String> files)
            throws IOException, Dexkit.Refused {
        switch (call) {
            case "check":
                return "0\t" + words.get(0) + ": ok classes=" + Dexkit.check(load(words.get(0)));
            case "normalise":
                return store(words.get(1), Dexkit.normalise(load(words.get(0))));
            case "repair":
                return store(words.get(1), Dexkit.repair(load(words.get(0))));
            case "dump":
                return store(words.get(1), Dexkit.dump(load(words.get(0))));
            case "digest":
                return store(words.get(1), digestLines(words.get(0), load(words.get(0))));
            case "count":
                return store(words.get(0), countLines(Dexkit.count(loadAll(files))));
            case "merge":
                int[] caps = words.get(1).equals("-")
                    ? null
                    : Arrays.stream(words.get(1).split(",")).mapToInt(Integer::parseInt).toArray();
                int fan = Integer.parseInt(words.get(2));
                return store(words.get(0), Dexkit.merge(loadAll(files), caps, fan, words.get(3).equals("1")));
            default:
                throw new IllegalArgumentException(call);
        }
    }

    private static String answer(String line) {
        List<String> words = new ArrayList<>(Arrays.asList(line.split("\t")));
        String call = words.remove(0);
        int first = call.equals("merge") ? 4 : call.equals("count") ? 1 : 0;
        List<String> files = words.subList(Math.min(first, words.size()), words.size());
        try {
            return serve(call, words, files);
        } catch (Dexkit.Refused why) {
            String file = why.kind == Dexkit.Refused.Kind.FILE ? files.get(why.file) + ": " : "";
            return "1\tdexkit: " + file + why.getMessage();
        } catch (IllegalArgumentException | IndexOutOfBoundsException why) {
            return "2\tdexkit: a bad request";
        } catch (IOException why) {
            return "3\tdexkit: " + why.getMessage();
        } catch (OutOfMemoryError why) {
            return "4\tdexkit: out of memory";
        }
    }

    /** Merges the files in threads with small stacks, and checks that each merge has the same bytes. */
    private static void mergeInThreads(List<String> names) throws IOException, Dexkit.Refused, InterruptedException {
        byte[][] files = loadAll(names);
        byte[] wanted = Dexkit.merge(files, null, 0, false);
        int[] wrong = new int[8];
        Thread[] threads = IntStream.range(0, wrong.length).mapToObj(number -> new Thread(null, () -> {
            for (int i = 0; i < 20; i++) {
                try {
                    if (!Arrays.equals(wanted, Dexkit.merge(files, null, 0, false))) wrong[number]++;
                } catch (Dexkit.Refused why) {
                    wrong[number]++;
                }
            }
        }, "merge " + number, 256 * 1024)).toArray(Thread[]::new);
        for (Thread thread : threads) thread.start();
        for (Thread thread : threads) thread.join();
        System.out.println(threads.length + " threads, " + 20 * threads.length + " merges, "
            + IntStream.of(wrong).sum() + " wrong");
    }

    public static void main(String[] names) throws IOException, Dexkit.Refused, InterruptedException {
        if (names.length > 0) {
            mergeInThreads(Arrays.asList(names));
            return;
        }
        BufferedReader in = new BufferedReader(new InputStreamReader(System.in, StandardCharsets.UTF_8));
        PrintStream out = new PrintStream(System.out, true, StandardCharsets.UTF_8);
        for (String line = in.readLine(); line != null; line = in.readLine()) out.println(answer(line));
    }
}
