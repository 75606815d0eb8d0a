import java.io.IOException;
import java.nio.file.Files;
import java.nio.file.Path;
import java.util.ArrayList;
import java.util.List;
import org.jf.dexlib2.Opcodes;
import org.jf.dexlib2.dexbacked.DexBackedDexFile;
import org.jf.dexlib2.iface.ClassDef;
import org.jf.dexlib2.writer.io.MemoryDataStore;
import org.jf.dexlib2.writer.pool.DexPool;

/**
 * dexlib2 with the command line of dexkit, as far as it can answer.
 *
 * <p>{@code check FILE...} prints {@code FILE: ok} or {@code FILE: refused} for each file. A file is accepted if dexlib2
 * reads each row of its pools and copies all its classes into a new file without an exception.
 *
 * <p>{@code merge -o OUT FILE...} writes the classes of the files in one, as dexlib2 writes them. What it has no words
 * for, such as {@code --strip} and caps, it has no command.
 *
 * <p>The status is 0, 1 where a file or a merge is refused, 3 where a file cannot be read or written, and 77 for what
 * there is no command for.
 */
public final class Dexlib2 {
    private static final Opcodes VERSION_035 = Opcodes.forDexVersion(35);

    private static final int NO_COMMAND = 77;

    private Dexlib2() {}

    public static void main(String[] words) throws IOException {
        System.exit(run(List.of(words)));
    }

    private static int run(List<String> words) throws IOException {
        if (words.size() >= 2 && words.get(0).equals("check")) {
            return check(words.subList(1, words.size()));
        }
        if (words.size() >= 4 && words.get(0).equals("merge") && List.of("-o", "--out").contains(words.get(1))) {
            List<String> names = words.subList(3, words.size());
            if (names.stream().noneMatch(name -> name.startsWith("-"))) {
                return merge(Path.of(words.get(2)), names);
            }
        }
        return failed(NO_COMMAND, "only `check FILE...` and `merge -o OUT FILE...` can be answered");
    }

    private static int check(List<String> names) {
        int status = 0;
        for (String name : names) {
            byte[] bytes;
            try {
                bytes = Files.readAllBytes(Path.of(name));
            } catch (IOException unread) {
                return failed(3, name + ": cannot be read");
            }
            boolean isAccepted = isAccepted(bytes);
            System.out.println(name + (isAccepted ? ": ok" : ": refused"));
            status = isAccepted ? status : 1;
        }
        return status;
    }

    private static boolean isAccepted(byte[] bytes) {
        try {
            DexBackedDexFile file = new DexBackedDexFile(VERSION_035, bytes);
            List<List<?>> pools =
                    List.of(
                            file.getStringSection(),
                            file.getTypeSection(),
                            file.getProtoSection(),
                            file.getFieldSection(),
                            file.getMethodSection());
            for (List<?> pool : pools) {
                for (Object row : pool) {
                    row.hashCode();
                }
            }
            merged(List.of(file));
            return true;
        } catch (Exception | StackOverflowError | OutOfMemoryError refused) {
            return false;
        }
    }

    private static int merge(Path out, List<String> names) {
        List<DexBackedDexFile> files = new ArrayList<>();
        for (String name : names) {
            try {
                files.add(new DexBackedDexFile(VERSION_035, Files.readAllBytes(Path.of(name))));
            } catch (IOException unread) {
                return failed(3, name + ": cannot be read");
            } catch (RuntimeException refused) {
                return failed(1, name + ": refused");
            }
        }
        byte[] bytes;
        try {
            bytes = merged(files);
        } catch (Exception | StackOverflowError | OutOfMemoryError refused) {
            return failed(1, String.valueOf(refused.getMessage()));
        }
        try {
            Files.write(out, bytes);
        } catch (IOException unwritten) {
            return failed(3, out + ": cannot be written");
        }
        return 0;
    }

    private static byte[] merged(List<DexBackedDexFile> files) throws IOException {
        DexPool pool = new DexPool(VERSION_035);
        for (DexBackedDexFile file : files) {
            for (ClassDef definition : file.getClasses()) {
                pool.internClass(definition);
            }
        }
        MemoryDataStore store = new MemoryDataStore();
        pool.writeTo(store);
        return store.getData();
    }

    private static int failed(int status, String line) {
        System.err.println("dexlib2: " + line.lines().findFirst().orElse("refused"));
        return status;
    }
}
