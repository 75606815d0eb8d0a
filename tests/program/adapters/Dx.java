import com.android.dex.Dex;
import com.android.dx.command.dexer.DxContext;
import com.android.dx.merge.CollisionPolicy;
import com.android.dx.merge.DexMerger;
import java.io.IOException;
import java.io.OutputStream;
import java.nio.file.Files;
import java.nio.file.Path;
import java.util.ArrayList;
import java.util.List;

/**
 * dx's DexMerger with the command line of dexkit, as far as it can answer.
 *
 * <p>{@code merge -o OUT FILE...} writes the classes of the files in one, as {@code DexMerger} writes them, where two
 * classes of one name are refused. For all else, such as {@code check}, {@code --strip} and caps, it has no command.
 *
 * <p>The status is 0, 1 where a file or a merge is refused, 3 where a file cannot be read or written, and 77 for what
 * there is no command for.
 */
public final class Dx {
    private static final int NO_COMMAND = 77;

    private Dx() {}

    public static void main(String[] words) {
        System.exit(run(List.of(words)));
    }

    private static int run(List<String> words) {
        if (words.size() >= 4 && words.get(0).equals("merge") && List.of("-o", "--out").contains(words.get(1))) {
            List<String> names = words.subList(3, words.size());
            if (names.stream().noneMatch(name -> name.startsWith("-"))) {
                return merge(Path.of(words.get(2)), names);
            }
        }
        return failed(NO_COMMAND, "only `merge -o OUT FILE...` can be answered");
    }

    private static int merge(Path out, List<String> names) {
        List<Dex> files = new ArrayList<>();
        for (String name : names) {
            try {
                files.add(new Dex(Files.readAllBytes(Path.of(name))));
            } catch (IOException unread) {
                return failed(3, name + ": cannot be read");
            } catch (RuntimeException refused) {
                return failed(1, name + ": refused");
            }
        }
        byte[] bytes;
        try {
            Dex[] all = files.toArray(new Dex[0]);
            bytes = new DexMerger(all, CollisionPolicy.FAIL, silent()).merge().getBytes();
        } catch (Exception | StackOverflowError | OutOfMemoryError refused) {
            return failed(1, String.valueOf(refused.getMessage()));
        }
        try {
            Files.write(out, bytes);
        } catch (IOException unwritten) {
            return failed(3, out + ": cannot be written");
        }
        return 0;
    }

    private static DxContext silent() {
        return new DxContext(OutputStream.nullOutputStream(), OutputStream.nullOutputStream());
    }

    private static int failed(int status, String line) {
        System.err.println("dx: " + line.lines().findFirst().orElse("refused"));
        return status;
    }
}
