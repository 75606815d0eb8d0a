import java.util.List;

/**
 * libdexkit by JNI: checks, normalises, merges, strips, counts, lists and repairs DEX 035 files that lie in memory. Any
 * number of threads may call it. A failed allocation is an OutOfMemoryError, and a wrong cap, fan or list of files an
 * IllegalArgumentException.
 */
public final class Dexkit {
    static {
        System.loadLibrary("dexkitjni");
    }

    private Dexkit() {}

    /** The greatest caps: types, protos, fields, methods, short strings, weight. */
    public static final int[] GREATEST_CAPS = {65535, 65535, 65536, 65536, 65536, 1 << 30};

    /** A file or a union is refused; the message is what the program prints of it. */
    public static final class Refused extends Exception {
        /** What is refused. */
        public enum Kind { FILE, CONFLICT, CYCLE, CAP }

        private static final long serialVersionUID = 1;
        public final Kind kind;
        /** The number of the condition or of the cap. */
        public final int number;
        /** The place at which the condition fails, as an unsigned number. */
        public final int place;
        /** The number of the file, from 0 on. */
        public final int file;

        Refused(int kind, int number, int place, int file, String text) {
            super(text);
            this.kind = Kind.values()[kind - 1];
            this.number = number;
            this.place = place;
            this.file = file;
        }
    }

    /** The digest of a class, and its name as the program prints it. */
    public static final class ClassDigest {
        public final byte[] sha1;
        public final String name;

        ClassDigest(byte[] sha1, String name) {
            this.sha1 = sha1;
            this.name = name;
        }
    }

    /** The version of the library. */
    public static native String version();

    /** The number of a file's classes, if it is accepted. */
    public static native int check(byte[] file) throws Refused;

    /** The canonical file of what a file holds. */
    public static native byte[] normalise(byte[] file) throws Refused;

    /** The file with its checksum and signature set right, if it is accepted then. */
    public static native byte[] repair(byte[] file) throws Refused;

    /** The listing of a file, in ASCII. */
    public static native byte[] dump(byte[] file) throws Refused;

    /** The canonical file of the union of files; no caps (null) are the greatest, and a fan of 0 merges all at once. */
    public static native byte[] merge(byte[][] files, int[] caps, int fan, boolean strip) throws Refused;

    /** What the union of files holds: types, protos, fields, methods, short strings, weight, classes, strings. */
    public static native long[] count(byte[][] files) throws Refused;

    /** Appends the digest of each class of a file, in the order of a canonical file. */
    public static native void digests(byte[] file, List<ClassDigest> found) throws Refused;
}
