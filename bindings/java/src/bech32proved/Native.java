package bech32proved;

import java.io.IOException;
import java.io.InputStream;
import java.nio.charset.StandardCharsets;
import java.nio.file.Files;
import java.nio.file.Path;
import java.nio.file.StandardCopyOption;
import java.util.Locale;

/** The calls of the library (native/bech32proved.c). Each returns the number of a refusal, or 0. */
final class Native {
    static {
        load();
    }

    private Native() {}

    /** The library of the system's path, as on Android, or else that of the jar. */
    private static void load() {
        try {
            System.loadLibrary("bech32proved");
        } catch (UnsatisfiedLinkError notInstalled) {
            String name = System.mapLibraryName("bech32proved");
            String system = System.getProperty("os.name").toLowerCase(Locale.ROOT).replaceAll("[^a-z]+.*", "");
            String resource = "/bech32proved/native/" + system + "-" + System.getProperty("os.arch") + "/" + name;
            try (InputStream stored = Native.class.getResourceAsStream(resource)) {
                if (stored == null) {
                    throw notInstalled;
                }
                Path copy = Files.createTempFile("bech32proved", name);
                try {
                    Files.copy(stored, copy, StandardCopyOption.REPLACE_EXISTING);
                    System.load(copy.toAbsolutePath().toString());
                } finally {
                    Files.deleteIfExists(copy);
                }
            } catch (IOException failed) {
                UnsatisfiedLinkError error = new UnsatisfiedLinkError("the library could not be copied out of the jar");
                error.initCause(failed);
                throw error;
            }
        }
    }

    static native int message(int number, boolean isCodex32, byte[] message);

    static native int version(boolean isCodex32);

    static native int encode(int checksum, byte[] hrp, byte[] bytes, byte[] text, int[] out);

    static native int encodeElements(int checksum, byte[] hrp, byte[] elements, byte[] text, int[] out);

    static native int check(int checksum, byte[] text, int[] out);

    static native int fault(int checksum, byte[] text, int[] out);

    static native int segwitEncode(byte[] hrp, int version, byte[] program, byte[] text, int[] out);

    static native int segwitDecode(byte[] text, byte[] hrp, byte[] program, int[] out);

    static native int descriptorChecksum(byte[] text, byte[] checksum, int[] out);

    static native int descriptorCheck(byte[] text, int[] out);

    static native int validityOf(byte[] numbers, byte[] validity, int[] out);

    static native int split(
            int threshold, byte[] identifier, byte[] secret, byte[] random, int count, byte[] texts, int[] out);

    static native int decode(int checksum, boolean isElements, byte[] text, byte[] hrp, byte[] data, int[] out);

    static native int correct(
            int checksum, byte[] text, int[] erasures, int[] locations, byte[] values, byte[] mended, int[] out);

    static native int nearest(
            int checksum, byte[] text, int[] erasures, int errors, int memory, byte[] texts, int[] out);

    static native int nearEdits(
            int checksum, byte[] text, int memory, byte[] kinds, int[] places, byte[] texts, int[] out);

    static native int suggest(
            byte[] text, byte[] hrp, int memory, byte[] kinds, int[] places, byte[] texts, int[] out);

    static native int liquidEncode(byte[] hrp, int version, byte[] key, byte[] program, byte[] text, int[] out);

    static native int liquidDecode(byte[] text, byte[] hrp, byte[] key, byte[] program, int[] out);

    static native int descriptorMend(
            byte[] text, int changed, int memory, byte[] kinds, int[] places, byte[] texts, int[] out);

    static native int descriptorMendTwo(byte[] text, int memory, int[] places, byte[] texts, int[] out);

    static native int checkMany(
            int checksum, Object bytes, Object offsets, Object validity, long[] lengths, int[] layout, int first,
            byte[] numbers, int at, int count);

    static native int segwitDecodeMany(
            Object bytes, Object offsets, Object validity, long[] lengths, int[] layout, int first, byte[] hrp,
            byte[] numbers, byte[] versions, byte[] hrpLengths, int at, int count, int[] programOffsets, byte[] programs);

    static native int segwitEncodeMany(
            byte[] hrp, byte[] versions, Object bytes, Object offsets, Object validity, long[] lengths, int[] layout,
            int first, byte[] numbers, int at, int count, int[] textOffsets, byte[] texts);

    static native int parse(byte[] text, int[] out);

    static native int share(byte[] text, byte[] identifier, byte[] bytes, int[] out);

    static native int shareOf(
            boolean isPayload, int threshold, byte[] identifier, int index, byte[] bytes, byte[] text, int[] out);

    static native int derive(int index, byte[] texts, int[] lengths, byte[] made, int[] out);

    static native int propose(boolean isLong, byte[] text, byte[] memory, byte[] proposed, int[] out);

    /** A text as the library reads it. What is no character becomes one that no text has. */
    static byte[] bytes(String text) {
        return text.getBytes(StandardCharsets.UTF_8);
    }

    static String text(byte[] bytes, int from, int to) {
        return new String(bytes, from, to - from, StandardCharsets.US_ASCII);
    }

    static String sentence(int number, boolean isCodex32) {
        byte[] message = new byte[Declared.BECH32_MAX_MESSAGE];
        return text(message, 0, message(number, isCodex32, message));
    }
}
