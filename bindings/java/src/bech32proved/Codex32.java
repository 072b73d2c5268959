package bech32proved;

import java.nio.charset.StandardCharsets;
import java.security.SecureRandom;
import java.util.ArrayList;
import java.util.Arrays;
import java.util.List;
import java.util.Optional;

/**
 * Codex32 (BIP-93): splits a secret into shares and recovers it from them, reads, makes, derives and mends strings.
 *
 * <p>Strings and bytes are arrays of bytes, which can be wiped: {@link #wipe}. What a call takes for itself is wiped, and so is
 * the stack that the library used. The collector may have moved an array, and left a copy: type secrets only on a computer
 * that is offline. The branches that the library takes do not depend on secrets, as codex32.h says.
 */
public final class Codex32 {
    /** The share index of the secret. */
    public static final char SECRET_INDEX = 's';

    private static final int TEXT_SIZE = Declared.CODEX32_TEXT_SIZE;
    private static final int BYTES_SIZE = Declared.CODEX32_BYTES_SIZE;
    private static final int MAX_SPLIT = 31;
    private static final SecureRandom RANDOM = new SecureRandom();

    private Codex32() {}

    /** A string that was read: a share, or the secret at the index {@link #SECRET_INDEX}. */
    public static final class Share implements AutoCloseable {
        private final int threshold;
        private final String identifier;
        private final char index;
        private final byte[] held;

        Share(int threshold, String identifier, char index, byte[] held) {
            this.threshold = threshold;
            this.identifier = identifier;
            this.index = index;
            this.held = held;
        }

        /** 0, or from 2 to 9. */
        public int threshold() {
            return threshold;
        }

        /** Four characters. */
        public String identifier() {
            return identifier;
        }

        /** The share index. */
        public char index() {
            return index;
        }

        /** The bytes of the payload, or of {@link Codex32#parse} its characters: not copied. */
        public byte[] bytes() {
            return held;
        }

        /** Wipes the bytes. */
        @Override
        public void close() {
            wipe(held);
        }
    }

    /** Fills an array with zeros. */
    public static void wipe(byte[] bytes) {
        Arrays.fill(bytes, (byte) 0);
    }

    private static void refuse(int number) {
        if (number != 0) {
            throw new RefusedException(Refusal.of(number, true));
        }
    }

    /** The front of an array, of which all is wiped. */
    private static byte[] taken(byte[] array, int length) {
        byte[] front = Arrays.copyOf(array, length);
        wipe(array);
        return front;
    }

    /**
     * Reads the header of a string of 48 to 93 characters; {@link Share#bytes} are the characters of its payload, and the
     * identifier and the index are in the case of the string.
     *
     * @throws RefusedException the first of {@code NOT_UTF8}, {@code INVALID_CHARACTER}, {@code MIXED_CASE}, {@code
     *     NO_SEPARATOR}, {@code HRP_EMPTY}, {@code HRP_TOO_LONG}, {@code HRP_NOT_ASCII}, {@code HRP_INVALID}, {@code
     *     HRP_MIXED_CASE}, {@code BAD_LENGTH}, {@code NOT_MS}, {@code WRONG_CHECKSUM}, {@code BAD_THRESHOLD}, {@code
     *     BAD_SHARE_INDEX}
     */
    public static Share parse(byte[] text) {
        int[] out = new int[3];
        refuse(Native.parse(text, out));
        byte[] payload = Arrays.copyOfRange(text, 9, 9 + out[2]);
        return new Share(out[0], Native.text(text, 4, 8), (char) out[1], payload);
    }

    /**
     * Reads a string of either length, with the bytes of its payload: wipe them when you are done.
     *
     * @throws RefusedException what {@link #parse} throws, and then {@code BITS_LEFT_OVER}
     */
    public static Share share(byte[] text) {
        byte[] identifier = new byte[4];
        byte[] bytes = new byte[BYTES_SIZE];
        int[] out = new int[3];
        refuse(Native.share(text, identifier, bytes, out));
        return new Share(out[0], Native.text(identifier, 0, 4), (char) out[1], taken(bytes, out[2]));
    }

    /** No string has the threshold 1, which stands for those out of range. */
    private static int threshold(int threshold) {
        return threshold < 0 || threshold > 9 ? 1 : threshold;
    }

    private static byte[] made(boolean isPayload, int threshold, String identifier, char index, byte[] bytes) {
        byte[] text = new byte[TEXT_SIZE];
        int[] out = new int[1];
        byte[] name = identifier.getBytes(StandardCharsets.UTF_8);
        refuse(Native.shareOf(isPayload, threshold(threshold), name, index, bytes, text, out));
        return taken(text, out[0]);
    }

    /**
     * Makes the string of a header and bytes, in lower case. To share a secret, call {@link #split}.
     *
     * @throws RefusedException the first of {@code BAD_THRESHOLD}, {@code BAD_IDENTIFIER}, {@code NO_SHARE_INDEX}, {@code
     *     BAD_SHARE_INDEX}, {@code BAD_SIZE}
     */
    public static byte[] encode(int threshold, String identifier, char index, byte[] bytes) {
        return made(false, threshold, identifier, index, bytes);
    }

    /**
     * Makes the string of a header and the characters of a payload, in lower case. To share a secret, call {@link #split}.
     *
     * @throws RefusedException the first of {@code BAD_THRESHOLD}, {@code BAD_IDENTIFIER}, {@code NO_SHARE_INDEX}, {@code
     *     BAD_SHARE_INDEX}; of the payload {@code INVALID_CHARACTER}, {@code MIXED_CASE}, {@code BAD_SIZE}
     */
    public static byte[] encodePayload(int threshold, String identifier, char index, byte[] payload) {
        return made(true, threshold, identifier, index, payload);
    }

    private static byte[] derived(int index, int room, byte[]... texts) {
        int[] lengths = new int[texts.length];
        int size = 0;
        for (int at = 0; at < texts.length; at++) {
            lengths[at] = texts[at].length;
            size = Math.addExact(size, texts[at].length);
        }
        byte[] all = new byte[size];
        byte[] made = new byte[room];
        int[] out = new int[1];
        try {
            int start = 0;
            for (byte[] text : texts) {
                System.arraycopy(text, 0, all, start, text.length);
                start += text.length;
            }
            refuse(Native.derive(index, all, lengths, made, out));
            return taken(made, out[0]);
        } finally {
            wipe(all);
        }
    }

    /**
     * Derives the string at an index from others of its set, in lower case: at {@link #SECRET_INDEX} the secret.
     *
     * @throws RefusedException the first of {@code BAD_LENGTHS} (more than 32 texts), {@code NO_SHARE_INDEX}; of the texts in
     *     their order what {@link #parse} throws; then {@code OTHER_SET}, {@code INDEX_TWICE}, {@code BAD_SHARE_INDEX}, {@code
     *     TOO_FEW_SHARES}, {@code CONTRADICTION}
     */
    public static byte[] derive(char index, byte[]... texts) {
        return derived(index, TEXT_SIZE, texts);
    }

    /**
     * Recovers the secret of shares of one set. If there are more than the threshold, all are tested; if there are not, a share
     * of another secret gives other bytes, unnoticed.
     *
     * @throws RefusedException what {@link #derive} throws at {@link #SECRET_INDEX}, and then {@code BITS_LEFT_OVER}
     */
    public static byte[] recover(byte[]... texts) {
        return derived(-1, BYTES_SIZE, texts);
    }

    /**
     * Splits a secret of 16 to 44 bytes, or of 63 or 64, into shares, of which any {@code threshold} recover it, and fewer say
     * nothing of it. The random bytes are those of {@link SecureRandom}.
     *
     * <p>If the identifier is null, it is drawn. Give each split a new one: shares of two splits of one secret with the same
     * identifier are taken for one set, and {@link #recover} returns other bytes, without an exception. To get more shares
     * later, derive them from enough shares.
     *
     * @param identifier four characters of the alphabet, or null to draw them
     * @throws RefusedException the first of {@code BAD_THRESHOLD}, {@code BAD_IDENTIFIER}, {@code BAD_SHARE_INDEX} (the
     *     threshold is 0), {@code BAD_SIZE}, {@code BAD_COUNT}, {@code EQUAL_RANDOM} (the system's random bytes are all equal)
     */
    public static List<byte[]> split(byte[] secret, int threshold, int count, String identifier) {
        String name = identifier;
        if (name == null) {
            StringBuilder drawn = new StringBuilder();
            for (int at = 0; at < 4; at++) {
                drawn.append(Bech32.ALPHABET.charAt(RANDOM.nextInt(32)));
            }
            name = drawn.toString();
        }
        int drawn = threshold < 2 || threshold > 9 || secret.length > BYTES_SIZE ? 0 : threshold - 1;
        byte[] random = new byte[drawn * ((8 * secret.length + 4) / 5)];
        try {
            RANDOM.nextBytes(random);
            return split(secret, threshold, count, name, random);
        } finally {
            wipe(random);
        }
    }

    /**
     * Splits a secret by random bytes of yours: {@code (threshold - 1) * ((8 * secret.length + 4) / 5)} of them, for one call
     * alone.
     *
     * @throws RefusedException what the other method throws, with {@code BAD_RANDOM} before {@code EQUAL_RANDOM}: bytes that
     *     are all equal were never filled in
     */
    public static List<byte[]> split(byte[] secret, int threshold, int count, String identifier, byte[] random) {
        byte[] texts = new byte[MAX_SPLIT * TEXT_SIZE];
        int[] out = new int[1];
        byte[] name = identifier.getBytes(StandardCharsets.UTF_8);
        try {
            refuse(Native.split(threshold(threshold), name, secret, random, Math.max(count, 0), texts, out));
            List<byte[]> shares = new ArrayList<>(count);
            for (int at = 0; at < count; at++) {
                shares.add(Arrays.copyOfRange(texts, at * out[0], (at + 1) * out[0]));
            }
            return shares;
        } finally {
            wipe(texts);
        }
    }

    private static Optional<byte[]> proposed(boolean isLong, byte[] text) {
        byte[] proposed = new byte[TEXT_SIZE];
        byte[] memory = new byte[Declared.CODEX32_MEMORY(text.length) + 15];
        int[] out = new int[1];
        int number = Native.propose(isLong, text, memory, proposed, out);
        if (number == Refusal.NO_NEAREST.number()) {
            return Optional.empty();
        }
        refuse(number);
        return Optional.of(taken(proposed, out[0]));
    }

    /**
     * Proposes the nearest string to a damaged one, in which each {@code ?} behind the last {@code 1} cannot be read, in lower
     * case: twice the number of changed characters, plus the number of unreadable ones, is at most 8. It may not be what was
     * meant: show it, and ask.
     *
     * @throws RefusedException what {@link #parse} throws up to {@code NOT_MS}
     */
    public static Optional<byte[]> propose(byte[] text) {
        return proposed(false, text);
    }

    /** The same for a long string, of 125 to 127 characters. */
    public static Optional<byte[]> proposeLong(byte[] text) {
        return proposed(true, text);
    }

    /** The version of the C library, as in codex32.h. */
    public static int version() {
        return Native.version(true);
    }
}
