package bech32proved;

import java.util.ArrayList;
import java.util.Arrays;
import java.util.Collections;
import java.util.List;

/** Texts of Bech32 and Bech32m: written, read and mended. Addresses are of {@link SegwitAddress}. */
public final class Bech32 {
    /** The characters of the elements from 0 to 31, in lower case. */
    public static final String ALPHABET = "qpzry9x8gf2tvdw0s3jn54khce6mua7l";

    private static final int MAX_TEXT = Declared.BECH32_MAX_TEXT;
    private static final int MAX_HRP = Declared.BECH32_MAX_HRP;
    private static final int MAX_LONG_TEXT = Declared.BECH32_MAX_LONG_TEXT;
    private static final int MAX_LISTED = 3;

    private Bech32() {}

    /** What a text says. */
    public static final class Decoded {
        private final String hrp;
        private final byte[] data;

        Decoded(String hrp, byte[] data) {
            this.hrp = hrp;
            this.data = data;
        }

        /** The human-readable part, in the case of the text. */
        public String hrp() {
            return hrp;
        }

        /** The bytes, or of {@link Bech32#decodeElements} the elements, from 0 to 31 each, without those of the checksum. */
        public byte[] data() {
            return data.clone();
        }
    }

    /** The parts of a text. */
    public static final class Parts {
        private final String hrp;
        private final String dataPart;

        Parts(String hrp, String dataPart) {
            this.hrp = hrp;
            this.dataPart = dataPart;
        }

        /** The human-readable part. */
        public String hrp() {
            return hrp;
        }

        /** What stands behind the separator, without the six characters of the checksum. */
        public String dataPart() {
            return dataPart;
        }
    }

    /**
     * Encodes bytes under a human-readable part, in lower case.
     *
     * @throws RefusedException the first of {@code HRP_EMPTY}, {@code HRP_TOO_LONG}, {@code HRP_NOT_ASCII}, {@code HRP_INVALID},
     *     {@code HRP_MIXED_CASE}, {@code ENCODED_TOO_LONG}
     */
    public static String encode(Checksum checksum, String hrp, byte[] data) {
        byte[] part = Native.bytes(hrp);
        byte[] text = new byte[(int) Math.min(part.length + 7 + (8L * data.length + 4) / 5, MAX_LONG_TEXT)];
        int[] out = new int[1];
        int number = Native.encode(checksum.number, part, data, text, out);
        if (number != 0) {
            throw new RefusedException(Refusal.of(number, false), hrp, -1);
        }
        return Native.text(text, 0, out[0]);
    }

    /**
     * Encodes elements, from 0 to 31 each, under a human-readable part, in lower case.
     *
     * @throws RefusedException what {@link #encode} throws, and then {@code BAD_ELEMENT}, whose place is that of the first
     *     element above 31
     */
    public static String encodeElements(Checksum checksum, String hrp, byte[] elements) {
        byte[] part = Native.bytes(hrp);
        byte[] text = new byte[(int) Math.min((long) part.length + 7 + elements.length, MAX_LONG_TEXT)];
        int[] out = new int[2];
        int number = Native.encodeElements(checksum.number, part, elements, text, out);
        if (number != 0) {
            Refusal refusal = Refusal.of(number, false);
            throw new RefusedException(refusal, null, refusal == Refusal.BAD_ELEMENT ? out[1] : -1);
        }
        return Native.text(text, 0, out[0]);
    }

    /**
     * Decodes a text that Bech32m or Bech32 accepts; bits behind the last whole byte are dropped. Decode an address by {@link
     * SegwitAddress#parse}, and what identifies something by {@link #decodeStrict}: this accepts several spellings.
     *
     * @throws RefusedException the first of {@code INVALID_CHARACTER}, {@code MIXED_CASE}, {@code NO_SEPARATOR}, {@code
     *     HRP_EMPTY}, {@code HRP_TOO_LONG}, {@code HRP_NOT_ASCII}, {@code HRP_INVALID}, {@code HRP_MIXED_CASE}, {@code
     *     TEXT_TOO_LONG}, {@code NO_CHECKSUM}, {@code WRONG_CHECKSUM}
     */
    public static Decoded decode(String text) {
        return decoded(0, false, text);
    }

    /**
     * Decodes a text that a checksum accepts, and refuses bits behind the last whole byte that are more than four, or not all
     * zero: so the text is, in its case, the only one of its part and its bytes.
     *
     * @throws RefusedException what {@link #decode} throws, and then {@code PADDING_TOO_LONG}, {@code PADDING_NOT_ZERO}
     */
    public static Decoded decodeStrict(Checksum checksum, String text) {
        return decoded(checksum.number, false, text);
    }

    /**
     * Decodes a text that a checksum accepts to elements: what is not bytes alone, as addresses of silent payments (BIP-352)
     * and invoices (BOLT 11).
     *
     * @throws RefusedException what {@link #decode} throws
     */
    public static Decoded decodeElements(Checksum checksum, String text) {
        return decoded(checksum.number, true, text);
    }

    private static Decoded decoded(int checksum, boolean isElements, String text) {
        byte[] bytes = Native.bytes(text);
        byte[] hrp = new byte[MAX_HRP];
        byte[] data = new byte[Math.min(bytes.length, MAX_LONG_TEXT)];
        int[] out = new int[2];
        int number = Native.decode(checksum, isElements, bytes, hrp, data, out);
        if (number != 0) {
            throw RefusedException.ofText(number, text);
        }
        return new Decoded(Native.text(hrp, 0, out[0]), Arrays.copyOf(data, out[1]));
    }

    /**
     * Tests that a checksum accepts a text, and returns its parts.
     *
     * @throws RefusedException what {@link #decode} throws
     */
    public static Parts check(Checksum checksum, String text) {
        int[] out = new int[2];
        int number = Native.check(checksum.number, Native.bytes(text), out);
        if (number != 0) {
            throw RefusedException.ofText(number, text);
        }
        int behind = out[0] + 1;
        return new Parts(text.substring(0, out[0]), text.substring(behind, behind + out[1]));
    }

    /**
     * Mends a mistyped text, in its case. Each {@code ?} behind the last {@code 1} is a character that cannot be read; places
     * are those of other characters that are known to be wrong. It finds one wrong character; or one, beside one that is
     * known to be wrong; or up to three that are known to be. There is at most one such correction. It may not be what was
     * meant: show it, and ask.
     *
     * @throws RefusedException what {@link #decode} throws, but {@code NO_CORRECTION} in place of {@code WRONG_CHECKSUM}, and
     *     {@code BAD_NUMBER} of a long checksum
     * @throws IllegalArgumentException of a place that the text does not have
     */
    public static Correction correct(Checksum checksum, String text, int... places) {
        Typed typed = new Typed(text, places);
        byte[] mended = new byte[Math.min(typed.bytes.length, MAX_TEXT)];
        int[] out = new int[2];
        int number = Native.correct(
                checksum.number, typed.bytes, typed.locations(), new int[MAX_LISTED], new byte[MAX_LISTED], mended, out);
        boolean isRight = number == 0 && out[0] == 0;
        if (isRight && typed.hasUnreadable() && !typed.isCorrectable()) {
            number = Refusal.NO_CORRECTION.number();
        }
        if (number != 0) {
            throw RefusedException.ofText(number, typed.read);
        }
        if (isRight && !typed.hasUnreadable()) {
            return new Correction(text, Collections.emptyList());
        }
        return typed.correction(Native.text(mended, 0, out[1]));
    }

    /**
     * Lists the texts near to a mistyped one, in its case: all that a checksum accepts and that differ from it in at most
     * {@code errors} characters, 0 to 2, behind the separator and beside what is known to be wrong, of which there may be
     * three: each {@code ?} behind the last {@code 1}, and the places. The C header bech32.h says their order, how many there
     * may be, and how long it takes. It may be that none is what was meant: show them, and ask.
     *
     * @throws RefusedException what {@link #decode} throws but for {@code WRONG_CHECKSUM}, {@code BAD_NUMBER} of a long
     *     checksum or more errors, and {@code NO_MEMORY}
     * @throws IllegalArgumentException of a place that the text does not have
     */
    public static List<Correction> nearest(Checksum checksum, String text, int errors, int... places) {
        int length = Math.min(text.length(), MAX_TEXT);
        int most = Declared.BECH32_NEAREST_FEW_TEXTS(length);
        int memory = Declared.BECH32_NEAREST_FEW_MEMORY(length);
        return nearest(checksum.number, text, errors, memory, most, places);
    }

    static List<Correction> nearest(int checksum, String text, int errors, int memory, int most, int... places) {
        if (errors < 0) {
            throw new RefusedException(Refusal.BAD_NUMBER);
        }
        Typed typed = new Typed(text, places);
        List<Correction> listed = new ArrayList<>();
        for (String near : Search.near(typed.read, memory, most, typed.bytes.length, (lent, texts, out) ->
                Native.nearest(checksum, typed.bytes, typed.locations(), errors, lent, texts, out))) {
            listed.add(typed.correction(near));
        }
        return listed;
    }

    /**
     * Lists the other texts that a checksum accepts and that one edit makes of a text, in its case: two neighbours behind the
     * separator are swapped, one of its characters is left out, or one is put in. The C header bech32.h says their order. It
     * may be that none is what was meant: show them, and ask.
     *
     * @throws RefusedException the first of {@code BAD_NUMBER} (a long checksum), {@code INVALID_CHARACTER}, {@code
     *     MIXED_CASE}, {@code NO_SEPARATOR}, {@code HRP_EMPTY}, {@code HRP_TOO_LONG}, {@code HRP_NOT_ASCII}, {@code
     *     HRP_INVALID}, {@code HRP_MIXED_CASE}, {@code NO_MEMORY}
     */
    public static List<Edited> nearEdits(Checksum checksum, String text) {
        byte[] bytes = Native.bytes(text);
        int memory = 4096 + 16 * Math.min(bytes.length, MAX_TEXT);
        Typed typed = new Typed(text);
        List<Edited> listed = new ArrayList<>();
        for (Search.Found found : Search.edits(text, bytes.length, memory, 8, 1, (lent, kinds, places, texts, out) ->
                Native.nearEdits(checksum.number, bytes, lent, kinds, places, texts, out))) {
            int last = (found.kind == Search.PUT_IN ? found.text.length() : text.length()) - 1;
            int second = last - found.places[0];
            int first = found.kind == Search.SWAPPED ? second - 1 : second;
            String made = typed.inCase(found.text);
            listed.add(new Edited(made, Edit.of(found.kind, first, second, text, made)));
        }
        return listed;
    }

    /** The version of the C library, as in bech32.h: 10,000 times the first number, 100 times the second, and the third. */
    public static int version() {
        return Native.version(false);
    }
}
