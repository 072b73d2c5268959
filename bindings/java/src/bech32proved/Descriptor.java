package bech32proved;

import java.util.ArrayList;
import java.util.Arrays;
import java.util.Collections;
import java.util.List;

/**
 * Checksums of output descriptors (BIP-380). What a descriptor says is not read. It may hold private keys, of which strings
 * cannot be wiped: what a call takes for itself in C is.
 */
public final class Descriptor {
    private static final int CHECKSUM_LENGTH = 8;
    private static final int MAX_LENGTH = Declared.BECH32_MAX_DESCRIPTOR;
    private static final int MAX_LENGTH_FOR_TWO = Declared.BECH32_MAX_DESCRIPTOR_TWO;

    private Descriptor() {}

    /**
     * Computes the checksum of a descriptor without one: the text, {@code #} and these eight characters are the descriptor.
     *
     * @throws RefusedException {@code NOT_IN_DESCRIPTOR}, with the place
     */
    public static String checksum(String text) {
        byte[] checksum = new byte[CHECKSUM_LENGTH];
        int[] out = new int[2];
        refuse(Native.descriptorChecksum(Native.bytes(text), checksum, out), text, out[1]);
        return Native.text(checksum, 0, out[0]);
    }

    /**
     * Tests a descriptor with its checksum, and returns it without.
     *
     * @throws RefusedException the first of {@code NO_DESCRIPTOR_CHECKSUM}, {@code NOT_IN_DESCRIPTOR}, with the place, {@code
     *     WRONG_CHECKSUM}
     */
    public static String check(String text) {
        int[] out = new int[1];
        refuse(Native.descriptorCheck(Native.bytes(text), out), text, out[0]);
        return text.substring(0, text.length() - CHECKSUM_LENGTH - 1);
    }

    private static void refuse(int number, String text, int place) {
        if (number != 0) {
            Refusal refusal = Refusal.of(number, false);
            int at = refusal == Refusal.NOT_IN_DESCRIPTOR ? RefusedException.unit(text, place) : -1;
            throw new RefusedException(refusal, text, at);
        }
    }

    /**
     * Lists the other texts with a right checksum that one mistake makes of a text: a character is changed (unless {@code
     * changed}, the most characters that may be, is 0), two neighbours are swapped, a character is left out, or one is put in.
     * The C header bech32.h says their order. It may be that none is what was meant: compare the wallet's addresses.
     *
     * @throws RefusedException the first of {@code BAD_NUMBER} ({@code changed} is neither 0 nor 1), {@code
     *     DESCRIPTOR_TOO_LONG} (more than 7,500 characters), {@code NO_MEMORY}
     */
    public static List<Edited> mend(String text, int changed) {
        byte[] bytes = bytes(text);
        if (changed < 0) {
            throw new RefusedException(Refusal.BAD_NUMBER);
        }
        int memory = Declared.BECH32_DESCRIPTOR_MEND_MEMORY(Math.min(bytes.length, MAX_LENGTH));
        List<Edited> listed = new ArrayList<>();
        for (Search.Found found : Search.edits(null, bytes.length, memory, 8, 2, (lent, kinds, places, texts, out) ->
                Native.descriptorMend(bytes, changed, lent, kinds, places, texts, out))) {
            Edit edit = Edit.of(found.kind, found.places[0], found.places[1], text, found.text);
            listed.add(new Edited(found.text, edit));
        }
        return listed;
    }

    /**
     * Lists the texts with a right checksum that come from a text by two of its characters changed. Either may be in the
     * checksum, or be the {@code #}. Try {@link #mend} first: where two characters are wrong, it takes about a 15th of the
     * time at 30 characters and a 150th at 1,400, and less memory. A text has at most 1,400 characters, so that of 100 that
     * are no mistyped descriptors at most one is expected to be answered with any. The C header bech32.h says their order. It
     * may be that none is what was meant: compare the wallet's addresses.
     *
     * @throws RefusedException the first of {@code DESCRIPTOR_TOO_LONG} (more than 1,400 characters), {@code NO_MEMORY}
     */
    public static List<Correction> mendTwo(String text) {
        byte[] bytes = bytes(text);
        int memory = Declared.BECH32_DESCRIPTOR_TWO_MEMORY(Math.min(bytes.length, MAX_LENGTH_FOR_TWO));
        List<Correction> listed = new ArrayList<>();
        for (Search.Found found : Search.edits(null, bytes.length, memory, 8, 2, (lent, kinds, places, texts, out) ->
                Native.descriptorMendTwo(bytes, lent, places, texts, out))) {
            Change first = changed(found.places[0], text, found.text);
            Change second = changed(found.places[1], text, found.text);
            listed.add(new Correction(found.text, Collections.unmodifiableList(Arrays.asList(first, second))));
        }
        return listed;
    }

    private static Change changed(int place, String text, String made) {
        return new Change(place, text.charAt(place), made.charAt(place));
    }

    /** A byte for each character. One that is not ASCII stands in no descriptor. */
    private static byte[] bytes(String text) {
        byte[] bytes = new byte[text.length()];
        for (int at = 0; at < bytes.length; at++) {
            bytes[at] = (byte) Math.min(text.charAt(at), 127);
        }
        return bytes;
    }
}
