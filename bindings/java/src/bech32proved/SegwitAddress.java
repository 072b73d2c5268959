package bech32proved;

import java.util.ArrayList;
import java.util.Arrays;
import java.util.Collections;
import java.util.List;
import java.util.Locale;

/** A segwit address (BIP-173, BIP-350). Two are equal where network, version and program are. */
public final class SegwitAddress {
    private final String hrp;
    private final int version;
    private final byte[] program;

    private SegwitAddress(String hrp, int version, byte[] program) {
        this.hrp = hrp;
        this.version = version;
        this.program = program;
    }

    /**
     * Reads an address. Any human-readable part is accepted: compare {@link #hrp} with that of your network.
     *
     * @throws RefusedException the first of {@code ADDRESS_TOO_LONG}, {@code INVALID_CHARACTER}, {@code MIXED_CASE}, {@code
     *     NO_SEPARATOR}, {@code HRP_EMPTY}, {@code HRP_TOO_LONG}, {@code HRP_NOT_ASCII}, {@code HRP_INVALID}, {@code
     *     HRP_MIXED_CASE}, {@code NO_DATA}, {@code BAD_VERSION}, {@code NO_CHECKSUM}, {@code WRONG_CHECKSUM}, {@code NO_DATA},
     *     {@code PADDING_TOO_LONG}, {@code PADDING_NOT_ZERO}, {@code PROGRAM_TOO_SHORT}, {@code PROGRAM_TOO_LONG}, {@code
     *     PROGRAM_NOT_V0}
     */
    public static SegwitAddress parse(String text) {
        byte[] hrp = new byte[Declared.BECH32_MAX_HRP];
        byte[] program = new byte[Declared.BECH32_MAX_SEGWIT_PROGRAM];
        int[] out = new int[3];
        int number = Native.segwitDecode(Native.bytes(text), hrp, program, out);
        if (number != 0) {
            throw RefusedException.ofText(number, text);
        }
        String part = Native.text(hrp, 0, out[0]).toLowerCase(Locale.ROOT);
        return new SegwitAddress(part, out[2], Arrays.copyOf(program, out[1]));
    }

    /**
     * The address of a human-readable part, a witness version from 0 to 16, and a program.
     *
     * @throws RefusedException the first of {@code BAD_NUMBER} (a version below 0 or above 31), {@code HRP_EMPTY}, {@code
     *     HRP_TOO_LONG}, {@code HRP_NOT_ASCII}, {@code HRP_INVALID}, {@code HRP_MIXED_CASE}, {@code ENCODED_BAD_VERSION},
     *     {@code PROGRAM_TOO_SHORT}, {@code PROGRAM_TOO_LONG}, {@code PROGRAM_NOT_V0}, {@code ENCODED_ADDRESS_TOO_LONG}
     */
    public static SegwitAddress of(String hrp, int version, byte[] program) {
        encode(hrp, version, program);
        return new SegwitAddress(hrp.toLowerCase(Locale.ROOT), version, program.clone());
    }

    private static String encode(String hrp, int version, byte[] program) {
        byte[] text = new byte[Declared.BECH32_MAX_SEGWIT_TEXT];
        int[] out = new int[1];
        int number = Native.segwitEncode(Native.bytes(hrp), version, program, text, out);
        if (number != 0) {
            throw new RefusedException(Refusal.of(number, false), hrp, -1);
        }
        return Native.text(text, 0, out[0]);
    }

    /** The human-readable part, in lower case. */
    public String hrp() {
        return hrp;
    }

    /** The witness version, from 0 to 16. */
    public int version() {
        return version;
    }

    /** The program. */
    public byte[] program() {
        return program.clone();
    }

    /** The address in lower case. */
    @Override
    public String toString() {
        return encode(hrp, version, program);
    }

    @Override
    public boolean equals(Object other) {
        return other instanceof SegwitAddress && ((SegwitAddress) other).hrp.equals(hrp)
                && ((SegwitAddress) other).version == version && Arrays.equals(((SegwitAddress) other).program, program);
    }

    @Override
    public int hashCode() {
        return (hrp.hashCode() * 31 + version) * 31 + Arrays.hashCode(program);
    }

    /** An address that may have been meant. */
    public static final class Suggestion {
        private final String text;
        private final int place;
        private final List<Change> changes;
        private final Edit edit;

        Suggestion(String text, int place, List<Change> changes, Edit edit) {
            this.text = text;
            this.place = place;
            this.changes = changes;
            this.edit = edit;
        }

        /** The address, in the case of the text that was typed. */
        public String text() {
            return text;
        }

        /** The first place, from 0, at which the address and the text differ, or one of them ends. */
        public int place() {
            return place;
        }

        /** The characters that are replaced, in rising places: none where an edit makes the address, or it was typed so. */
        public List<Change> changes() {
            return changes;
        }

        /** The one edit that makes the address, or null where characters are replaced, or it was typed so. */
        public Edit edit() {
            return edit;
        }

        @Override
        public String toString() {
            return text + " " + (edit == null ? changes : edit);
        }
    }

    /**
     * Did you mean? Lists the addresses of a network, that of {@code hrp} in either case, that someone may have meant who typed
     * a text, in which each {@code ?} cannot be read. They are of forms in use (version 0 with 20 or 32 bytes, version 1 with
     * 32), but for the text itself, which is listed if it is an address of the network. Each is a guess: show it, and let people compare it with the source
     * before it is paid to. The C header bech32.h says which texts are tried, and in which order.
     *
     * @throws RefusedException the first of, of {@code hrp}: {@code HRP_EMPTY}, {@code HRP_TOO_LONG}, {@code HRP_NOT_ASCII},
     *     {@code HRP_INVALID}, {@code HRP_MIXED_CASE}; of the text: {@code INVALID_CHARACTER}, {@code MIXED_CASE}, {@code
     *     NO_SEPARATOR}, and the same
     */
    public static List<Suggestion> suggest(String text, String hrp) {
        byte[] bytes = Native.bytes(text);
        byte[] part = Native.bytes(hrp);
        Typed typed = new Typed(text);
        List<Suggestion> listed = new ArrayList<>();
        int memory = Declared.BECH32_SUGGEST_MEMORY, most = Declared.BECH32_SUGGESTIONS;
        for (Search.Found found : Search.edits(null, bytes.length, memory, most, 1, (lent, kinds, places, texts, out) ->
                Native.suggest(bytes, part, lent, kinds, places, texts, out))) {
            int place = found.places[0];
            String made = typed.inCase(found.text);
            String low = typed.inCase(text.toLowerCase(Locale.ROOT));
            List<Change> changes = new ArrayList<>();
            for (int at = 0; found.kind == Search.REPLACED && at < made.length(); at++) {
                if (low.charAt(at) != made.charAt(at)) {
                    changes.add(new Change(at, low.charAt(at), made.charAt(at)));
                }
            }
            boolean isEdit = found.kind != Search.REPLACED && found.kind != Search.UNCHANGED;
            int second = found.kind == Search.SWAPPED ? place + 1 : place;
            Edit edit = isEdit ? Edit.of(found.kind, place, second, low, made) : null;
            listed.add(new Suggestion(made, place, Collections.unmodifiableList(changes), edit));
        }
        return listed;
    }
}
