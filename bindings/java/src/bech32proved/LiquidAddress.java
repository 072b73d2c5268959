package bech32proved;

import java.util.Arrays;
import java.util.List;
import java.util.Locale;

/** A confidential address of Liquid, of witness version 0, by the checksum Blech32. */
public final class LiquidAddress {
    private final String hrp;
    private final int version;
    private final byte[] key;
    private final byte[] program;

    private LiquidAddress(String hrp, int version, byte[] key, byte[] program) {
        this.hrp = hrp;
        this.version = version;
        this.key = key;
        this.program = program;
    }

    /**
     * Reads an address. Any human-readable part is accepted: compare {@link #hrp} with that of your network ({@code lq}). That
     * the key is a point of the curve is not tested.
     *
     * @throws RefusedException the first of {@code INVALID_CHARACTER}, {@code MIXED_CASE}, {@code NO_SEPARATOR}, {@code
     *     HRP_EMPTY}, {@code HRP_TOO_LONG}, {@code HRP_NOT_ASCII}, {@code HRP_INVALID}, {@code HRP_MIXED_CASE}, {@code
     *     NO_DATA}, {@code BAD_VERSION}, {@code UNSUPPORTED_VERSION}, {@code TEXT_TOO_LONG}, {@code NO_CHECKSUM}, {@code
     *     WRONG_CHECKSUM}, {@code NO_DATA}, {@code PADDING_TOO_LONG}, {@code PADDING_NOT_ZERO}, {@code NO_BLINDING_KEY}, {@code
     *     PROGRAM_TOO_SHORT}, {@code PROGRAM_TOO_LONG}, {@code PROGRAM_NOT_V0}
     */
    public static LiquidAddress parse(String text) {
        byte[] hrp = new byte[Declared.BECH32_MAX_HRP];
        byte[] key = new byte[Declared.BECH32_LIQUID_KEY_LENGTH];
        byte[] program = new byte[Declared.BECH32_MAX_LIQUID_PROGRAM];
        int[] out = new int[3];
        int number = Native.liquidDecode(Native.bytes(text), hrp, key, program, out);
        if (number != 0) {
            throw RefusedException.ofText(number, text);
        }
        String part = Native.text(hrp, 0, out[0]).toLowerCase(Locale.ROOT);
        return new LiquidAddress(part, out[2], key, Arrays.copyOf(program, out[1]));
    }

    /**
     * The address of a human-readable part, a witness version, a blinding key of 33 bytes and a program.
     *
     * @throws RefusedException the first of {@code NO_BLINDING_KEY} (a key of another length), {@code BAD_NUMBER} (a version
     *     below 0 or above 31), {@code HRP_EMPTY}, {@code HRP_TOO_LONG}, {@code HRP_NOT_ASCII}, {@code HRP_INVALID}, {@code
     *     HRP_MIXED_CASE}, {@code ENCODED_BAD_VERSION}, {@code UNSUPPORTED_VERSION}, {@code PROGRAM_TOO_SHORT}, {@code
     *     PROGRAM_TOO_LONG}, {@code PROGRAM_NOT_V0}
     */
    public static LiquidAddress of(String hrp, int version, byte[] key, byte[] program) {
        encode(hrp, version, key, program);
        return new LiquidAddress(hrp.toLowerCase(Locale.ROOT), version, key.clone(), program.clone());
    }

    private static String encode(String hrp, int version, byte[] key, byte[] program) {
        byte[] text = new byte[Declared.BECH32_MAX_LIQUID_TEXT];
        int[] out = new int[1];
        int number = Native.liquidEncode(Native.bytes(hrp), version, key, program, text, out);
        if (number != 0) {
            throw new RefusedException(Refusal.of(number, false), hrp, -1);
        }
        return Native.text(text, 0, out[0]);
    }

    /**
     * Lists the texts near to a mistyped one, as {@link Bech32#nearest} does, by Blech32: with at most {@code errors} other
     * characters, 0 to 3, beside at most six that are known to be wrong. Twice {@code errors}, with their number, may be at
     * most seven. Where it is at most six, there is one text at most: with three errors beside none that are known to be wrong,
     * two beside one or two, one beside three or four, and none beside five or six. It need not be an address: parse it.
     *
     * @throws RefusedException what {@link #parse} throws up to {@code HRP_MIXED_CASE}, {@code TEXT_TOO_LONG}, {@code
     *     NO_CHECKSUM}, {@code BAD_NUMBER} of more errors, {@code NO_MEMORY}
     * @throws IllegalArgumentException of a place that the text does not have
     */
    public static List<Correction> nearest(String text, int errors, int... places) {
        int length = Math.min(text.length(), Declared.BECH32_MAX_TEXT);
        return Bech32.nearest(0, text, errors, Declared.BECH32_LIQUID_NEAREST_MEMORY(length), 8, places);
    }

    /** The human-readable part, in lower case. */
    public String hrp() {
        return hrp;
    }

    /** The witness version, which is 0. */
    public int version() {
        return version;
    }

    /** The blinding key. */
    public byte[] key() {
        return key.clone();
    }

    /** The program. */
    public byte[] program() {
        return program.clone();
    }

    /** The address in lower case. */
    @Override
    public String toString() {
        return encode(hrp, version, key, program);
    }

    @Override
    public boolean equals(Object other) {
        return other instanceof LiquidAddress && ((LiquidAddress) other).hrp.equals(hrp)
                && ((LiquidAddress) other).version == version && Arrays.equals(((LiquidAddress) other).key, key)
                && Arrays.equals(((LiquidAddress) other).program, program);
    }

    @Override
    public int hashCode() {
        return ((hrp.hashCode() * 31 + version) * 31 + Arrays.hashCode(key)) * 31 + Arrays.hashCode(program);
    }
}
