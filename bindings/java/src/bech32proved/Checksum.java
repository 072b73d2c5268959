package bech32proved;

/** The checksum of a text. */
public enum Checksum {
    /** BIP-173. */
    BECH32(1),
    /** BIP-350. */
    BECH32M(2),
    /**
     * The same as {@link #BECH32}, for texts of up to 7,089 characters. Above 1,023 nothing is promised of wrong characters;
     * no text is mended.
     */
    LONG_BECH32(3),
    /** The same as {@link #BECH32M}, for texts of up to 7,089 characters. */
    LONG_BECH32M(4);

    final int number;

    Checksum(int number) {
        this.number = number;
    }
}
