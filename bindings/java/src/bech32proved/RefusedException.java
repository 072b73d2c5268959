package bech32proved;

/** Why a call refuses what it was given. */
public final class RefusedException extends IllegalArgumentException {
    private static final long serialVersionUID = 1L;

    private final Refusal refusal;
    private final String text;
    private final int place;

    RefusedException(Refusal refusal, String text, int place) {
        super(sentence(refusal, text, place));
        this.refusal = refusal;
        this.text = text;
        this.place = place;
    }

    RefusedException(Refusal refusal) {
        this(refusal, null, -1);
    }

    /** Which refusal it is. */
    public Refusal refusal() {
        return refusal;
    }

    /** The place of the character at fault, in UTF-16 units from 0, or -1 where no single one is. */
    public int place() {
        return place;
    }

    /** The code point of the character at fault, or -1 where no single one is. */
    public int character() {
        return character(text, place);
    }

    private static int character(String text, int place) {
        return text == null || place < 0 || place >= text.length() ? -1 : text.codePointAt(place);
    }

    /** The sentence, and the character at fault, counted from 1; its code point where it would not show. */
    private static String sentence(Refusal refusal, String text, int place) {
        int character = character(text, place);
        if (character < 0) {
            return refusal.sentence();
        }
        String shown = character >= '!' && character <= '~'
                ? String.valueOf((char) character)
                : String.format("U+%04X", character);
        return refusal.sentence() + ": character " + (text.codePointCount(0, place) + 1) + ", " + shown;
    }

    /** The refusal of a text, with the place of the character at fault. */
    static RefusedException ofText(int number, String text) {
        Refusal refusal = Refusal.of(number, false);
        switch (refusal) {
            case HRP_NOT_ASCII:
            case HRP_INVALID:
            case INVALID_CHARACTER:
            case MIXED_CASE:
                int[] out = new int[1];
                byte[] bytes = Native.bytes(text);
                if (Native.fault(Checksum.BECH32.number, bytes, out) == number) {
                    return new RefusedException(refusal, text, unit(text, out[0]));
                }
                break;
            default:
                break;
        }
        return new RefusedException(refusal, text, -1);
    }

    /** The place in UTF-16 units of a place in bytes of UTF-8. */
    static int unit(String text, int place) {
        int unit = 0;
        for (int bytes = 0; bytes < place && unit < text.length(); ) {
            int character = text.codePointAt(unit);
            bytes += character < 0x80 || character >= 0xd800 && character < 0xe000
                    ? 1
                    : character < 0x800 ? 2 : character < 0x10000 ? 3 : 4;
            unit += Character.charCount(character);
        }
        return unit;
    }
}
