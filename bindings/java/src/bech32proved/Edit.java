package bech32proved;

/** What is done to a mistyped text to make another of it. */
public final class Edit {
    /** What is done. */
    public enum Kind {
        /** Two neighbours are swapped. */
        SWAPPED,
        /** A character is left out. */
        LEFT_OUT,
        /** A character is put in. */
        PUT_IN,
        /** A character is changed: in a descriptor alone. */
        CHANGED
    }

    private final Kind kind;
    private final int place;
    private final String from;
    private final String to;

    private Edit(Kind kind, int place, String from, String to) {
        this.kind = kind;
        this.place = place;
        this.from = from;
        this.to = to;
    }

    /** The edit of a kind of the library, whose characters stand from a place to another in the text or the one made. */
    static Edit of(int kind, int first, int second, String text, String made) {
        String from = kind == Search.PUT_IN ? "" : text.substring(first, second + 1);
        String to = kind == Search.LEFT_OUT ? "" : made.substring(first, second + 1);
        return new Edit(Kind.values()[kind - 1], first, from, to);
    }

    /** What is done. */
    public Kind kind() {
        return kind;
    }

    /**
     * Where, from 0: the first of two that are swapped; of a character that is left out or changed, its place in the mistyped
     * text; of one that is put in, its place in the new text.
     */
    public int place() {
        return place;
    }

    /** What stands there in the mistyped text: nothing where a character is put in. */
    public String from() {
        return from;
    }

    /** What stands there in the new text: nothing where a character is left out. */
    public String to() {
        return to;
    }

    /** What is done, for people. */
    @Override
    public String toString() {
        switch (kind) {
            case SWAPPED:
                return "characters " + (place + 1) + " and " + (place + from.length()) + ": " + from.charAt(0) + " and "
                        + from.charAt(from.length() - 1) + " are swapped";
            case LEFT_OUT:
                return "character " + (place + 1) + ": " + from + " is left out";
            case PUT_IN:
                return "character " + (place + 1) + ": " + to + " is put in";
            default:
                return "character " + (place + 1) + ": " + from + " becomes " + to;
        }
    }
}
