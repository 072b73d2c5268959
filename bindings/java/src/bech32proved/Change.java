package bech32proved;

/** A character of a mistyped text, and the one that is in its place in the mended one. They may be the same. */
public final class Change {
    private final int place;
    private final char from;
    private final char to;

    Change(int place, char from, char to) {
        this.place = place;
        this.from = from;
        this.to = to;
    }

    /** Where it stands, from 0. */
    public int place() {
        return place;
    }

    /** What stands there in the mistyped text: {@code ?} where it cannot be read. */
    public char from() {
        return from;
    }

    /** What stands there in the mended text. */
    public char to() {
        return to;
    }

    @Override
    public boolean equals(Object other) {
        return other instanceof Change && ((Change) other).place == place && ((Change) other).from == from
                && ((Change) other).to == to;
    }

    @Override
    public int hashCode() {
        return (place * 31 + from) * 31 + to;
    }

    /** The change, for people. */
    @Override
    public String toString() {
        return "character " + (place + 1) + ": " + (from == to ? to + " stays" : from + " becomes " + to);
    }
}
