package bech32proved;

import java.util.List;

/** How a mistyped text is mended. */
public final class Correction {
    private final String text;
    private final List<Change> changes;

    Correction(String text, List<Change> changes) {
        this.text = text;
        this.changes = changes;
    }

    /** The mended text, in the case of the mistyped one. */
    public String text() {
        return text;
    }

    /** What is changed, in rising places; what was known to be wrong is among them. */
    public List<Change> changes() {
        return changes;
    }

    @Override
    public String toString() {
        return text + " " + changes;
    }
}
