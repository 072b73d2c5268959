package bech32proved;

/** A text that one edit makes of a mistyped one. */
public final class Edited {
    private final String text;
    private final Edit edit;

    Edited(String text, Edit edit) {
        this.text = text;
        this.edit = edit;
    }

    /** The text, in the case of the mistyped one. */
    public String text() {
        return text;
    }

    /** What makes it. */
    public Edit edit() {
        return edit;
    }

    @Override
    public String toString() {
        return text + " (" + edit + ")";
    }
}
