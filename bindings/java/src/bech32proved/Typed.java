package bech32proved;

import java.util.ArrayList;
import java.util.Collections;
import java.util.List;
import java.util.Locale;
import java.util.TreeSet;

/** A mistyped text as the library reads it, with the locations of what is known to be wrong, 0 that of the last character. */
final class Typed {
    final String text;
    final String read;
    final byte[] bytes;
    private final TreeSet<Integer> known = new TreeSet<>();

    /** Each {@code ?} behind the last {@code 1} cannot be read. */
    Typed(String text, int... places) {
        this.text = text;
        StringBuilder read = new StringBuilder(text);
        int separator = text.lastIndexOf('1');
        for (int place = separator + 1; separator >= 0 && place < text.length(); place++) {
            if (text.charAt(place) == '?') {
                read.setCharAt(place, isUpper(text) ? 'Q' : 'q');
                known.add(text.length() - 1 - place);
            }
        }
        this.read = read.toString();
        this.bytes = Native.bytes(this.read);
        for (int place : places) {
            if (place < 0 || place >= text.length()) {
                throw new IllegalArgumentException("the text has no place " + place);
            }
            known.add(text.length() - 1 - place);
        }
    }

    static boolean isUpper(String text) {
        return text.toUpperCase(Locale.ROOT).equals(text) && !text.toLowerCase(Locale.ROOT).equals(text);
    }

    boolean hasUnreadable() {
        return !text.equals(read);
    }

    int[] locations() {
        return known.stream().mapToInt(it -> it).toArray();
    }

    /** Whether what is known is at most what a correction changes: asked where what was read in its place is right. */
    boolean isCorrectable() {
        return known.size() <= 3 && known.last() < text.length() - 1 - text.lastIndexOf('1');
    }

    /** A text of the library in the case of what was typed. */
    String inCase(String made) {
        return isUpper(text) ? made.toUpperCase(Locale.ROOT) : made;
    }

    Correction correction(String mended) {
        String low = read.toLowerCase(Locale.ROOT);
        String typed = inCase(text.toLowerCase(Locale.ROOT));
        String made = inCase(mended);
        List<Change> changes = new ArrayList<>();
        for (int place = 0; place < made.length(); place++) {
            if (low.charAt(place) != mended.charAt(place) || known.contains(made.length() - 1 - place)) {
                changes.add(new Change(place, typed.charAt(place), made.charAt(place)));
            }
        }
        return new Correction(made, Collections.unmodifiableList(changes));
    }
}
