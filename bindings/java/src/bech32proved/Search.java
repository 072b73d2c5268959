package bech32proved;

import java.util.ArrayList;
import java.util.Arrays;
import java.util.List;

/** Searches of the library, with more room where there are more texts, and more memory where it does not suffice. */
final class Search {
    /** The most memory that a search is lent, 16 MiB. A text can need more (bech32.h): its search is refused then. */
    private static final int MOST_MEMORY = 1 << 24;

    static final int UNCHANGED = 0;
    static final int SWAPPED = 1;
    static final int LEFT_OUT = 2;
    static final int PUT_IN = 3;
    static final int REPLACED = 4;

    private Search() {}

    /** A search of texts of one length. */
    interface Near {
        int call(int memory, byte[] texts, int[] out);
    }

    /** A search of texts that edits make. */
    interface Edits {
        int call(int memory, byte[] kinds, int[] places, byte[] texts, int[] out);
    }

    /** A text, what was done to make it, and where. */
    static final class Found {
        final String text;
        final int kind;
        final int[] places;

        Found(String text, int kind, int[] places) {
            this.text = text;
            this.kind = kind;
            this.places = places;
        }
    }

    private static RefusedException tooMuch() {
        return new RefusedException(Refusal.NO_MEMORY);
    }

    private static int doubled(int memory) {
        if (memory >= MOST_MEMORY) {
            throw tooMuch();
        }
        return Math.min(2 * memory, MOST_MEMORY);
    }

    private static int times(int count, int each) {
        long size = (long) count * each;
        if (size > MOST_MEMORY) {
            throw tooMuch();
        }
        return (int) size;
    }

    static List<String> near(String text, int memory, int most, int each, Near search) {
        int[] out = new int[1];
        for (; ; ) {
            byte[] texts = new byte[times(most, each)];
            int number = search.call(memory, texts, out);
            if (number == Refusal.NO_ROOM.number()) {
                most = out[0];
            } else if (number == Refusal.NO_MEMORY.number()) {
                memory = doubled(memory);
            } else if (number != 0) {
                throw RefusedException.ofText(number, text);
            } else {
                List<String> found = new ArrayList<>(out[0]);
                for (int at = 0; at < out[0]; at++) {
                    found.add(Native.text(texts, at * each, (at + 1) * each));
                }
                return found;
            }
        }
    }

    /** The text is that which a refusal names, or null. */
    static List<Found> edits(String text, int length, int memory, int most, int placesEach, Edits search) {
        int[] out = new int[1];
        for (; ; ) {
            byte[] kinds = new byte[most];
            int[] places = new int[times(most, placesEach)];
            byte[] texts = new byte[times(most, length + 1)];
            int number = search.call(memory, kinds, places, texts, out);
            if (number == Refusal.NO_ROOM.number()) {
                most = out[0];
            } else if (number == Refusal.NO_MEMORY.number()) {
                memory = doubled(memory);
            } else if (number != 0) {
                throw text == null ? new RefusedException(Refusal.of(number, false)) : RefusedException.ofText(number, text);
            } else {
                List<Found> found = new ArrayList<>(out[0]);
                int start = 0;
                for (int at = 0; at < out[0]; at++) {
                    int end = start + length + (kinds[at] == PUT_IN ? 1 : kinds[at] == LEFT_OUT ? -1 : 0);
                    int[] where = Arrays.copyOfRange(places, placesEach * at, placesEach * (at + 1));
                    found.add(new Found(Native.text(texts, start, end), kinds[at], where));
                    start = end;
                }
                return found;
            }
        }
    }
}
