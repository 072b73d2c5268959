package bech32proved;

import java.nio.charset.StandardCharsets;
import java.util.AbstractList;
import java.util.Arrays;
import java.util.List;

/** Rows that a call made, as Apache Arrow lays them out: the buffers of a {@code utf8} or {@code binary} array. */
public final class Rows {
    private final int[] offsets;
    private final byte[] data;
    private final byte[] validity;
    private final int nullCount;

    Rows(int[] offsets, byte[] data, byte[] numbers) {
        this.offsets = offsets;
        this.data = data;
        this.validity = new byte[(numbers.length + 7) / 8];
        int[] accepted = new int[1];
        Columns.wanted(Native.validityOf(numbers, validity, accepted));
        this.nullCount = numbers.length - accepted[0];
    }

    /** How many rows there are. */
    public int size() {
        return offsets.length - 1;
    }

    /** The bytes of a row, or null. */
    public byte[] bytes(int row) {
        boolean isThere = (validity[row / 8] >> row % 8 & 1) == 1;
        return isThere ? Arrays.copyOfRange(data, offsets[row], offsets[row + 1]) : null;
    }

    /** A row as a text, or null. */
    public String text(int row) {
        byte[] bytes = bytes(row);
        return bytes == null ? null : new String(bytes, StandardCharsets.US_ASCII);
    }

    /** The rows as texts, of which some may be null: a view. */
    public List<String> texts() {
        return new AbstractList<String>() {
            @Override
            public String get(int row) {
                if (row < 0 || row >= size()) {
                    throw new IndexOutOfBoundsException("there are " + size() + " rows");
                }
                return text(row);
            }

            @Override
            public int size() {
                return Rows.this.size();
            }
        };
    }

    /** These rows as a column. */
    public Column column() {
        return Column.of(data, offsets, validity);
    }

    /** Where each row begins, and the last one ends: the array itself. */
    public int[] offsets() {
        return offsets;
    }

    /** The bytes of all rows: the array itself. */
    public byte[] data() {
        return data;
    }

    /** Bit i % 8 of byte i / 8, the lowest first, is 0 where row i is null: the array itself. */
    public byte[] validity() {
        return validity;
    }

    /** How many rows are null. */
    public int nullCount() {
        return nullCount;
    }
}
