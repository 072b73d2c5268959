package bech32proved;

import java.nio.ByteBuffer;
import java.util.Arrays;
import java.util.List;

/**
 * Rows of texts or of programs, as Apache Arrow lays them out: the bytes of all, one behind another, and offsets. Row i has the
 * bytes from offset i up to offset i + 1; the offsets may be any, and are tested. Bit i % 8 of byte i / 8 of the validity, the
 * lowest first, is 0 where row i is null; where there is none, no row is null. Buffers are read where they are, by a call: leave
 * them as they are meanwhile.
 */
public final class Column {
    private static final int OFFSETS_32 = 1;
    private static final int OFFSETS_64 = 2;
    private static final int FIXED = 3;

    /** Arrays of Java, or direct buffers. */
    final Object bytes;
    final Object offsets;
    final Object validity;
    /** How many bytes of the three. */
    final long[] lengths;
    /** All rows, their width, and the layout. */
    final int[] layout;
    final int first;
    private final int count;

    private Column(Object bytes, Object offsets, Object validity, long[] lengths, int[] layout, int first, int count) {
        this.bytes = bytes;
        this.offsets = offsets;
        this.validity = validity;
        this.lengths = lengths;
        this.layout = layout;
        this.first = first;
        this.count = count;
    }

    private static Column of(Object bytes, Object offsets, Object validity, long[] lengths, int rows, int width, int layout) {
        return new Column(bytes, offsets, validity, lengths, new int[] {rows, width, layout}, 0, rows);
    }

    private static int length(byte[] array) {
        return array == null ? 0 : array.length;
    }

    /** Bytes with offsets of 32 bits; the validity may be null. */
    public static Column of(byte[] bytes, int[] offsets, byte[] validity) {
        long[] lengths = {bytes.length, 4L * offsets.length, length(validity)};
        return of(bytes, offsets, validity, lengths, Math.max(offsets.length - 1, 0), 0, OFFSETS_32);
    }

    /** Bytes with offsets of 64 bits; the validity may be null. */
    public static Column of(byte[] bytes, long[] offsets, byte[] validity) {
        long[] lengths = {bytes.length, 8L * offsets.length, length(validity)};
        return of(bytes, offsets, validity, lengths, Math.max(offsets.length - 1, 0), 0, OFFSETS_64);
    }

    /** Rows of one width, above 0; the validity may be null. */
    public static Column fixed(byte[] bytes, int width, byte[] validity) {
        if (width < 1) {
            throw new IllegalArgumentException("a row has at least one byte");
        }
        long[] lengths = {bytes.length, 0, length(validity)};
        return of(bytes, null, validity, lengths, bytes.length / width, width, FIXED);
    }

    /**
     * What remains in buffers, as those of an array of Arrow, in the order of bytes of the machine. Direct ones are not copied.
     *
     * @param isLarge whether the offsets have 64 bits
     * @param validity may be null
     */
    public static Column of(ByteBuffer bytes, ByteBuffer offsets, boolean isLarge, ByteBuffer validity) {
        long[] lengths = {bytes.remaining(), offsets.remaining(), validity == null ? 0 : validity.remaining()};
        int rows = Math.max(offsets.remaining() / (isLarge ? 8 : 4) - 1, 0);
        return of(held(bytes), held(offsets), validity == null ? null : held(validity), lengths, rows, 0,
                isLarge ? OFFSETS_64 : OFFSETS_32);
    }

    private static Object held(ByteBuffer buffer) {
        if (buffer.isDirect()) {
            return buffer.slice();
        }
        byte[] copy = new byte[buffer.remaining()];
        buffer.duplicate().get(copy);
        return copy;
    }

    /** The texts of a list, copied; null is a null row. */
    public static Column ofTexts(List<String> texts) {
        Builder all = new Builder(texts.size(), 64);
        for (String text : texts) {
            all.add(text == null ? null : Native.bytes(text));
        }
        return all.column();
    }

    /** The programs of a list, copied; null is a null row. */
    public static Column ofPrograms(List<byte[]> programs) {
        Builder all = new Builder(programs.size(), 32);
        for (byte[] program : programs) {
            all.add(program);
        }
        return all.column();
    }

    /** Puts rows one behind another. */
    private static final class Builder {
        private final int[] offsets;
        private final byte[] validity;
        private byte[] bytes;
        private int row;

        Builder(int rows, int each) {
            offsets = new int[Math.addExact(rows, 1)];
            validity = new byte[(rows + 7) / 8];
            bytes = new byte[(int) Math.min((long) rows * each, Integer.MAX_VALUE - 8)];
        }

        void add(byte[] added) {
            int end = offsets[row];
            if (added != null) {
                long size = (long) end + added.length;
                if (size > Integer.MAX_VALUE - 8) {
                    throw new IllegalArgumentException("the rows have more than 2147483639 bytes: give some at a time");
                }
                if (size > bytes.length) {
                    bytes = Arrays.copyOf(bytes, (int) Math.min(size + bytes.length, Integer.MAX_VALUE - 8));
                }
                System.arraycopy(added, 0, bytes, end, added.length);
                validity[row / 8] |= (byte) (1 << row % 8);
                end = (int) size;
            }
            row++;
            offsets[row] = end;
        }

        Column column() {
            return of(bytes, offsets, validity);
        }
    }

    /** How many rows it has. */
    public int size() {
        return count;
    }

    /**
     * Some rows of this column. Threads can have some each.
     *
     * @throws IndexOutOfBoundsException if there are no such rows
     */
    public Column rows(int from, int to) {
        if (from < 0 || from > to || to > count) {
            throw new IndexOutOfBoundsException("the column has " + count + " rows");
        }
        return new Column(bytes, offsets, validity, lengths, layout, first + from, to - from);
    }
}
