    // What the calls on columns need beside those that tools/make.d/native_calls writes.

    /** A column as Arrow has it. Its offsets may be any: the library tests them. */
    static final class Column {
        byte[] bytes = {};
        /** Where each row begins, and the last one ends; not read where rows have one width. */
        long[] offsets = {};
        /** Bit i % 8 of byte i / 8 is 0 where row i is null. If there is no byte, no row is null. */
        byte[] validity = {};
        long rows;
        long width;
        /** The number of the layout in bech32.h: offsets of either size are the second. */
        int layout = 2;
    }

    /**
     * Some rows of a column, with no more of its buffers than they need. The first row is at a multiple of eight, as is the first
     * bit of a byte of the validity.
     */
    private static final class Part {
        private static final int HEAD = 80;

        private byte[] bytes = {};
        private long[] offsets = {};
        private byte[] validity = {};
        private long rows;
        private long width;
        private int layout = 2;

        /** The rows from one on, or null where the column does not have them. */
        static Part of(Column column, long from, long count) {
            if (from < 0 || from > column.rows || count > column.rows - from) {
                return null;
            }
            long base = from - from % 8;
            Part part = new Part();
            part.rows = from % 8 + count;
            part.validity = behindOf(column.validity, base / 8, part.rows / 8 + 1);
            if (column.validity.length > 0 && part.validity.length == 0) {
                // No bit of these rows is there, as none is in a column without offsets.
                return part;
            }
            if (column.layout < 3) {
                part.cut(column, base);
            } else {
                part.width = column.width;
                part.layout = column.layout;
                part.bytes = behindOf(column.bytes, times(base, column.width), times(part.rows, column.width));
            }
            return part;
        }

        /** A product, or the largest number. */
        private static long times(long a, long b) {
            return b < 0 || Math.multiplyHigh(a, b) != 0 || a * b < 0 ? Long.MAX_VALUE : a * b;
        }

        /** The end of bytes, at most so many, and none where it begins beyond theirs. */
        private static byte[] behindOf(byte[] bytes, long at, long most) {
            if (at >= bytes.length) {
                return new byte[0];
            }
            return Arrays.copyOfRange(bytes, (int) at, (int) (at + Math.min(most, bytes.length - at)));
        }

        /** Takes the offsets of the rows, and the bytes from the first that a row has up to the last. */
        private void cut(Column column, long base) {
            int end = (int) Math.min(column.offsets.length, base + rows + 1);
            offsets = base < end ? Arrays.copyOfRange(column.offsets, (int) base, end) : offsets;
            long low = column.bytes.length;
            long high = 0;
            for (int i = 1; i < offsets.length; i++) {
                if (offsets[i - 1] >= 0 && offsets[i - 1] <= offsets[i] && offsets[i] <= column.bytes.length) {
                    low = Math.min(low, offsets[i - 1]);
                    high = Math.max(high, offsets[i]);
                }
            }
            low = Math.min(low, high);
            bytes = Arrays.copyOfRange(column.bytes, (int) low, (int) high);
            shift(low);
        }

        /** Subtracts from each offset what is left out. One below those of the bytes that are there becomes negative: no row is there. */
        private void shift(long low) {
            for (int i = 0; i < offsets.length; i++) {
                offsets[i] = offsets[i] < low ? -1 : offsets[i] - low;
            }
        }

        long size() {
            return HEAD + 8L * offsets.length + validity.length + bytes.length;
        }

        /** Puts it into the memory of a call, as the library has a column. */
        void put(byte[] m, long at) {
            long offsetsAt = at + HEAD;
            long validityAt = offsetsAt + 8L * offsets.length;
            long bytesAt = validityAt + validity.length;
            putNumbers(m, at, new long[] {bytesAt, bytes.length, offsetsAt, 8L * offsets.length, validityAt, validity.length, rows, width, layout});
            putNumbers(m, offsetsAt, offsets);
            Bech32.put(m, validityAt, validity);
            Bech32.put(m, bytesAt, bytes);
        }
    }
