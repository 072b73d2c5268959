package bech32proved;

import java.util.Arrays;

/**
 * Columns: many rows in one call, as data frames and databases have them. No row is refused by an exception: each has its number,
 * 0 where it is accepted, else the first that applies of: that of {@link Refusal#NULL_ROW}; of {@link Refusal#BAD_NUMBER}, where
 * the offsets of the row, or its bit of validity, do not lie in the column; what the call for one text refuses with; that of
 * {@link Refusal#OTHER_HRP}. {@link #message} says it.
 */
public final class Columns {
    /** Rows at most in one call of the library: the collector may wait for it. */
    private static final int ROWS = 1 << 15;
    private static final int MAX_PROGRAM = Declared.BECH32_MAX_SEGWIT_PROGRAM;
    private static final int MAX_ADDRESS = Declared.BECH32_MAX_SEGWIT_TEXT;

    private Columns() {}

    /** What addresses hold, an item a row. */
    public static final class Addresses {
        private final byte[] numbers;
        private final byte[] versions;
        private final byte[] hrpLengths;
        private final Rows programs;

        Addresses(byte[] numbers, byte[] versions, byte[] hrpLengths, Rows programs) {
            this.numbers = numbers;
            this.versions = versions;
            this.hrpLengths = hrpLengths;
            this.programs = programs;
        }

        /** 0, or why there is nothing. */
        public byte[] numbers() {
            return numbers;
        }

        /** The witness versions; 0 where the number is not 0. */
        public byte[] versions() {
            return versions;
        }

        /** How long the human-readable part is, with which the text begins; 0 where the number is not 0. */
        public byte[] hrpLengths() {
            return hrpLengths;
        }

        /** The witness programs, null where the number is not 0. */
        public Rows programs() {
            return programs;
        }
    }

    /** Addresses that were written, an item a row. */
    public static final class Texts {
        private final byte[] numbers;
        private final Rows texts;

        Texts(byte[] numbers, Rows texts) {
            this.numbers = numbers;
            this.texts = texts;
        }

        /** 0, or why there is no address. */
        public byte[] numbers() {
            return numbers;
        }

        /** The addresses, in lower case, null where the number is not 0. */
        public Rows texts() {
            return texts;
        }
    }

    /** What is made of each part of a column, one behind another. */
    private static final class Gathered {
        private final int[] offsets;
        private byte[] data = new byte[0];
        private int row;

        Gathered(int rows) {
            offsets = new int[rows + 1];
        }

        void add(int count, int[] own, byte[] made) {
            int end = offsets[row];
            long size = (long) end + own[count];
            if (size > Integer.MAX_VALUE - 8) {
                throw new IllegalArgumentException("the results have more than 2147483639 bytes: give some rows at a time");
            }
            if (size > data.length) {
                data = Arrays.copyOf(data, (int) Math.min(Math.max(size, 2L * data.length), Integer.MAX_VALUE - 8));
            }
            System.arraycopy(made, 0, data, end, own[count]);
            for (int at = 1; at <= count; at++) {
                offsets[row + at] = end + own[at];
            }
            row += count;
        }

        Rows rows(byte[] numbers) {
            return new Rows(offsets, Arrays.copyOf(data, offsets[row]), numbers);
        }
    }

    /** Whatever the rows are, a call here returns 0, or the part is none, or there is no memory to pin an array. */
    static void wanted(int number) {
        if (number != 0) {
            throw new RefusedException(Refusal.of(number, false));
        }
    }

    /**
     * Tests each row by a checksum, or, where it is null, by Bech32m and Bech32, and returns the numbers: 0 is accepted.
     */
    public static byte[] check(Checksum checksum, Column texts) {
        byte[] numbers = new byte[texts.size()];
        int by = checksum == null ? 0 : checksum.number;
        for (int at = 0; at < numbers.length; at += ROWS) {
            int count = Math.min(ROWS, numbers.length - at);
            wanted(Native.checkMany(by, texts.bytes, texts.offsets, texts.validity, texts.lengths, texts.layout,
                    texts.first + at, numbers, at, count));
        }
        return numbers;
    }

    /**
     * Decodes segwit addresses. Name the human-readable part of your network: other addresses then have the number of {@link
     * Refusal#OTHER_HRP}. Where it is null any is accepted, and yours to compare.
     *
     * @throws IllegalArgumentException if the human-readable part is empty
     * @throws RefusedException if it is none: {@code HRP_TOO_LONG}, {@code HRP_NOT_ASCII}, {@code HRP_INVALID} or {@code
     *     HRP_MIXED_CASE}
     */
    public static Addresses decode(Column texts, String hrp) {
        if (hrp != null && hrp.isEmpty()) {
            throw new IllegalArgumentException("no address has an empty human-readable part");
        }
        byte[] part = Native.bytes(hrp == null ? "" : hrp);
        int rows = texts.size();
        byte[] numbers = new byte[rows];
        byte[] versions = new byte[rows];
        byte[] lengths = new byte[rows];
        int[] offsets = new int[Math.min(ROWS, rows) + 1];
        byte[] programs = new byte[Math.min(ROWS, rows) * MAX_PROGRAM];
        Gathered gathered = new Gathered(rows);
        // A column without rows has one call as well, which tests the part.
        for (int at = 0; at == 0 || at < rows; at += ROWS) {
            int count = Math.min(ROWS, rows - at);
            wanted(Native.segwitDecodeMany(texts.bytes, texts.offsets, texts.validity, texts.lengths, texts.layout,
                    texts.first + at, part, numbers, versions, lengths, at, count, offsets, programs));
            gathered.add(count, offsets, programs);
        }
        return new Addresses(numbers, versions, lengths, gathered.rows(numbers));
    }

    /**
     * Encodes segwit addresses of one human-readable part: a witness version, from 0 to 16, and a program for each.
     *
     * @throws IllegalArgumentException if there are not as many versions as programs
     */
    public static Texts encode(String hrp, byte[] versions, Column programs) {
        int rows = programs.size();
        if (versions.length != rows) {
            throw new IllegalArgumentException("there are not as many versions as programs");
        }
        byte[] part = Native.bytes(hrp);
        byte[] numbers = new byte[rows];
        // The number of a version above 31 is that of one above 16.
        byte[] given = versions.clone();
        for (int at = 0; at < rows; at++) {
            given[at] = (byte) Math.min(given[at] & 0xff, 31);
        }
        int[] offsets = new int[Math.min(ROWS, rows) + 1];
        byte[] texts = new byte[Math.min(ROWS, rows) * MAX_ADDRESS];
        Gathered gathered = new Gathered(rows);
        for (int at = 0; at < rows; at += ROWS) {
            int count = Math.min(ROWS, rows - at);
            wanted(Native.segwitEncodeMany(part, given, programs.bytes, programs.offsets, programs.validity, programs.lengths,
                    programs.layout, programs.first + at, numbers, at, count, offsets, texts));
            gathered.add(count, offsets, texts);
        }
        return new Texts(numbers, gathered.rows(numbers));
    }

    /** The sentence of a row's number, in English, without a full stop; of 0 it is empty. */
    public static String message(int number) {
        if (number == Refusal.BAD_NUMBER.number()) {
            return "the offsets of the row do not lie in the column";
        }
        return number == 0 ? "" : Native.sentence(number, false);
    }
}
