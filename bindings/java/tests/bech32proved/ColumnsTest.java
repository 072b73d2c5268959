package bech32proved;

import static org.junit.jupiter.api.Assertions.assertArrayEquals;
import static org.junit.jupiter.api.Assertions.assertEquals;
import static org.junit.jupiter.api.Assertions.assertNull;
import static org.junit.jupiter.api.Assertions.assertThrows;
import static org.junit.jupiter.api.Assertions.assertTrue;

import java.nio.ByteBuffer;
import java.nio.ByteOrder;
import java.util.ArrayList;
import java.util.Arrays;
import java.util.Collections;
import java.util.List;
import java.util.Random;
import java.util.stream.IntStream;
import org.junit.jupiter.api.Test;

/** Of each row a column says what the call for one text says. */
class ColumnsTest {
    private static final String ADDRESS = "bc1qw508d6qejxtdg4y5r3zarvary0c5xw7kv8f3t4";

    private static byte[] random(Random draw, int size) {
        byte[] bytes = new byte[size];
        draw.nextBytes(bytes);
        return bytes;
    }

    private static List<String> some(int count) {
        Random draw = new Random(80);
        List<String> rows = new ArrayList<>();
        while (rows.size() < count) {
            byte[] program = random(draw, draw.nextBoolean() ? 20 : 32);
            String text = SegwitAddress.of(draw.nextInt(3) > 0 ? "bc" : "tb", draw.nextInt(2), program).toString();
            int at = draw.nextInt(text.length());
            switch (draw.nextInt(10)) {
                case 0:
                    rows.add(null);
                    break;
                case 1:
                    rows.add(text.substring(0, at) + "?1bé\ud800l".charAt(draw.nextInt(6)) + text.substring(at + 1));
                    break;
                case 2:
                    rows.add(text.toUpperCase());
                    break;
                case 3:
                    rows.add(text.substring(0, at));
                    break;
                default:
                    rows.add(text);
            }
        }
        return rows;
    }

    private interface Call {
        void run();
    }

    private static int number(String row, Call call) {
        if (row == null) {
            return Refusal.NULL_ROW.number();
        }
        try {
            call.run();
            return 0;
        } catch (RefusedException refused) {
            return refused.refusal().number();
        }
    }

    private static void same(List<String> rows, String hrp, Columns.Addresses found) {
        int nulls = 0;
        for (int at = 0; at < rows.size(); at++) {
            String row = rows.get(at);
            int right = number(row, () -> SegwitAddress.parse(row));
            SegwitAddress address = right == 0 ? SegwitAddress.parse(row) : null;
            if (address != null && hrp != null && !address.hrp().equals(hrp)) {
                right = Refusal.OTHER_HRP.number();
                address = null;
            }
            assertEquals(right, found.numbers()[at], row);
            assertEquals(address == null ? 0 : address.version(), found.versions()[at], row);
            assertEquals(address == null ? 0 : address.hrp().length(), found.hrpLengths()[at], row);
            assertArrayEquals(address == null ? null : address.program(), found.programs().bytes(at), row);
            nulls += right == 0 ? 0 : 1;
        }
        assertEquals(nulls, found.programs().nullCount());
        assertEquals(rows.size(), found.programs().size());
    }

    @Test
    void textsAreChecked() {
        List<String> rows = some(1000);
        Column column = Column.ofTexts(rows);
        for (Checksum checksum : Checksum.values()) {
            byte[] numbers = Columns.check(checksum, column);
            for (int at = 0; at < rows.size(); at++) {
                String row = rows.get(at);
                assertEquals(number(row, () -> Bech32.check(checksum, row)), numbers[at], row);
            }
        }
        byte[] either = Columns.check(null, column);
        byte[] one = Columns.check(Checksum.BECH32, column);
        byte[] other = Columns.check(Checksum.BECH32M, column);
        for (int at = 0; at < either.length; at++) {
            assertEquals(one[at] == 0 || other[at] == 0, either[at] == 0);
        }
    }

    private static ByteBuffer buffer(boolean isDirect, int size) {
        ByteBuffer made = isDirect ? ByteBuffer.allocateDirect(size + 8) : ByteBuffer.allocate(size + 8);
        made.order(ByteOrder.nativeOrder()).position(8);
        return made;
    }

    private static Column ofBuffers(Rows rows, boolean isDirect, boolean isLarge) {
        ByteBuffer bytes = buffer(isDirect, rows.data().length).put(rows.data());
        ByteBuffer offsets = buffer(isDirect, rows.offsets().length * (isLarge ? 8 : 4));
        ByteBuffer validity = buffer(isDirect, rows.validity().length).put(rows.validity());
        for (int it : rows.offsets()) {
            if (isLarge) {
                offsets.putLong(it);
            } else {
                offsets.putInt(it);
            }
        }
        for (ByteBuffer it : List.of(bytes, offsets, validity)) {
            it.position(8);
        }
        return Column.of(bytes, offsets, isLarge, validity);
    }

    @Test
    void addressesAreDecodedAndEncoded() {
        List<String> rows = some(1500);
        Column column = Column.ofTexts(rows);
        same(rows, "bc", Columns.decode(column, "bc"));
        same(rows, "tb", Columns.decode(column, "tb"));
        Columns.Addresses found = Columns.decode(column, null);
        same(rows, null, found);
        same(rows.subList(105, 333), "bc", Columns.decode(column.rows(100, 1500).rows(5, 233), "BC"));
        Columns.Texts made = Columns.encode("bc", found.versions(), found.programs().column());
        for (int at = 0; at < rows.size(); at++) {
            String right = found.numbers()[at] != 0 ? null
                    : SegwitAddress.of("bc", found.versions()[at], found.programs().bytes(at)).toString();
            assertEquals(right, made.texts().text(at));
            assertEquals(right == null ? 1 : 0, made.numbers()[at]);
        }
        List<String> texts = made.texts().texts();
        assertEquals(1500, texts.size());
        for (boolean isDirect : new boolean[] {true, false}) {
            for (boolean isLarge : new boolean[] {true, false}) {
                same(texts, "bc", Columns.decode(ofBuffers(made.texts(), isDirect, isLarge), "bc"));
            }
        }
        long[] large = Arrays.stream(made.texts().offsets()).asLongStream().toArray();
        same(texts, "bc", Columns.decode(Column.of(made.texts().data(), large, made.texts().validity()), "bc"));
    }

    @Test
    void longColumns() {
        int count = 70000;
        Columns.Addresses found = Columns.decode(Column.ofTexts(Collections.nCopies(count, ADDRESS)), "bc");
        Rows texts = Columns.encode("bc", found.versions(), found.programs().column()).texts();
        assertEquals(42 * count, texts.offsets()[count]);
        for (int at : new int[] {0, 32767, 32768, 65536, count - 1}) {
            assertEquals(ADDRESS, texts.text(at));
        }
        assertEquals(0, texts.nullCount());
    }

    @Test
    void programsAreEncoded() {
        List<byte[]> programs = Arrays.asList(new byte[20], null, new byte[32], new byte[1], new byte[41], new byte[20], new byte[5000]);
        byte[] versions = {0, 0, 1, 1, 1, 17, (byte) 200};
        Columns.Texts made = Columns.encode("bc", versions, Column.ofPrograms(programs));
        assertArrayEquals(new byte[] {0, 1, 0, 46, 47, 52, 52}, made.numbers());
        assertEquals(SegwitAddress.of("bc", 1, new byte[32]).toString(), made.texts().text(2));
        assertNull(made.texts().text(1));
        assertEquals(200, versions[6] & 0xff);
        assertThrows(IllegalArgumentException.class, () -> Columns.encode("bc", new byte[1], Column.ofPrograms(programs)));
        assertArrayEquals(new byte[] {11}, Columns.encode("", new byte[1], Column.fixed(new byte[20], 20, null)).numbers());
    }

    @Test
    void offsetsMayBeAny() {
        byte[] bytes = Native.bytes("a12uel5la12uel5l");
        int[] offsets = {0, 8, 7, Integer.MAX_VALUE, 0, 8, -1, Integer.MIN_VALUE, 8, 16, 17};
        assertArrayEquals(new byte[] {0, 4, 4, 4, 0, 4, 4, 4, 0, 4}, Columns.check(Checksum.BECH32, Column.of(bytes, offsets, null)));
        long[] large = {Long.MAX_VALUE, 0, 8, Long.MIN_VALUE, 8, 16};
        assertArrayEquals(new byte[] {4, 0, 4, 4, 0}, Columns.check(Checksum.BECH32, Column.of(bytes, large, null)));
        assertArrayEquals(new byte[] {1, 0}, Columns.check(Checksum.BECH32, Column.fixed(bytes, 8, new byte[] {2})));
        byte[] short_ = Columns.check(Checksum.BECH32, Column.fixed(bytes, 1, new byte[] {-1}));
        assertArrayEquals(new byte[] {4, 4, 4, 4, 4, 4, 4, 4}, Arrays.copyOfRange(short_, 8, 16));
        assertEquals("the offsets of the row do not lie in the column", Columns.message(4));
        assertEquals("the row is null", Columns.message(1));
        assertEquals("", Columns.message(0));
    }

    @Test
    void whatIsNoColumn() {
        Column none = Column.of(new byte[0], new int[0], null);
        assertEquals(0, none.size());
        assertEquals(0, Columns.decode(none, "bc").programs().size());
        assertEquals(0, Columns.encode("bc", new byte[0], Column.ofPrograms(Collections.emptyList())).texts().size());
        assertThrows(IllegalArgumentException.class, () -> Columns.decode(none, ""));
        Column one = Column.ofTexts(List.of(ADDRESS));
        String[] parts = {"q".repeat(84), "b\u00e9", " bc", "Bc"};
        Refusal[] refusals = {Refusal.HRP_TOO_LONG, Refusal.HRP_NOT_ASCII, Refusal.HRP_INVALID, Refusal.HRP_MIXED_CASE};
        for (int at = 0; at < parts.length; at++) {
            String part = parts[at];
            for (Column column : List.of(none, one)) {
                assertEquals(refusals[at], assertThrows(RefusedException.class, () -> Columns.decode(column, part)).refusal());
            }
        }
        assertThrows(IllegalArgumentException.class, () -> Column.fixed(new byte[1], 0, null));
        for (int[] it : new int[][] {{-1, 1}, {1, 0}, {0, 3}}) {
            Column two = Column.ofTexts(List.of(ADDRESS, ADDRESS));
            assertThrows(IndexOutOfBoundsException.class, () -> two.rows(it[0], it[1]));
        }
    }

    @Test
    void severalThreadsMayShareAColumn() {
        Column column = Column.ofTexts(Collections.nCopies(8000, ADDRESS));
        assertTrue(IntStream.range(0, 80).parallel().allMatch(at ->
                Columns.decode(column.rows(100 * at, 100 * at + 100), "bc").programs().nullCount() == 0));
    }
}
