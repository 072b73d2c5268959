package bech32proved;

import static org.junit.jupiter.api.Assertions.assertArrayEquals;
import static org.junit.jupiter.api.Assertions.assertEquals;
import static org.junit.jupiter.api.Assertions.assertNull;
import static org.junit.jupiter.api.Assertions.assertThrows;
import static org.junit.jupiter.api.Assertions.assertTrue;

import java.nio.charset.StandardCharsets;
import java.util.Arrays;
import java.util.HashSet;
import java.util.List;
import java.util.Set;
import java.util.stream.Collectors;
import java.util.stream.IntStream;
import org.junit.jupiter.api.Test;

/** What the page says, what each call refuses, and calls of several threads. */
class Bech32Test {
    private static byte[] filled(int size, int value) {
        byte[] bytes = new byte[size];
        Arrays.fill(bytes, (byte) value);
        return bytes;
    }

    private static Refusal refusal(org.junit.jupiter.api.function.Executable call) {
        return assertThrows(RefusedException.class, call).refusal();
    }

    @Test
    void textsAreWrittenAndRead() {
        String text = Bech32.encode(Checksum.BECH32M, "abc", filled(5, 0xab));
        assertEquals("abc14w46h2ata5yucn", text);
        assertArrayEquals(filled(5, 0xab), Bech32.decode(text).data());
        assertEquals("abc", Bech32.decodeStrict(Checksum.BECH32M, text).hrp());
        assertArrayEquals(new byte[] {0, 1}, Bech32.decodeElements(Checksum.BECH32, "a1qpamnt9j").data());
        assertEquals("a1qpamnt9j", Bech32.encodeElements(Checksum.BECH32, "a", new byte[] {0, 1}));
        assertEquals("", Bech32.check(Checksum.BECH32, "A12UEL5L").dataPart());
    }

    @Test
    void whatIsRefusedHasItsPlace() {
        RefusedException refused = assertThrows(RefusedException.class, () -> Bech32.decode("x1b4n0q5v"));
        assertEquals(Refusal.INVALID_CHARACTER, refused.refusal());
        assertEquals(21, refused.refusal().number());
        assertEquals(2, refused.place());
        assertEquals("a character behind the separator may not stand there: character 3, b", refused.getMessage());
        refused = assertThrows(RefusedException.class, () -> Bech32.decode("\ud83d\ude42é1qqqqqq"));
        assertEquals(Refusal.HRP_NOT_ASCII, refused.refusal());
        assertEquals("\ud83d\ude42".codePointAt(0), refused.character());
        refused = assertThrows(RefusedException.class,
                () -> Bech32.encodeElements(Checksum.BECH32, "a", new byte[] {31, 32}));
        assertEquals(Refusal.BAD_ELEMENT, refused.refusal());
        assertEquals(1, refused.place());
        assertEquals(Refusal.WRONG_CHECKSUM, refusal(() -> Bech32.decode("a12uel5q")));
        assertEquals(Refusal.HRP_EMPTY, refusal(() -> Bech32.encode(Checksum.BECH32, "", new byte[0])));
        assertEquals(Refusal.PADDING_NOT_ZERO, refusal(() -> Bech32.decodeStrict(Checksum.BECH32, "a1qpamnt9j")));
        for (String text : List.of("", "1", "\u0000", "\ud800", "a1", "é")) {
            assertThrows(RefusedException.class, () -> Bech32.decode(text));
        }
    }

    @Test
    void longTextsAreReadByLongChecksums() {
        byte[] data = filled(4425, 7);
        String text = Bech32.encode(Checksum.LONG_BECH32, "a", data);
        assertEquals(7088, text.length());
        assertArrayEquals(data, Bech32.decodeStrict(Checksum.LONG_BECH32, text).data());
        assertEquals(Refusal.TEXT_TOO_LONG, refusal(() -> Bech32.decode(text)));
        assertEquals(Refusal.ENCODED_TOO_LONG, refusal(() -> Bech32.encode(Checksum.LONG_BECH32, "a", filled(4426, 7))));
        assertEquals(Refusal.BAD_NUMBER, refusal(() -> Bech32.correct(Checksum.LONG_BECH32, "a12uel5q")));
    }

    @Test
    void mistypedTextsAreMended() {
        Correction mended = Bech32.correct(Checksum.BECH32, "A12UEL5Q");
        assertEquals("A12UEL5L", mended.text());
        assertEquals("[character 8: Q becomes L]", mended.changes().toString());
        assertEquals("[character 3: ? becomes 2, character 6: ? becomes l, character 8: q becomes l]",
                Bech32.correct(Checksum.BECH32, "a1?ue?5q", 7).changes().toString());
        assertEquals(Refusal.NO_CORRECTION, refusal(() -> Bech32.correct(Checksum.BECH32, "a12uqqqq")));
        assertThrows(IllegalArgumentException.class, () -> Bech32.correct(Checksum.BECH32, "a12uel5q", 8));
        List<Correction> near = Bech32.nearest(Checksum.BECH32, "bc1q?508d6qejxtdg4y5r3zarvaty0c5xw7kv8f3t4", 2);
        assertEquals("bc1qw508d6qejxtdg4y5r3zarvary0c5xw7kv8f3t4", near.get(0).text());
        assertEquals("character 8: l is put in", Bech32.nearEdits(Checksum.BECH32, "a12uel5").get(0).edit().toString());
        assertEquals(Refusal.BAD_NUMBER, refusal(() -> Bech32.nearest(Checksum.BECH32, "a12uel5q", 3)));
        assertEquals(Refusal.BAD_NUMBER, refusal(() -> Bech32.nearest(Checksum.BECH32, "a12uel5q", -1)));
    }

    @Test
    void addressesAreValues() {
        SegwitAddress address = SegwitAddress.parse("BC1QW508D6QEJXTDG4Y5R3ZARVARY0C5XW7KV8F3T4");
        assertEquals("bc", address.hrp());
        assertEquals(0, address.version());
        assertEquals(20, address.program().length);
        assertEquals("bc1qw508d6qejxtdg4y5r3zarvary0c5xw7kv8f3t4", address.toString());
        assertEquals(address, SegwitAddress.of("BC", 0, address.program()));
        assertEquals(address.hashCode(), SegwitAddress.of("bc", 0, address.program()).hashCode());
        assertEquals(Refusal.ENCODED_BAD_VERSION, refusal(() -> SegwitAddress.of("bc", 17, filled(20, 1))));
        assertEquals(Refusal.BAD_NUMBER, refusal(() -> SegwitAddress.of("bc", -1, filled(20, 1))));
        SegwitAddress.Suggestion meant = SegwitAddress.suggest("bc1q?508d6qejxtdg4y5r3zarvaty0c5xw7kv8f3t4", "bc").get(0);
        assertEquals(address.toString(), meant.text());
        assertEquals("[character 5: ? becomes w, character 28: t becomes r]", meant.changes().toString());
        assertNull(meant.edit());
        // The text itself may be of any form, here version 1 with 33 bytes, and a guess may not.
        String other = "bc1paek6qccmuwpjh9cyknjdedcyr06lgvh83edqsvtpmaaahwx2cszk7d0t7tv";
        assertEquals(other, SegwitAddress.suggest(other, "bc").get(0).text());
        assertEquals(0, SegwitAddress.suggest(other.replace("7tv", "7tw"), "bc").size());
    }

    @Test
    void addressesOfLiquid() {
        String text = "lq1qqf8er278e6nyvuwtgf39e6ewvdcnjupn9a86rzpx655y5lhkt0walu3djf9cklkxd3ryld97hu8h3xepw7sh2rlu7q45dcew5";
        LiquidAddress address = LiquidAddress.parse(text);
        assertEquals(text, address.toString());
        assertEquals(address, LiquidAddress.of("lq", 0, address.key(), address.program()));
        assertEquals(text, LiquidAddress.nearest(text.replace("er278", "qr2q8"), 3).get(0).text());
        assertEquals(text, LiquidAddress.nearest(text, 3, 5).get(0).text());
        assertEquals(Refusal.BAD_NUMBER, refusal(() -> LiquidAddress.nearest(text, 3, 5, 6)));
        assertEquals(0, LiquidAddress.nearest(text, 3, 5, 6, 7, 8, 9, 10, 11).size());
        assertEquals(Refusal.NO_BLINDING_KEY, refusal(() -> LiquidAddress.of("lq", 0, new byte[32], address.program())));
    }

    @Test
    void descriptors() {
        assertEquals("89f8spxm", Descriptor.checksum("raw(deadbeef)"));
        assertEquals("raw(deadbeef)", Descriptor.check("raw(deadbeef)#89f8spxm"));
        Edited mended = Descriptor.mend("raw(deedbeef)#89f8spxm", 1).get(0);
        assertEquals("raw(deadbeef)#89f8spxm", mended.text());
        assertEquals("character 7: e becomes a", mended.edit().toString());
        assertEquals(2, assertThrows(RefusedException.class, () -> Descriptor.checksum("raé")).place());
        assertEquals(Refusal.BAD_NUMBER, refusal(() -> Descriptor.mend("raw(deedbeef)#89f8spxm", 3)));
        assertEquals("raw(deadbeef)#89f8spxm", Descriptor.mend("raw(déadbeef)#89f8spxm", 1).get(0).text()
                .replace("dé", "de"));
    }

    /** The other character at each of two places. */
    private static String changed(String text, int first, char one, int second, char other) {
        StringBuilder wrong = new StringBuilder(text);
        wrong.setCharAt(first, one);
        wrong.setCharAt(second, other);
        return wrong.toString();
    }

    private static void mendsTwo(String right, int first, char one, int second, char other) {
        List<Correction> found = Descriptor.mendTwo(changed(right, first, one, second, other));
        assertEquals(1, found.size());
        assertEquals(right, found.get(0).text());
        assertEquals(List.of(new Change(first, one, right.charAt(first)), new Change(second, other, right.charAt(second))),
                found.get(0).changes());
    }

    @Test
    void twoChangedCharactersOfDescriptors() {
        String right = "raw(deadbeef)#89f8spxm";
        String longer = "wpkh(02f9308a019258c31049344f85f89d5229b531c845836f99b08601f113bce036f9)#8zl0zxma";
        for (int first = 0; first < right.length(); first += 3) {
            for (int second = first + 1; second < right.length(); second += 5) {
                char one = right.charAt(first) == 'x' ? 'y' : 'x';
                mendsTwo(right, first, one, second, right.charAt(second) == 'q' ? 'p' : 'q');
            }
        }
        mendsTwo(longer, 0, 'W', longer.length() - 1, 'q');
        mendsTwo(longer, longer.length() - 9, ' ', longer.length() - 1, '#');
        mendsTwo(right, 5, 'é', 6, '€');
        assertEquals("[raw(deadbeef)#89f8spxm [character 1: s becomes r, character 4: q becomes (]]",
                Descriptor.mendTwo("sawqdeadbeef)#89f8spxm").toString());
        for (String text : List.of(right, "xaw(deadbeef)#89f8spxm", "", "#", "raw(deadbeef)")) {
            assertTrue(Descriptor.mendTwo(text).isEmpty(), text);
        }
        assertTrue(Descriptor.mendTwo("x".repeat(1400)).isEmpty());
        assertEquals(Refusal.DESCRIPTOR_TOO_LONG, refusal(() -> Descriptor.mendTwo("x".repeat(1401))));
        assertEquals(Refusal.DESCRIPTOR_TOO_LONG, refusal(() -> Descriptor.mend("x".repeat(7501), 1)));
        assertEquals(89, Refusal.DESCRIPTOR_TOO_LONG.number());
        // The call itself, with less memory, and less room, than it wants.
        byte[] wrong = "sawqdeadbeef)#89f8spxm".getBytes(StandardCharsets.US_ASCII);
        int[] places = new int[2];
        int[] out = new int[1];
        byte[] texts = new byte[wrong.length];
        assertEquals(91, Native.descriptorMendTwo(wrong, 16, places, texts, out));
        int memory = 65536 + 4608 * wrong.length;
        assertEquals(92, Native.descriptorMendTwo(wrong, memory, places, new byte[wrong.length - 1], out));
        assertEquals(92, Native.descriptorMendTwo(wrong, memory, new int[1], texts, out));
        assertEquals(1, out[0]);
        assertEquals(0, Native.descriptorMendTwo(wrong, memory, places, texts, out));
        assertEquals(right, new String(texts, StandardCharsets.US_ASCII));
        assertArrayEquals(new int[] {0, 3}, places);
    }

    @Test
    void secretsAreSharedAndRecovered() {
        byte[] secret = filled(16, 7);
        List<byte[]> shares = Codex32.split(secret, 2, 3, null);
        assertArrayEquals(secret, Codex32.recover(shares.get(2), shares.get(0)));
        assertEquals(Refusal.TOO_FEW_SHARES, refusal(() -> Codex32.recover(shares.get(1))));
        assertEquals(Refusal.BAD_RANDOM, refusal(() -> Codex32.split(secret, 2, 3, "test", new byte[1])));
        byte[] random = new byte[26];
        assertEquals(Refusal.EQUAL_RANDOM, refusal(() -> Codex32.split(secret, 2, 3, "test", random)));
        random[25] = 1;
        assertEquals(3, Codex32.split(secret, 2, 3, "test", random).size());
        assertEquals(Refusal.BAD_LENGTHS, refusal(() -> Codex32.recover(new byte[33][48])));
        byte[] text = "ms10testsxxxxxxxxxxxxxxxxxxxxxxxxxx4nzvca9cmczlw".getBytes(StandardCharsets.US_ASCII);
        try (Codex32.Share share = Codex32.share(text)) {
            assertEquals(16, share.bytes().length);
            assertEquals("test", share.identifier());
        }
        text[13] = '?';
        assertEquals('x', (char) Codex32.propose(text).orElseThrow()[13]);
        assertTrue(Codex32.propose("ms10testsqqqqqqqqqqqqqqqqqqqqqqqqqx4nzvca9cmczlw"
                .getBytes(StandardCharsets.US_ASCII)).isEmpty());
    }

    @Test
    void eachRefusalHasItsSentence() {
        Set<String> sentences = new HashSet<>();
        for (Refusal it : Refusal.values()) {
            assertTrue(sentences.add(it.number() + it.sentence()) && !it.sentence().isEmpty(), it.name());
        }
    }

    @Test
    void severalThreadsMayCall() {
        List<String> texts = IntStream.range(0, 2000).parallel().mapToObj(at -> {
            String text = Bech32.encode(Checksum.BECH32, "a", filled(at % 100, at));
            assertArrayEquals(filled(at % 100, at), Bech32.decode(text).data());
            assertEquals(1, Bech32.nearest(Checksum.BECH32, "a12uel5q", 1).size());
            return text;
        }).collect(Collectors.toList());
        assertEquals(2000, texts.size());
    }
}
