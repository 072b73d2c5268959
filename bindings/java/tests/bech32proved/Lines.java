package bech32proved;

import java.io.BufferedInputStream;
import java.io.BufferedOutputStream;
import java.io.ByteArrayOutputStream;
import java.io.IOException;
import java.io.InputStream;
import java.io.OutputStream;
import java.nio.ByteBuffer;
import java.nio.charset.CharacterCodingException;
import java.nio.charset.StandardCharsets;
import java.util.Arrays;
import java.util.HashMap;
import java.util.List;
import java.util.Locale;
import java.util.Map;
import java.util.Set;
import java.util.function.Supplier;

/** Replies to each line of standard input as the programs b32, c32 and mend do: java bech32proved.Lines b32|c32|mend. */
public final class Lines {
    /** A line has so many bytes at most; one of b32 has fewer. */
    private static final int LINE_LIMIT = 16384;
    private static final int B32_LINE_LIMIT = 4096;

    /** The commands whose one word is the rest of the line, which may have spaces, or be empty. */
    private static final Set<String> TAKE_REST = Set.of("descriptor", "descriptor-check", "descriptor-checksum");

    /** A line is refused by a number of the programs. */
    private static final class NotAnswered extends RuntimeException {
        private static final long serialVersionUID = 1L;
        final int number;

        NotAnswered(int number) {
            this.number = number;
        }
    }

    private interface Reply {
        String to(String[] words);
    }

    private static final class Command {
        final int least;
        final int most;
        final Reply reply;

        Command(int least, int most, Reply reply) {
            this.least = least;
            this.most = most;
            this.reply = reply;
        }
    }

    private static Checksum checksum(String word) {
        if (word.equals("bech32")) {
            return Checksum.BECH32;
        }
        if (word.equals("bech32m")) {
            return Checksum.BECH32M;
        }
        throw new NotAnswered(3);
    }

    /** Those for long texts too. */
    private static Checksum anyChecksum(String word) {
        if (word.equals("long-bech32")) {
            return Checksum.LONG_BECH32;
        }
        return word.equals("long-bech32m") ? Checksum.LONG_BECH32M : checksum(word);
    }

    private static int number(String word, int most) {
        if (!word.matches("0|[1-9][0-9]{0,8}") || Integer.parseInt(word) > most) {
            throw new NotAnswered(4);
        }
        return Integer.parseInt(word);
    }

    /** Locations count from the end, places from the front; one that the text has not is -1. */
    private static int[] places(String word, String text) {
        return Arrays.stream(word.split(",", -1)).mapToInt(piece -> {
            int location = number(piece, 1022);
            return location < text.length() ? text.length() - 1 - location : -1;
        }).toArray();
    }

    private static boolean areAll(int[] places) {
        return Arrays.stream(places).allMatch(it -> it >= 0);
    }

    private static int[] known(int[] places) {
        return Arrays.stream(places).filter(it -> it >= 0).toArray();
    }

    private static byte[] bytes(String word) {
        if (word.equals("-")) {
            return new byte[0];
        }
        if (!word.matches("(?:[0-9A-Fa-f]{2})+")) {
            throw new NotAnswered(5);
        }
        byte[] bytes = new byte[word.length() / 2];
        for (int at = 0; at < bytes.length; at++) {
            bytes[at] = (byte) Integer.parseInt(word.substring(2 * at, 2 * at + 2), 16);
        }
        return bytes;
    }

    private static String hex(byte[] bytes) {
        if (bytes.length == 0) {
            return "-";
        }
        StringBuilder digits = new StringBuilder();
        for (byte it : bytes) {
            digits.append(String.format("%02x", it));
        }
        return digits.toString();
    }

    private static String lower(String text) {
        return text.toLowerCase(Locale.ROOT);
    }

    private static String decoded(Bech32.Decoded it) {
        return "ok " + lower(it.hrp()) + " " + hex(it.data());
    }

    private static String address(SegwitAddress it) {
        return "ok " + it.hrp() + " " + it.version() + " " + hex(it.program());
    }

    /** To the programs a question mark is a character like others, so such a text is refused. */
    private static void refuseUnreadable(Checksum checksum, String text) {
        if (new Typed(text).hasUnreadable()) {
            Bech32.check(checksum, text);
        }
    }

    private static String correct(String[] words) {
        Checksum checksum = checksum(words[0]);
        String text = words[1];
        int[] places = words.length == 3 ? places(words[2], text) : new int[0];
        refuseUnreadable(checksum, text);
        Correction mended;
        try {
            mended = Bech32.correct(checksum, text, known(places));
        } catch (RefusedException refused) {
            if (refused.refusal() == Refusal.NO_CORRECTION) {
                return "none";
            }
            throw refused;
        }
        if (mended.changes().isEmpty()) {
            return "fine";
        }
        if (!areAll(places)) {
            return "none";
        }
        Map<Integer, Change> left = new HashMap<>();
        for (Change change : mended.changes()) {
            left.put(change.place(), change);
        }
        StringBuilder reply = new StringBuilder("ok");
        for (int place : places) {
            put(reply, left.remove(place), text);
        }
        for (int place = text.length() - 1; place >= 0; place--) {
            put(reply, left.remove(place), text);
        }
        return reply + " " + lower(mended.text());
    }

    private static void put(StringBuilder reply, Change change, String text) {
        if (change != null) {
            int from = Bech32.ALPHABET.indexOf(Character.toLowerCase(change.from()));
            int to = Bech32.ALPHABET.indexOf(Character.toLowerCase(change.to()));
            reply.append(" ").append(text.length() - 1 - change.place()).append(":")
                    .append(Bech32.ALPHABET.charAt(from ^ to));
        }
    }

    /** Of more near texts than this, as many are listed, the first, and that there are more. */
    private static final int MOST_TEXTS = 1000;

    private static String nearest(String[] words) {
        Checksum checksum = checksum(words[0]);
        String text = words[1];
        int[] places = words.length == 4 ? places(words[2], text) : new int[0];
        int errors = number(words[words.length - 1], 2);
        refuseUnreadable(checksum, text);
        StringBuilder reply = new StringBuilder("ok");
        List<Correction> found = Bech32.nearest(checksum, text, errors, known(places));
        for (Correction near : found.subList(0, areAll(places) ? Math.min(found.size(), MOST_TEXTS) : 0)) {
            reply.append(" ").append(lower(near.text()));
        }
        return reply.append(areAll(places) && found.size() > MOST_TEXTS ? " more" : "").toString();
    }

    private static String done(Edit edit) {
        return lower(edit.kind().name()).replace('_', '-');
    }

    private static String edits(String[] words) {
        Checksum checksum = checksum(words[0]);
        StringBuilder reply = new StringBuilder("ok");
        for (Edited near : Bech32.nearEdits(checksum, words[1])) {
            int last = (near.edit().kind() == Edit.Kind.PUT_IN ? near.text() : words[1]).length() - 1;
            int first = near.edit().kind() == Edit.Kind.SWAPPED ? 1 : 0;
            reply.append(" ").append(done(near.edit())).append(" ").append(last - near.edit().place() - first)
                    .append(" ").append(lower(near.text()));
        }
        return reply.toString();
    }

    private static String suggest(String[] words) {
        StringBuilder reply = new StringBuilder("ok");
        for (SegwitAddress.Suggestion it : SegwitAddress.suggest(words[1], words[0])) {
            String done = it.edit() != null ? done(it.edit()) : it.changes().isEmpty() ? "unchanged" : "replaced";
            reply.append(" ").append(done).append(" ").append(it.place()).append(" ").append(lower(it.text()));
        }
        return reply.toString();
    }

    private static String fault(String[] words) {
        Checksum checksum = checksum(words[0]);
        String text = words[1];
        try {
            Bech32.check(checksum, text);
            return "ok";
        } catch (RefusedException refused) {
            int place = text.getBytes(StandardCharsets.UTF_8).length;
            if (refused.place() >= 0) {
                place = text.substring(0, refused.place()).getBytes(StandardCharsets.UTF_8).length;
            } else if (refused.refusal() == Refusal.HRP_EMPTY || refused.refusal() == Refusal.HRP_TOO_LONG) {
                place = text.substring(0, text.lastIndexOf('1')).getBytes(StandardCharsets.UTF_8).length;
            }
            return "err " + refused.refusal().number() + " " + place;
        }
    }

    private static String checksumOf(String[] words) {
        try {
            Bech32.check(Checksum.BECH32M, words[0]);
            return "ok bech32m";
        } catch (RefusedException refused) {
            try {
                Bech32.check(Checksum.BECH32, words[0]);
                return "ok bech32";
            } catch (RefusedException other) {
                throw refused;
            }
        }
    }

    private static String liquidEncode(String[] words) {
        int version = number(words[1], 31);
        byte[] key = bytes(words[2]);
        if (key.length != 33) {
            throw new NotAnswered(5);
        }
        return "ok " + LiquidAddress.of(words[0], version, key, bytes(words[3]));
    }

    private static String liquidDecode(String[] words) {
        LiquidAddress it = LiquidAddress.parse(words[0]);
        return "ok " + it.hrp() + " " + it.version() + " " + hex(it.key()) + " " + hex(it.program());
    }

    private static String liquid(String[] words) {
        String text = words[0];
        int[] places = words.length == 3 ? places(words[1], text) : new int[0];
        int errors = number(words[words.length - 1], 3);
        long different = words.length == 3 ? Arrays.stream(words[1].split(",")).distinct().count() : 0;
        if (different <= 6 && 2 * errors + different > 7) {
            throw new NotAnswered(4);
        }
        if (new Typed(text).hasUnreadable()) {
            LiquidAddress.parse(text);
        }
        StringBuilder reply = new StringBuilder("ok");
        for (Correction near : LiquidAddress.nearest(text, errors, known(places))) {
            if (areAll(places)) {
                reply.append(" ").append(lower(near.text()));
            }
        }
        return reply.toString();
    }

    /** To the programs a character is a byte, as those of this text are. */
    private static String descriptor(String[] words) {
        StringBuilder reply = new StringBuilder("ok");
        for (Edited it : Descriptor.mend(new String(text(words[0]), StandardCharsets.ISO_8859_1), 1)) {
            reply.append(" ").append(done(it.edit())).append(" ").append(it.edit().place()).append(" ").append(it.text());
        }
        return reply.toString();
    }

    /** A reply, or a refusal with the place, in bytes, of a character that may not stand where it does. */
    private static String withPlace(String text, Supplier<String> reply) {
        try {
            return reply.get();
        } catch (RefusedException refused) {
            if (refused.refusal() != Refusal.NOT_IN_DESCRIPTOR) {
                throw refused;
            }
            return "err " + refused.refusal().number() + " " + text(text.substring(0, refused.place())).length;
        }
    }

    private static byte[] text(String word) {
        return word.getBytes(StandardCharsets.UTF_8);
    }

    private static String made(byte[] text) {
        return "ok " + new String(text, StandardCharsets.US_ASCII);
    }

    private static int threshold(String word) {
        return word.matches("[0-9]") ? Integer.parseInt(word) : 1;
    }

    /** What is not one byte is no share index. */
    private static char index(String word) {
        return text(word).length == 1 ? word.charAt(0) : 0;
    }

    private static String proposed(boolean isLong, String word) {
        return (isLong ? Codex32.proposeLong(text(word)) : Codex32.propose(text(word)))
                .map(it -> "some " + new String(it, StandardCharsets.US_ASCII)).orElse("none");
    }

    private static byte[][] texts(String[] words, int from) {
        return Arrays.stream(words, from, words.length).map(Lines::text).toArray(byte[][]::new);
    }

    private static int refusal(char index, byte[]... texts) {
        try {
            Codex32.derive(index, texts);
            return 0;
        } catch (RefusedException refused) {
            return refused.refusal().number();
        }
    }

    /** Why more texts than a set has are refused: the library takes no more. */
    private static int refusedMany(char index, byte[][] texts) {
        if (refusal(index, texts[0]) == Refusal.NO_SHARE_INDEX.number()) {
            return Refusal.NO_SHARE_INDEX.number();
        }
        for (byte[] text : texts) {
            int number = refusal('s', text);
            if (number != 0 && number != Refusal.TOO_FEW_SHARES.number()) {
                return number;
            }
        }
        for (byte[] text : texts) {
            if (refusal('s', texts[0], text) == Refusal.OTHER_SET.number()) {
                return Refusal.OTHER_SET.number();
            }
        }
        return Refusal.INDEX_TWICE.number();
    }

    private static String derived(char index, byte[][] texts) {
        if (texts.length > 32) {
            throw new NotAnswered(refusedMany(index, texts));
        }
        return made(Codex32.derive(index, texts));
    }

    private static String split(String[] words) {
        int count = number(words[1], 99);
        byte[] secret = bytes(words[3]);
        byte[] random = bytes(words[4]);
        StringBuilder reply = new StringBuilder("ok");
        for (byte[] share : Codex32.split(secret, threshold(words[0]), count, words[2], random)) {
            reply.append(" ").append(new String(share, StandardCharsets.US_ASCII));
        }
        return reply.toString();
    }

    private static String shared(Codex32.Share it, String payload) {
        return "ok " + it.threshold() + " " + it.identifier() + " " + it.index() + " " + payload;
    }

    private static Map<String, Command> commands(String program) {
        Map<String, Command> all = new HashMap<>();
        switch (program) {
            case "b32":
                all.put("encode", new Command(3, 3, words -> {
                    Checksum checksum = anyChecksum(words[0]);
                    return "ok " + Bech32.encode(checksum, words[1], bytes(words[2]));
                }));
                all.put("encode-elements", new Command(3, 3, words -> {
                    Checksum checksum = anyChecksum(words[0]);
                    return "ok " + Bech32.encodeElements(checksum, words[1], bytes(words[2]));
                }));
                all.put("decode", new Command(1, 1, words -> decoded(Bech32.decode(words[0]))));
                all.put("decode-strict", new Command(2, 2,
                        words -> decoded(Bech32.decodeStrict(anyChecksum(words[0]), words[1]))));
                all.put("decode-elements", new Command(2, 2,
                        words -> decoded(Bech32.decodeElements(anyChecksum(words[0]), words[1]))));
                all.put("segwit-encode", new Command(3, 3, words -> {
                    int version = number(words[1], 31);
                    SegwitAddress address = SegwitAddress.of(words[0], version, bytes(words[2]));
                    return "ok " + address;
                }));
                all.put("segwit-decode", new Command(1, 1, words -> address(SegwitAddress.parse(words[0]))));
                all.put("correct", new Command(2, 3, Lines::correct));
                all.put("liquid-encode", new Command(4, 4, Lines::liquidEncode));
                all.put("liquid-decode", new Command(1, 1, Lines::liquidDecode));
                break;
            case "mend":
                all.put("nearest", new Command(3, 4, Lines::nearest));
                all.put("edits", new Command(2, 2, Lines::edits));
                all.put("suggest", new Command(2, 2, Lines::suggest));
                all.put("fault", new Command(2, 2, Lines::fault));
                all.put("checksum", new Command(1, 1, Lines::checksumOf));
                all.put("liquid", new Command(2, 3, Lines::liquid));
                all.put("descriptor", new Command(1, 1, Lines::descriptor));
                all.put("descriptor-check", new Command(1, 1, words -> withPlace(words[0], () -> {
                    Descriptor.check(words[0]);
                    return "ok";
                })));
                all.put("descriptor-checksum", new Command(1, 1,
                        words -> withPlace(words[0], () -> "ok " + Descriptor.checksum(words[0]))));
                break;
            default:
                all.put("parse", new Command(1, 1, words -> {
                    Codex32.Share it = Codex32.parse(text(words[0]));
                    return shared(it, new String(it.bytes(), StandardCharsets.US_ASCII));
                }));
                all.put("share", new Command(1, 1, words -> {
                    Codex32.Share it = Codex32.share(text(words[0]));
                    return shared(it, hex(it.bytes()));
                }));
                all.put("encode", new Command(4, 4, words -> made(
                        Codex32.encode(threshold(words[0]), words[1], index(words[2]), bytes(words[3])))));
                all.put("propose", new Command(1, 1, words -> proposed(false, words[0])));
                all.put("propose-long", new Command(1, 1, words -> proposed(true, words[0])));
                all.put("derive", new Command(2, LINE_LIMIT, words -> derived(index(words[0]), texts(words, 1))));
                all.put("recover", new Command(1, LINE_LIMIT, words -> derived('s', texts(words, 0))));
                all.put("split", new Command(5, 5, Lines::split));
                break;
        }
        return all;
    }

    private static String reply(Map<String, Command> commands, int limit, byte[] line) {
        if (line.length > limit) {
            throw new NotAnswered(1);
        }
        String text;
        try {
            text = StandardCharsets.UTF_8.newDecoder().decode(ByteBuffer.wrap(line)).toString();
        } catch (CharacterCodingException notText) {
            throw new NotAnswered(2);
        }
        boolean takesRest = TAKE_REST.contains(text.split(" ", 2)[0]);
        String[] words = text.split(" ", takesRest ? 2 : -1);
        Command it = commands.get(words[0]);
        boolean hasEmpty = !takesRest && Arrays.asList(words).contains("");
        if (hasEmpty || it == null || words.length - 1 < it.least || words.length - 1 > it.most) {
            throw new NotAnswered(3);
        }
        return it.reply.to(Arrays.copyOfRange(words, 1, words.length));
    }

    private static String answer(Map<String, Command> commands, int limit, byte[] line) {
        try {
            return reply(commands, limit, line);
        } catch (NotAnswered refused) {
            return "err " + refused.number;
        } catch (RefusedException refused) {
            return "err " + refused.refusal().number();
        }
    }

    /** Replies to each line of an input. */
    static void run(String program, InputStream from, OutputStream to) throws IOException {
        Map<String, Command> commands = commands(program);
        int limit = program.equals("b32") ? B32_LINE_LIMIT : LINE_LIMIT;
        ByteArrayOutputStream line = new ByteArrayOutputStream();
        try (InputStream in = new BufferedInputStream(from); OutputStream out = new BufferedOutputStream(to)) {
            for (int read = in.read(); read >= 0 || line.size() > 0; read = in.read()) {
                if (read >= 0 && read != '\n') {
                    line.write(read);
                    continue;
                }
                out.write(answer(commands, limit, line.toByteArray()).getBytes(StandardCharsets.UTF_8));
                out.write('\n');
                line.reset();
            }
        }
    }

    public static void main(String[] words) throws IOException {
        if (words.length != 1 || !Arrays.asList("b32", "c32", "mend").contains(words[0])) {
            System.err.println("usage: Lines b32|c32|mend, with commands on standard input");
            System.exit(2);
        }
        run(words[0], System.in, System.out);
    }
}
