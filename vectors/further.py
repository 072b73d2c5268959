#!/usr/bin/env python3
"""Makes lines on long texts, confidential addresses and descriptors, and about as long as one may be, with the models' replies.

    further.py b32 SEED      lines of b32, each with `|`, a tab, `|` and its reply
    further.py long SEED     rows of vector_rows: lines of b32 that would be too long
    further.py c32 SEED      lines of c32
    further.py mend SEED     lines of mend
    further.py check PROGRAM LINES REPLIES   prints where a model's reply is another

The models are those of model.py, liquid.py, descriptors.py, mistyped.py and shares.py: nothing is shared with the library.
"""
import random
import sys
from pathlib import Path

sys.dont_write_bytecode = True
import descriptors  # noqa: E402, so that no folder is left behind
import liquid  # noqa: E402
import mistyped  # noqa: E402
import model  # noqa: E402
import shares  # noqa: E402
from mistyped import LONGEST_LINE  # noqa: E402, which is that of c32 too


def split_reply(line):
    return shares.reply(line.decode()) if len(line) <= LONGEST_LINE else "err 1"


def long_reply(row):
    """What b32 would reply to the line of a row, however long that is."""
    return model.reply(row.removeprefix(b"long|").replace(b"|", b" "), len(row))


REPLIES = {"b32": model.reply, "long": long_reply, "c32": split_reply, "mend": mistyped.reply}

# Texts of other standards: an invoice (BOLT 11), LNURL (LUD-01), nostr (NIP-19), a silent payment address (BIP-352).
KNOWN = ["lnbc", "LNURL1", "nprofile1", "sp1", "age1yubikey1"]
# About as many bytes as a line may have.
NEAR_LIMIT = [LONGEST_LINE - 1, LONGEST_LINE, LONGEST_LINE + 1]
NEAR_LIMIT_OF_B32 = [model.LONGEST_LINE - 1, model.LONGEST_LINE, model.LONGEST_LINE + 1]
# What each kind of line of b32 may begin with, and what may follow without an end.
ENDLESS = [("decode-elements long-bech32 a1", "q"), ("decode-strict long-bech32m a1", "q"), ("encode long-bech32 ab ", "0"),
           ("encode-elements long-bech32 ab ", "0"), ("liquid-decode lq1", "q")]

LENGTHS = [8, 90, 1022, 1023, 1024, 1025, 1500, 1999, 2000, 2046, 2047, 3000, 4060]


def known():
    """The first text of each of these standards in the stored lines."""
    lines = Path(__file__).parent.parent.joinpath("crates/b32/stdin").read_bytes().split(b"\n")
    for start in KNOWN:
        found = (line.decode().split(" ") for line in lines if line.startswith(b"decode-elements"))
        yield next((name, text) for _, name, text in found if text.startswith(start))


class Lines:
    def __init__(self, seed):
        self.random = random.Random(seed)

    def values(self, count):
        return bytes(self.random.randrange(32) for _ in range(count))

    def data(self, count):
        return bytes(self.random.randrange(256) for _ in range(count))

    def changed(self, text):
        """The text with one other character in its data part."""
        place = self.random.randrange(text.rindex("1") + 1, len(text))
        letter = self.random.choice([it for it in model.ALPHABET if it != text[place].lower()])
        return text[:place] + (letter.upper() if text.isupper() else letter) + text[place + 1:]

    # ---- b32

    def of_other_standards(self):
        for name, text in known():
            for it in (f"long-{name}", "long-bech32" if name == "bech32m" else "long-bech32m"):
                yield f"decode-elements {it} {text}"
                yield f"decode-strict {it} {text}"
            hrp, values = model.decode_elements(model.CODES[name], text)
            yield f"encode-elements long-{name} {hrp} {bytes(values).hex()}"

    def of_each_length(self):
        for place, length in enumerate(LENGTHS):
            name = ["long-bech32", "long-bech32m"][place % 2]
            code, hrp = model.LONG_CODES[name], self.random.choice(["a", "ln"]) if length > 8 else "a"
            values = self.values(length - len(hrp) - 7)
            text = model.encoded(code, hrp, list(values))
            if length <= 2000:
                yield f"encode-elements {name} {hrp} {values.hex() or '-'}"
            yield f"decode-elements {name} {text.upper() if place % 3 == 1 else text}"
            if length > 8:
                yield f"decode-elements {name} {self.changed(text)}"
            data = self.data((length - len(hrp) - 7) * 5 // 8)
            if length <= 3000:
                yield f"encode {name} {hrp.upper() if place % 3 == 1 else hrp} {data.hex() or '-'}"
            yield f"decode-strict {name} {model.encode(code, hrp, data)}"

    def at_the_limits(self):
        yield f"encode-elements long-bech32 a {'1f' * 200}20"
        yield f"encode-elements long-bech32m a {'20' * 1500}"
        yield f"encode-elements bech32m a {'1f' * 1500}"
        # The longest line, and a longer one, of each kind.
        for front, digit in ENDLESS:
            for length in NEAR_LIMIT_OF_B32[1:]:
                yield front + digit * (length - len(front))

    def refused(self):
        text = model.encoded(model.LONG_CODES["long-bech32"], "a", list(self.values(1500)))
        yield f"decode-strict long-bech32 {text[:-1]}b"
        yield f"decode-strict long-bech32 {text[:-1]}{text[-1].upper()}"
        yield f"decode-elements long-bech32 {'q' * 1500}"
        yield f"decode-elements long-bech32 1{'q' * 1500}"
        yield f"decode-elements long-bech32 {'a' * 84}1{'q' * 1500}"
        yield "decode-elements long-bech32m a1qqqqq"
        for more in ([0], [0, 1], [0, 0, 1], [1]):
            values = model.to_elements(bytes(800)) + more
            yield f"decode-strict long-bech32 {model.encoded(model.LONG_CODES['long-bech32'], 'a', values)}"
        for hrp in ("-", "Aa", "a" * 84, "\u00e9", "\x7f"):
            yield f"encode long-bech32m {hrp} 00"
            yield f"encode-elements long-bech32m {hrp} 00"
        for line in ("encode long-bech32 a 0", "encode long-bech32 a 0g", "encode long-bech32 a", "encode long-bech32 a 00 00",
                     "encode long-bech32x a 00", "encode Long-bech32 a 00", "encode-elements long-bech32 a 1", "encode-elements long-bech32 Aa 0x",
                     "decode-strict long-bech32", "decode-strict long-bech32 a a", "decode long-bech32 a1qqqqqqq", "correct long-bech32 a12uel5l",
                     "decode-elements long-bech32 ", "encode long-bech32  00", "long-bech32", "encode long-bech32 a -", "decode-strict long-bech32 a12uel5l",
                     "decode-elements long-bech32m a1lqfn3a"):
            yield line

    def confidential(self):
        maker = liquid.Maker(f"b32 {self.random.random()}")
        for row in [*maker.encodings()][30:]:
            _, _, hrp, version, key, program = row.split("|")
            yield f"liquid-encode {hrp} {version} {key} {program}"
        decodings = [*maker.decodings()]
        for row in decodings[:8] + decodings[40:98]:
            yield f"liquid-decode {row.split('|')[2]}"
        yield f"liquid-decode {decodings[5].split('|')[2].upper()}"
        key = self.data(33).hex()
        for line in (f"lq 32 {key} 00", f"lq 00 {key} 00", f"lq x {key} 00", f"lq 0 {key[2:]} 00", f"lq 0 {key}00 00", "lq 0 - 00", f"lq 0 {key[:-1]} 00",
                     f"lq 0 {key[:-1]}g 00", f"lq 0 {key} 0", f"lq 0 {key} 0g", f"Lq 0 {key} 00", f"{'a' * 84} 0 {key} 00", f"{'a' * 83} 0 {key} {'7f' * 32}",
                     f"LQ 0 {key.upper()} {'Ab' * 20}", f"lq 0 {key}", f"lq 0 {key} 00 00", f"lq 0 {key} {'00' * 41}", f"\u00fc 0 {key} {'00' * 20}",
                     f"lq 0 {key} {'00' * 1900}", f"lq 0 {'00' * 1900} {'00' * 20}"):
            yield f"liquid-encode {line}"
        for line in ("liquid-decode", "liquid-decode ", "liquid-decode a b", "liquid-encode", "Liquid-decode a1", "liquid-decode lq1" + "q" * 3000):
            yield line

    def at_the_longest_line(self):
        # at_the_limits has the longer ones of these.
        for front, digit in ENDLESS:
            yield front + digit * (NEAR_LIMIT_OF_B32[0] - len(front))
        for length in NEAR_LIMIT_OF_B32:
            yield ("correct bech32 a12uqqql 1" + ",2" * length)[:length]
        # It is bytes that are counted, not characters.
        for length in NEAR_LIMIT_OF_B32:
            yield f"decode {'q' * (length % 2 + 1)}{(length - 8) // 2 * 'é'}"
        for front in ("decode ", "segwit-decode "):
            for length in (4095, 4096, 4097, 4098):
                yield front.ljust(length, "q")

    def b32(self):
        for kind in (self.of_other_standards, self.of_each_length, self.at_the_limits, self.refused, self.confidential,
                     self.at_the_longest_line):
            yield from kind()

    # ---- rows of vector_rows

    def of_the_greatest_lengths(self):
        for name, hrp, length in (("long-bech32", "nprofile", 5000), ("long-bech32", "lnbc", 7089), ("long-bech32m", "u", 7088),
                                  ("long-bech32", "lnbc", 7090)):
            values = self.values(length - len(hrp) - 7)
            text = model.encoded(model.LONG_CODES[name], hrp, list(values))
            yield f"encode-elements {name} {hrp} {values.hex()}"
            yield f"decode-elements {name} {text.upper() if hrp == 'lnbc' else text}"
            yield f"decode-elements {name} {self.changed(text)}"
            data = self.data((length - len(hrp) - 7) * 5 // 8)
            yield f"encode {name} {hrp} {data.hex()}"
            yield f"decode-strict {name} {model.encoded(model.LONG_CODES[name], hrp, model.to_elements(data))}"

    def long(self):
        # The same texts as if they came after those of b32.
        for _ in self.b32():
            pass
        for line in self.of_the_greatest_lengths():
            yield "|".join(["long", *line.split(" ")])

    # ---- c32

    def c32(self):
        for length in NEAR_LIMIT:
            front = f"split 2 {'1' * (length % 2 == 0)}3 test "
            yield f"{front}{'5a' * ((length - len(front)) // 2 - 1)} -"
        for length in NEAR_LIMIT:
            front = f"split 2 {'1' * (length % 2)}3 test {self.data(16).hex()} "
            yield f"{front}{'a5' * ((length - len(front)) // 2)}"

    # ---- mend

    def near_confidential(self):
        maker = liquid.Maker(f"mend {self.random.random()}")
        rows = [row.split("|") for row in maker.mistyped()]
        for _, _, text, listed, errors in rows[::4] + rows[-15:]:
            if text:
                yield f"liquid {text} {errors}" if listed == "-" else f"liquid {text} {listed} {errors}"
        text = liquid.KNOWN[0]
        for line in (f"liquid {text} 4", f"liquid {text} 03", f"liquid {text}", f"liquid {text} x 0", f"liquid {text} 1023 0", f"liquid {text} 1,,2 0",
                     f"liquid {text} 0,1 0 0", f"liquid  {text} 0", "liquid", "liquid a1 0", "liquid b 0", f"liquid {text} 5,4,3,2,1,0,5,0 0",
                     "liquid lq1" + "q" * 1021 + " 0", f"liquid {text.upper()} 0", f"liquid {text[:60].upper()}{text[60:]} 1"):
            yield line

    def about_descriptors(self):
        maker = descriptors.Maker(f"mend {self.random.random()}")
        for text in descriptors.KNOWN:
            yield f"descriptor {text}"
            yield f"descriptor-check {text}"
            yield f"descriptor-checksum {text}"
        kinds = [lambda it: it, maker.changed, lambda it: maker.changed(maker.changed(it)), maker.swapped, maker.left_out, maker.put_in,
                 maker.random_checksum]
        for number in range(35):
            text = kinds[number % 7](maker.right())
            yield f"descriptor {text}"
            yield f"descriptor-check {text}"
            yield f"descriptor-checksum {text[:-9]}"
        # The text is the rest of the line, with all its spaces.
        for payload in (" ", "  ", "a b", " a", "a ", "raw( )", "\\\"", "raw(deadbeef) "):
            text = f"{payload}#{descriptors.checksum_of(payload)}"
            yield f"descriptor-checksum {payload}"
            yield f"descriptor-check {text}"
            yield f"descriptor {text}"
            yield f"descriptor {text.replace('#', '##')}"
            yield f"descriptor-check {text} "
        for line in ("descriptor", "descriptor-check", "descriptor-checksum", "descriptor ", "descriptor-check ", "descriptor-checksum ", "descriptors a", "Descriptor a",
                     " descriptor a", "descriptor-mend a", "descriptor\ta", "descriptor \u00fc", "descriptor-checksum a\u00fc", "descriptor-checksum a\x7f"):
            yield line
        # One of 4,079 characters, and one more.
        payload = "raw(" + "0" * (4096 - len("descriptor-check ") - 14) + ")"
        text = f"{payload}#{descriptors.checksum_of(payload)}"
        yield f"descriptor-check {text}"
        yield f"descriptor-check {text}q"

    def at_the_longest_line_of_mend(self):
        for front, digit in (("checksum ", "q"), ("fault bech32 ", "q"), ("fault bech32m a1", "b"), ("nearest bech32 a12uqq5l 2", ",3"),
                             ("liquid lq1", "q"), ("descriptor ", "a"), ("descriptor-checksum ", "a")):
            end = {"nearest": " 0", "liquid": " 1"}.get(front.split(" ")[0], "")
            for length in NEAR_LIMIT:
                yield (front + digit * length)[:length - len(end)] + end
        for length in (4095, 4096, 4097, 4098):
            yield "checksum ".ljust(length, "q")
        # The longest descriptor that is mended, here of a wrong mark, and one that is longer; and one that ends with its line.
        payload = "raw(" + "0" * (mistyped.LONGEST_MENDED - 14) + ")"
        yield f"descriptor {payload}x{descriptors.checksum_of(payload)}"
        yield f"descriptor {payload}0#{descriptors.checksum_of(payload + '0')}"
        payload = "raw(" + "0" * (LONGEST_LINE - len("descriptor-check ") - 14) + ")"
        text = f"{payload}#{descriptors.checksum_of(payload)}"
        yield f"descriptor-check {text[:-1]}"
        yield f"descriptor-check {text}"
        yield f"descriptor-check {text}q"

    def mend(self):
        yield from self.near_confidential()
        yield from self.about_descriptors()
        yield from self.at_the_longest_line_of_mend()


def check(program, lines, replies):
    wrong = 0
    said = Path(replies).read_text().split("\n")
    for line, want in zip(Path(lines).read_bytes().split(b"\n"), said[:-1]):
        got = REPLIES[program](line)
        if got != want:
            wrong += 1
            print(f"{line[:200]!r}: {got[:200]}, not {want[:200]}")
    return 1 if wrong else 0


def main(words):
    if len(words) == 2 and words[0] in REPLIES:
        drawn = "b32" if words[0] == "long" else words[0]
        for line in getattr(Lines(f"{drawn} {words[1]}"), words[0])():
            line = line.encode()
            sys.stdout.buffer.write(line + b"|\t|" + REPLIES[words[0]](line).encode() + b"\n")
        return 0
    if len(words) == 4 and words[0] == "check":
        return check(*words[1:])
    return __doc__.strip()


if __name__ == "__main__":
    sys.exit(main(sys.argv[1:]))
