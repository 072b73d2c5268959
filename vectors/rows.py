"""Makes and compares rows of the vectors: a line of b32, a tab, and its reply.

    rows.py make COUNT SEED FOLDER       writes COUNT rows of each kind by the model
    rows.py every SEED                   prints a row of `correct` for each length and checksum
    rows.py check FILE..                 prints where the model's reply is another
    rows.py compare PROGRAM FILE..       prints where a program's reply is another

A byte of a line that is not from 32 to 126, and the backslash, stand as \\xNN.
"""

import os
import random
import subprocess
import sys

import model

KNOWN_PARTS = ["bc", "tb", "bcrt", "a", "A", "BC", "test", "split", "1", "?"]
ODD_PARTS = ["aB", "a\x7f", "\x80", "caf\u00e9", "\u20ac", "\t", "x" * 83, "x" * 84, "Q" * 83]
ODD_NUMBERS = ["00", "01", "-1", "+1", "32", "99", "4294967296", "q", "\u0661"]
ODD_HEX = ["0", "0g", "0x00", "--", "-00", "abc", "\u00e9\u00e9"]
ODD_LINES = ["", " ", "decode", "decode ", " decode a12uel5l", "decode  a12uel5l", "decode\ta12uel5l",
             "DECODE a12uel5l", "decode a12uel5l ", "encode bech32 a", "encode bech32x a -",
             "encode bech32 a - -", "segwit-encode bc 0", "segwit-decode", "decode a12uel5l\r"]


def line_of(word):
    return word.encode("latin-1").decode("unicode_escape").encode("latin-1")


def word_of(line):
    return "".join(chr(b) if 32 <= b <= 126 and b != 92 else f"\\x{b:02x}" for b in line)


# --- making rows ---

class Maker:
    """Makes lines from a seed."""

    def __init__(self, seed):
        self.random = random.Random(seed)

    def one_in(self, n):
        return self.random.randrange(n) == 0

    def data(self, least, most):
        return self.random.randbytes(self.random.randint(least, most))

    def part(self):
        if self.one_in(10):
            return self.random.choice(ODD_PARTS)
        if self.one_in(2):
            return self.random.choice(KNOWN_PARTS)
        length = self.random.randint(1, 20)
        text = "".join(chr(self.random.randint(33, 126)) for _ in range(length))
        return text.upper() if self.one_in(5) else text.lower()

    def good_part(self):
        part = self.part()
        try:
            model.test_hrp(part)
            return part
        except model.Refusal:
            return "bc"

    def hex(self, least, most):
        if self.one_in(15):
            return self.random.choice(ODD_HEX)
        word = model.word_of(self.data(least, most))
        return word.upper() if self.one_in(6) else word

    def accepted(self, kinds=(0, 1, 2)):
        """A text that a checksum accepts: of bytes, of a program, or of any elements."""
        kind = self.random.choice(kinds)
        hrp = self.good_part()
        if kind == 0:
            code = self.random.choice([model.BECH32, model.BECH32M])
            most = 640 if self.one_in(25) else 40
            elements = model.to_elements(self.data(0, most))
        elif kind == 1:
            version = self.random.choice([0, 1, self.random.randint(0, 16)])
            length = self.random.choice([20, 32, self.random.randint(2, 40)])
            elements = [version] + model.to_elements(self.data(length, length))
            code = model.segwit_code(version)
        else:
            length = self.random.choice([self.random.randint(0, 5), self.random.randint(0, 70), 67, 69])
            length = self.random.randint(1010, 1025) if self.one_in(25) else length
            elements = [self.random.randrange(32) for _ in range(length)]
            if elements and not self.one_in(5):
                elements[0] = self.random.randrange(3)
            if length > 1 and not self.one_in(3):
                elements[-1] = 0
            code = model.segwit_code(elements[0] if elements else 1)
        text = model.encoded(code, hrp, elements)
        return text.upper() if self.one_in(4) else text

    def mistyped(self, text, changes):
        characters = list(text)
        for _ in range(changes):
            place = self.random.randrange(len(characters))
            letter = self.random.choice(model.ALPHABET)
            letter = letter.upper() if any(map(model.is_upper, text)) else letter
            kind = self.random.randrange(10)
            if kind == 0:
                characters[place] = self.random.choice("1b\u00e9\x7f?!Aa")
            elif kind == 1:
                characters.insert(place, letter)
            elif kind == 2 and len(characters) > 1:
                del characters[place]
            else:
                characters[place] = letter
        return "".join(characters)

    def text(self, kinds):
        text = self.accepted(kinds)
        if self.one_in(20):
            text = self.random.choice(ODD_PARTS) + text[text.rindex("1"):]
        return text if self.one_in(2) else self.mistyped(text, self.random.randint(1, 4))

    def encode(self):
        name = self.random.choice(list(model.CODES))
        most = 640 if self.one_in(12) else 40
        least = 600 if self.one_in(25) else 0
        return f"encode {name} {self.part()} {self.hex(least, max(least, most))}"

    def decode(self):
        return f"decode {self.text((0, 0, 1, 2))}"

    def segwit_encode(self):
        version = self.random.choice([0, self.random.randint(0, 16), self.random.randint(0, 34)])
        word = self.random.choice(ODD_NUMBERS) if self.one_in(15) else str(version)
        length = self.random.choice([20, 32, self.random.randint(0, 44)])
        return f"segwit-encode {self.part()} {word} {self.hex(length, length)}"

    def segwit_decode(self):
        return f"segwit-decode {self.text((0, 1, 1, 1, 2, 2))}"

    def correct(self):
        """A text with up to four characters changed, and some of their places."""
        text = self.accepted()
        by_bech32m = model.reply(f"correct bech32m {text}".encode()) == "fine"
        name = "bech32m" if by_bech32m != self.one_in(10) else "bech32"
        start = text.rfind("1") + 1
        characters, locations = list(text), []
        for _ in range(self.random.choice([0, 1, 1, 1, 2, 2, 3, 4])):
            place = self.random.randrange(start, len(characters))
            letter = self.random.choice(model.ALPHABET)
            characters[place] = letter.upper() if any(map(model.is_upper, text)) else letter
            if self.one_in(2):
                locations.append(len(characters) - 1 - place)
        if self.one_in(8):
            locations.append(self.random.randrange(1030))
        if locations and self.one_in(8):
            locations.append(locations[0])
        words = ["correct", name, "".join(characters)]
        if locations:
            words.append(",".join(map(str, locations)))
        if self.one_in(20):
            words[-1] = self.random.choice(["", ",", "1,", "1023", "01", "1,2,x", words[-1] + ",0"])
        return " ".join(words)

    def elements(self):
        """Elements in and out, and texts that may be the only ones of their bytes."""
        name = self.random.choice(list(model.CODES))
        kind = self.random.randrange(3)
        if kind == 0:
            most = 1016 if self.one_in(12) else 60
            values = [self.random.randrange(32) for _ in range(self.random.randint(0, most))]
            if values and self.one_in(6):
                values[self.random.randrange(len(values))] = self.random.randint(32, 255)
            return f"encode-elements {name} {self.part()} {model.word_of(bytes(values))}"
        text = self.text((0, 0, 1, 2))
        if self.one_in(2):
            text = self.text((0,)) if self.one_in(2) else model.encoded(
                model.CODES[name], "bc", [self.random.randrange(32) for _ in range(self.random.randint(0, 24))])
        return f"{'decode-strict' if kind == 1 else 'decode-elements'} {name} {text}"

    def odd(self):
        kind = self.random.randrange(4)
        if kind == 0:
            return self.random.choice(ODD_LINES)
        if kind == 1 and self.one_in(6):
            name = self.random.choice(["decode ", "segwit-decode ", ""])
            return name.ljust(self.random.randint(model.LONGEST_LINE - 1, model.LONGEST_LINE + 2), "q")
        line = self.random.choice([self.encode, self.decode, self.segwit_encode])()
        if kind == 2:
            return line.replace(" ", self.random.choice(["  ", "\t", ""]), 1)
        return self.mistyped(line, self.random.randint(1, 3))


KINDS = ["encode", "decode", "elements", "segwit_encode", "segwit_decode", "correct", "odd"]


def make(count, seed, folder):
    os.makedirs(folder, exist_ok=True)
    for kind in KINDS:
        maker, rows = Maker(f"{kind} {seed}"), []
        while len(rows) < count:
            line = getattr(maker, kind)().encode()
            if kind == "odd" and maker.one_in(10):
                line += bytes([maker.random.randrange(128, 256)])
            if b"\n" in line:
                continue
            rows.append(f"{word_of(line)}\t{model.reply(line)}\n")
        with open(os.path.join(folder, f"{kind}.tsv"), "w") as file:
            file.writelines(rows)


def every(seed):
    """Texts of each length with as many changed characters as are found, some of them erasures."""
    maker = Maker(f"every {seed}")
    for length in range(9, 97):
        for name, code in model.CODES.items():
            elements = [maker.random.randrange(32) for _ in range(length - 9)]
            letters = list(model.encoded(code, "bc", elements))
            erased, errors = maker.random.choice([(0, 1), (0, 1), (1, 1), (2, 0), (3, 0)])
            places = maker.random.sample(range(3, length), erased + errors)
            for place in places:
                letters[place] = maker.random.choice(model.ALPHABET.replace(letters[place], ""))
            text = "".join(letters)
            locations = ",".join(str(length - 1 - place) for place in places[:erased])
            line = " ".join(["correct", name, text.upper() if maker.one_in(4) else text, locations]).strip()
            print(f"{word_of(line.encode())}\t{model.reply(line.encode())}")
    return 0


# --- comparing rows ---

def rows_of(path):
    with open(path) as file:
        return [tuple(row.rstrip("\n").split("\t")) for row in file]


def say(path, number, line, expected, found):
    print(f"{path}:{number}: {line[:200]}\n    the row says {expected[:200]}\n    {found[:200]}")


def check(paths):
    different = total = 0
    for path in paths:
        for number, (line, expected) in enumerate(rows_of(path), 1):
            total += 1
            found = model.reply(line_of(line))
            if found != expected:
                different += 1
                say(path, number, line, expected, "the model says " + found)
    print(f"the model: {total} rows, {different} different")
    return different


def compare(program, paths):
    different = total = 0
    for path in paths:
        rows = rows_of(path)
        lines = b"".join(line_of(line) + b"\n" for line, _ in rows)
        run = subprocess.run([program], input=lines, stdout=subprocess.PIPE, check=False)
        replies = run.stdout.decode("latin-1").split("\n")[:-1]
        if run.returncode != 0 or len(replies) != len(rows):
            print(f"{path}: {len(replies)} replies to {len(rows)} lines, status {run.returncode}")
            different += 1
        for number, ((line, expected), found) in enumerate(zip(rows, replies), 1):
            total += 1
            if found != expected:
                different += 1
                say(path, number, line, expected, "the program says " + found)
    print(f"the program: {total} rows, {different} different")
    return different


def main(words):
    if words[:1] == ["make"] and len(words) == 4:
        make(int(words[1]), int(words[2]), words[3])
        return 0
    if words[:1] == ["every"] and len(words) == 2:
        return every(words[1])
    if words[:1] == ["check"] and len(words) > 1:
        return 1 if check(words[1:]) else 0
    if words[:1] == ["compare"] and len(words) > 2:
        return 1 if compare(words[1], words[2:]) else 0
    print(__doc__, file=sys.stderr)
    return 2


if __name__ == "__main__":
    sys.exit(main(sys.argv[1:]))
