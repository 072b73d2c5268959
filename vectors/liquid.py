#!/usr/bin/env python3
"""A model of Liquid's confidential addresses and their correction: rows of `vector_rows`.

    vectors/liquid.py make 1             prints 500 rows and their replies, a tab between the two, from the seed 1
    vectors/liquid.py check ROWS REPLIES compares rows with replies

It is written from the definitions in Elements' src/blech32.cpp and src/key_io.cpp. Remainders are computed by the long division of
model.py, with the generator of Blech32. The texts near one are found by elimination over GF(2): all that erasures can change is a
space of remainders, modulo which single errors are looked up, then pairs, then triples. There are no roots and no shift registers,
and nothing is shared with the library.
"""
import random
import sys
from itertools import combinations

sys.dont_write_bytecode = True
import model  # noqa: E402, so that no folder is left behind
from model import ALPHABET, Code, Refusal  # noqa: E402

# The generator of Blech32, as Elements has it: its coefficients below the leading one, five bits each; the target is 1.
GENERATOR = 0x7D52FBA40BD886
BLECH32 = Code([GENERATOR >> 5 * i & 31 for i in range(11, -1, -1)], [0] * 11 + [1], model.MAX_TEXT, 6)
DEGREE = 12


# --- addresses (Elements, src/key_io.cpp) ---

def test_version(version):
    if version > model.MAX_VERSION:
        raise Refusal(43)
    if version != 0:
        raise Refusal(70)


def decode(text):
    """The human-readable part, the version, the blinding key and the program of a text."""
    hrp, data = model.parts(text)
    if not data:
        raise Refusal(42)
    test_version(data[0])
    model.test_checksum(BLECH32, text)
    data = data[:-DEGREE]
    if not data:
        raise Refusal(42)
    payload, left = model.to_bytes(data[1:])
    if len(left) > 4:
        raise Refusal(44)
    if any(left):
        raise Refusal(45)
    if len(payload) < 33:
        raise Refusal(79)
    model.test_program(data[0], len(payload) - 33)
    return hrp, data[0], payload[:33], payload[33:]


def encode(hrp, version, key, program):
    if version > model.MAX_VERSION:
        raise Refusal(52)
    if version != 0:
        raise Refusal(70)
    model.test_program(version, len(program))
    elements = [version] + model.to_elements(key + program)
    return model.spelled(hrp, elements + model.checksum(BLECH32, hrp, elements))


# --- correction ---

def packed(coefficients):
    number = 0
    for coefficient in coefficients:
        number = number << 5 | coefficient
    return number


class Space:
    """Numbers as vectors of bits, and the space that some of them span."""

    def __init__(self, vectors):
        self.rows = []
        for vector in vectors:
            vector = self.reduced(vector)
            if vector:
                top = vector.bit_length() - 1
                self.rows = [row ^ vector if row >> top & 1 else row for row in self.rows]
                self.rows.append(vector)

    def reduced(self, vector):
        """What is left of a vector: the same of any two that differ by one of the space."""
        for row in self.rows:
            if vector >> row.bit_length() - 1 & 1:
                vector ^= row
        return vector


def error_remainders(size):
    """Of each location the remainder of each value there."""
    found = []
    for location in range(size):
        unit = model.remainder(BLECH32, [1] + [0] * location)
        found.append([packed([model.product(value, coefficient) for coefficient in unit]) for value in range(32)])
    return found


def changes(rest, singles, count):
    """The lists of this many errors, by rising location, whose remainders add up to the rest; each is a location and a value."""
    if count == 0:
        return [[]] if rest == 0 else []
    if count == 1:
        return [[it] for it in singles.get(rest, [])]
    found = []
    flat = [(vector, it) for vector, items in singles.items() for it in items]
    flat.sort(key=lambda it: it[1])
    if count == 2:
        for vector, it in flat:
            found += [[it, other] for other in singles.get(rest ^ vector, []) if other[0] > it[0]]
        return found
    for place, (vector, it) in enumerate(flat):
        left = rest ^ vector
        for second, other in flat[place + 1:]:
            if other[0] > it[0] and left ^ second in singles:
                found += [[it, other, third] for third in singles[left ^ second] if third[0] > other[0]]
    return found


def near(text, erasures, errors):
    """All texts that Blech32 accepts and that differ in at most `errors` places outside the erasures, in order."""
    hrp, data = model.parts(text)
    if len(text) > BLECH32.length:
        raise Refusal(31)
    if len(data) < DEGREE:
        raise Refusal(32)
    erasures = sorted(set(erasures))
    if len(erasures) > BLECH32.bound or any(it >= len(data) for it in erasures):
        return []
    table = error_remainders(len(data))
    rest = packed(model.remainder(BLECH32, model.text_polynomial(hrp, data))) ^ packed(BLECH32.target)
    erased = Space([table[it][1 << bit] for it in erasures for bit in range(5)])
    singles = {}
    for location in range(len(data)):
        if location not in erasures:
            for value in range(1, 32):
                singles.setdefault(erased.reduced(table[location][value]), []).append((location, value))
    found = []
    for count in range(errors + 1):
        for items in changes(erased.reduced(rest), singles, count):
            found.append((sorted(items, reverse=True), filled(rest, items, table, erasures)))
    found.sort(key=lambda it: it[0])
    return [model.spelled(hrp, mended(data, items + values)) for items, values in found]


def filled(rest, items, table, erasures):
    """The values at the erasures that are left over, by elimination with a mark for each bit."""
    for location, value in items:
        rest ^= table[location][value]
    marked = Space([])
    width = 5 * DEGREE
    # Each vector of the space with the bit of an erasure that it comes from, below all its own bits.
    bits = [(it, bit) for it in erasures for bit in range(5)]
    marked = Space([table[it][1 << bit] << len(bits) | 1 << place for place, (it, bit) in enumerate(bits)])
    left = marked.reduced(rest << len(bits))
    assert left >> len(bits) == 0 and left < 1 << width
    values = dict.fromkeys(erasures, 0)
    for place, (it, bit) in enumerate(bits):
        if left >> place & 1:
            values[it] |= 1 << bit
    return list(values.items())


def mended(data, items):
    data = list(data)
    for location, value in items:
        data[len(data) - 1 - location] ^= value
    return data


# --- rows ---

def said(function):
    try:
        return function()
    except Refusal as refusal:
        return f"err {refusal.number}"


def reply(row):
    words = row.split("|")
    if words[1] == "decode":
        def decoded():
            hrp, version, key, program = decode(words[2])
            return f"{hrp} {version} {key.hex()} {program.hex()}"
        return said(decoded)
    if words[1] == "encode":
        return said(lambda: encode(words[2], int(words[3]), bytes.fromhex(words[4]), bytes.fromhex(words[5].replace("-", ""))))
    erasures = [] if words[3] == "-" else [int(it) for it in words[3].split(",")]
    return said(lambda: " ".join(near(words[2], erasures, int(words[4]))) or "none")


# Known addresses: of Elements' tests and of wallets.
KNOWN = [
    "lq1qqf8er278e6nyvuwtgf39e6ewvdcnjupn9a86rzpx655y5lhkt0walu3djf9cklkxd3ryld97hu8h3xepw7sh2rlu7q45dcew5",
    "el1qq0umk3pez693jrrlxz9ndlkuwne93gdu9g83mhhzuyf46e3mdzfpva0w48gqgzgrklncnm0k5zeyw8my2ypfsmxh4xcjh2rse",
    "tlq1qq2xvpcvfup5j8zscjq05u2wxxjcyewk7979f3mmz5l7uw5pqmx6xf5xy50hsn6vhkm5euwt72x878eq6zxx2z58hd7zrsg9qn",
    "el1qqw3e3mk4ng3ks43mh54udznuekaadh9lgwef3mwgzrfzakmdwcvqpe4ppdaa3t44v3zv2u6w56pv6tc666fvgzaclqjnkz0sd",
]


class Maker:
    def __init__(self, seed):
        self.random = random.Random(seed)

    def data(self, size):
        return bytes(self.random.randrange(256) for _ in range(size))

    def hrp(self):
        return self.random.choice(["lq", "lq", "el", "tlq", "ert", "a", "x1y", "LQ".lower() + "~"])

    def elements(self, version, payload, more=()):
        return [version] + model.to_elements(payload) + list(more)

    def text(self, hrp, elements, code=BLECH32):
        text = model.spelled(hrp, elements + model.checksum(code, hrp, elements))
        return text.upper() if self.random.randrange(4) == 0 else text

    def address(self, size=None):
        size = size or self.random.choice([20, 32])
        return model.spelled(*self.checked(self.hrp(), self.elements(0, self.data(33 + size))))

    def checked(self, hrp, elements):
        return hrp, elements + model.checksum(BLECH32, hrp, elements)

    def encodings(self):
        for version, size in [(0, 20), (0, 32)] * 20 + [(0, it) for it in (0, 1, 2, 19, 21, 31, 33, 40, 41)] \
                + [(it, 32) for it in (1, 2, 16, 17, 31)] + [(1, 1), (17, 1)]:
            program = self.data(size).hex() or "-"
            yield f"liquid|encode|{self.hrp()}|{version}|{self.data(33).hex()}|{program}"

    def decodings(self):
        yield from (f"liquid|decode|{it}" for it in KNOWN)
        for size in [20, 32] * 20:
            yield f"liquid|decode|{self.text(self.hrp(), self.elements(0, self.data(33 + size)))}"
        # Other lengths, versions, padding, and another checksum.
        for size in (0, 1, 20, 32, 33, 34, 35, 52, 54, 64, 66, 73, 74):
            yield f"liquid|decode|{self.text(self.hrp(), self.elements(0, self.data(size)))}"
        for version in (1, 2, 16, 17, 31):
            yield f"liquid|decode|{self.text(self.hrp(), self.elements(version, self.data(65)))}"
        for more in ([0], [0, 0], [1], [31]):
            yield f"liquid|decode|{self.text(self.hrp(), self.elements(0, self.data(65), more))}"
            yield f"liquid|decode|{self.text(self.hrp(), self.elements(0, self.data(53), more))}"
        for last in (1, 2, 3):
            elements = self.elements(0, self.data(53))
            yield f"liquid|decode|{self.text(self.hrp(), elements[:-1] + [elements[-1] | last])}"
        yield f"liquid|decode|{self.text('lq', [])}"
        yield f"liquid|decode|{self.text('lq', [0])}"
        yield f"liquid|decode|{self.text('lq', self.elements(0, self.data(65)), model.BECH32)}"
        for text in ("lq1", "lq1q", "lq1p", "lq1qqqqqqqqqqq", "lq1qqqqqqqqqqqq", "1qqqqqqqqqqqqqq", "lq", "lq1b", "Lq1q", "lq1qQ"):
            yield f"liquid|decode|{text}"
        for _ in range(40):
            yield f"liquid|decode|{self.wrong(self.address(), self.random.randrange(1, 4))[0]}"
        for _ in range(12):
            yield f"liquid|decode|{self.noise()}"

    def noise(self):
        return "lq1" + "".join(self.random.choice(ALPHABET) for _ in range(98))

    def wrong(self, text, count, erased=()):
        """The text with `count` characters of the data part changed, and with others at the erasures; and the erasures."""
        start = text.rindex("1") + 1
        letters = list(text)
        places = self.random.sample([it for it in range(len(text) - start) if it not in erased], count)
        for location in places:
            at = len(text) - 1 - location
            letters[at] = self.random.choice([it for it in ALPHABET if it != letters[at]])
        for location in erased:
            letters[len(text) - 1 - location] = self.random.choice(ALPHABET)
        return "".join(letters), erased

    def mistyped(self):
        for errors in range(4):
            for erased in range(7):
                bound = 2 * errors + erased
                if bound > 7:
                    continue
                for actual in range(errors + 2):
                    # Three errors without erasures take the model long: fewer rows of them.
                    for _ in range(2 if errors == 3 else 3):
                        text = self.address()
                        size = len(text) - text.rindex("1") - 1
                        places = self.random.sample(range(size), erased)
                        text, _ = self.wrong(text, actual, places)
                        if self.random.randrange(5) == 0:
                            text = text.upper()
                        listed = ",".join(map(str, places)) or "-"
                        yield f"liquid|near|{text}|{listed}|{errors}"
        for erased in range(7):
            places = self.random.sample(range(98), erased)
            yield f"liquid|near|{self.noise()}|{','.join(map(str, places)) or '-'}|{(6 - erased) // 2}"
        for row in ("lq1qqqqqqqqqqq|-|0", "lq1|-|2", "Lq1q|-|1", f"{KNOWN[0]}|0,1,2,3,4,5,6|0", f"{KNOWN[0]}|98|1",
                    f"{KNOWN[0]}|-|3", f"{KNOWN[1]}|1,1,1|2", f"{KNOWN[2]}|97,0|2"):
            yield f"liquid|near|{row}"


def make(seed):
    maker = Maker(seed)
    rows = [*maker.encodings(), *maker.decodings(), *maker.mistyped()]
    # As many mistyped texts with few errors as make the rows 500.
    while len(rows) < 500:
        erased = maker.random.randrange(7)
        text = maker.address()
        size = len(text) - text.rindex("1") - 1
        places = maker.random.sample(range(size), erased)
        errors = min(2, (6 - erased) // 2)
        text, _ = maker.wrong(text, maker.random.randrange(errors + 2), places)
        rows.append(f"liquid|near|{text}|{','.join(map(str, places)) or '-'}|{errors}")
    for row in rows:
        print(f"{row}\t{reply(row)}")


def check(rows, replies):
    wrong = 0
    for number, (row, got) in enumerate(zip(open(rows), open(replies)), 1):
        row, got = row.rstrip("\n"), got.rstrip("\n")
        if row.startswith("liquid|") and reply(row) != got:
            print(f"{rows}:{number}: {row}: {got}, and the model says {reply(row)}")
            wrong += 1
    return 1 if wrong else 0


def main(words):
    if words[:1] == ["make"] and len(words) == 2:
        make(int(words[1]))
        return 0
    if words[:1] == ["check"] and len(words) == 3:
        return check(words[1], words[2])
    print(__doc__)
    return 2


if __name__ == "__main__":
    sys.exit(main(sys.argv[1:]))
