"""Makes lines of c32 that share a secret, with the replies, by the definitions of BIP-93 alone.

    shares.py check LINES REPLIES    prints where the model's reply to `derive`, `recover` or `split` is another
    shares.py make SEED              of each length and each threshold a line, a tab, and the reply
    shares.py split SEED             the same of `split`, of each threshold, of `recover` from its shares, and of refusals
    shares.py equal SEED             the same of `split` with random bytes that are all equal, or all but one
    shares.py five                   the same of each two of five shares, or each three, and of five of which one is wrong

The string at an index is, at each place of the data part, the value of the one polynomial of degree
below the threshold that has the elements of the shares. Its coefficients are found by elimination:
there are no weights and no formula of Lagrange's. A checksum is a remainder by long division
(model.py). Nothing is shared with the library.
"""

import itertools
import random
import re
import sys
from pathlib import Path

from model import ALPHABET, CODEX32, Code, PRODUCTS, Refusal, VALUE, checksum

LONG_CODEX32 = Code([0x3D59D273535EA62D897 >> 5 * i & 31 for i in range(14, -1, -1)],
                    [0x43381E570BF4798AB26 >> 5 * i & 31 for i in range(14, -1, -1)], 1023, 8)
LENGTHS = [*range(48, 94), *range(125, 128)]
THRESHOLDS = "023456789"
SIZES = [*range(16, 45), 63, 64]
INDICES = "acdefghjklmnpqrtuvwxyz023456789"


def code_of(length):
    return CODEX32 if length <= 93 else LONG_CODEX32


def elements_of(text):
    """Those of the data part."""
    return [VALUE[letter] for letter in text[3:]]


def spelled(elements):
    return "ms1" + "".join(ALPHABET[it] for it in elements)


def with_checksum(code, front):
    """The string whose data part begins with these elements: one that is accepted."""
    return spelled(front + checksum(code, "ms", front))


# --- polynomials ---

def quotient(a, b):
    return next(it for it in range(32) if PRODUCTS[it][b] == a)


def power(x, n):
    total = 1
    for _ in range(n):
        total = PRODUCTS[total][x]
    return total


def coefficients(xs, ys):
    """Those of the polynomial of degree below the number of points that has these values."""
    rows = [[power(x, n) for n in range(len(xs))] + [y] for x, y in zip(xs, ys)]
    for at in range(len(rows)):
        pivot = next(i for i in range(at, len(rows)) if rows[i][at])
        rows[at], rows[pivot] = rows[pivot], rows[at]
        rows[at] = [quotient(it, rows[at][at]) for it in rows[at]]
        for i, row in enumerate(rows):
            if i != at and row[at]:
                rows[i] = [a ^ PRODUCTS[row[at]][b] for a, b in zip(row, rows[at])]
    return [row[-1] for row in rows]


def value(polynomial, x):
    total = 0
    for n, coefficient in enumerate(polynomial):
        total ^= PRODUCTS[coefficient][power(x, n)]
    return total


def given(texts, count, x):
    """The string at an index of which this many texts give each place; None where they contradict each other."""
    rows = [elements_of(text) for text in texts]
    xs = [row[5] for row in rows]
    found = []
    for column in zip(*rows):
        polynomial = coefficients(xs[:count], column[:count])
        if any(value(polynomial, it) != want for it, want in zip(xs, column)):
            return None
        found.append(value(polynomial, x))
    return spelled(found)


# --- splitting ---

def elements_of_bytes(secret):
    """Their bits in fives, with zeros behind them."""
    bits = "".join(f"{it:08b}" for it in secret)
    bits += "0" * (-len(bits) % 5)
    return [int(bits[at:at + 5], 2) for at in range(0, len(bits), 5)]


def split(threshold, identifier, secret, drawn, count):
    """The shares of a secret: of each character that is drawn a byte, of which the lowest five bits count."""
    code = CODEX32 if len(secret) <= 44 else LONG_CODEX32
    header = [VALUE[it] for it in threshold + identifier]
    payload = elements_of_bytes(secret)
    texts = [with_checksum(code, [*header, VALUE["s"], *payload])]
    for j in range(int(threshold) - 1):
        own = drawn[j * len(payload):(j + 1) * len(payload)]
        texts.append(with_checksum(code, [*header, VALUE[INDICES[j]], *(it % 32 for it in own)]))
    return [given(texts, int(threshold), VALUE[it]) for it in INDICES[:count]]


def bytes_of(word):
    if word != "-" and not re.fullmatch("(?:[0-9a-fA-F]{2})+", word):
        raise Refusal(5)
    return b"" if word == "-" else bytes.fromhex(word)


def split_reply(threshold, count, identifier, secret, drawn):
    """The reply to `split` with these words."""
    if not re.fullmatch("0|[1-9][0-9]?", count):
        raise Refusal(4)
    secret, drawn = bytes_of(secret), bytes_of(drawn)
    if len(threshold) != 1 or threshold not in THRESHOLDS:
        raise Refusal(83)
    if len(identifier) != 4 or not set(identifier) <= set(VALUE) or identifier not in (identifier.lower(), identifier.upper()):
        raise Refusal(85)
    if threshold == "0":
        raise Refusal(84)
    if len(secret) not in SIZES:
        raise Refusal(56)
    if not int(threshold) <= int(count) <= len(INDICES):
        raise Refusal(78)
    if len(drawn) != (int(threshold) - 1) * len(elements_of_bytes(secret)):
        raise Refusal(66)
    if len(set(drawn)) == 1:
        raise Refusal(68)
    return " ".join(["ok", *split(threshold, identifier, secret, drawn, int(count))])


# --- replies ---

def reply(line):
    """The reply to `split`, or to `derive` or `recover` of strings of one set, each with its index, enough of them."""
    command, *words = line.split(" ")
    if command == "split":
        try:
            return split_reply(*words) if len(words) == 5 and all(words) else "err 3"
        except Refusal as refusal:
            return f"err {refusal.number}"
    index = "s" if command == "recover" else words.pop(0)
    threshold = int(words[0][3])
    text = given(words, max(threshold, 1), VALUE[index])
    return f"ok {text}" if text else "err 77"


# --- lines ---

def made(maker, length, threshold):
    """A line of random strings of this length: as many as give the others, and of two lines one has one more."""
    code = code_of(length)
    size = length - 3 - 6 - len(code.generator)
    identifier = [maker.randrange(32) for _ in range(4)]

    def string(index):
        payload = [maker.randrange(32) for _ in range(size)]
        return with_checksum(code, [VALUE[threshold], *identifier, index, *payload])

    if threshold == "0":
        return "derive s " + string(VALUE["s"])
    index = maker.choice([VALUE["s"], maker.randrange(32)])
    places = maker.sample([it for it in range(32) if it != index], int(threshold) + 1)
    texts = [string(it) for it in places[1:]]
    if maker.randrange(2):
        texts.append(given(texts, len(texts), places[0]))
        maker.shuffle(texts)
    words = [text.upper() if maker.randrange(4) == 0 else text for text in texts]
    return " ".join(["recover" if index == VALUE["s"] else f"derive {ALPHABET[index]}", *words])


def split_line(maker, threshold, size, count):
    """A line of random words."""
    identifier = "".join(maker.choice(ALPHABET) for _ in range(4))
    secret, drawn = (maker.randbytes(it).hex() for it in (size, (int(threshold) - 1) * -(-8 * size // 5)))
    if maker.randrange(3) == 0:
        identifier, secret = identifier.upper(), secret.upper()
    return f"split {threshold} {count} {identifier} {secret} {drawn}"


def splits(maker):
    """Lines of each threshold: of a few sizes and numbers of shares, each with one of `recover` from some of the shares."""
    for threshold in THRESHOLDS[1:]:
        least = int(threshold)
        some = [maker.randrange(least, 32) for _ in range(2)]
        for size, count in [(16, least), (32, some[0]), (maker.choice(SIZES), 31), (64, some[1] if least < 9 else 31)]:
            line = split_line(maker, threshold, size, count)
            yield line
            yield " ".join(["recover", *maker.sample(reply(line).split(" ")[1:], least)])


def refused_splits(maker):
    """Of good words, each with one that is refused, alone and with others that are refused after it; and too many words."""
    good = split_line(maker, "3", 16, 5).split(" ")[1:]
    others = [(1, ["05", "100", "x", "+5", "-", "5,6"]), (3, ["a", "0g", good[3] + "0"]), (4, ["z", good[4][1:]]),
              (0, ["1", "10", "s", "00"]), (2, ["abcd", "Test", "tes", "tests", "te?t"]), (0, ["0"]),
              (3, ["-", *((good[3] * 5)[:2 * it] for it in (15, 45, 62, 65, 66, 80))]), (1, ["0", "2", "32", "99"]),
              (4, ["-", good[4][2:], good[4] + "00", good[4] * 16])]
    for at, (place, words) in enumerate(others):
        for word in words:
            line = [*good]
            line[place] = word
            yield " ".join(["split", *line])
            for later, wrong in others[at + 1:]:
                if later != place and line[later] == good[later]:
                    line[later] = wrong[0]
            if at + 1 < len(others):
                yield " ".join(["split", *line])
    for words in ([], good[:4], [*good, good[4]], ["", *good], [*good[:2], "", *good[3:]], [*good, ""]):
        yield " ".join(["split", *words])


def equal_splits(maker):
    """Lines with random bytes that are all equal, alone and beside what is refused before; and where one differs, by one bit."""
    for threshold, size, count, byte in [("2", 16, 3, 0), ("3", 32, 5, 0xA5), ("9", 64, 31, 0xFF), ("2", 44, 2, maker.randrange(256))]:
        words = split_line(maker, threshold, size, count).split(" ")
        drawn = bytearray([byte] * (len(words[5]) // 2))
        yield " ".join([*words[:5], drawn.hex()])
        yield " ".join([*words[:5], drawn[1:].hex()])
        yield " ".join([*words[:2], "1", *words[3:5], drawn.hex()])
        for place in (0, maker.randrange(1, len(drawn) - 1), len(drawn) - 1):
            other = bytearray(drawn)
            other[place] ^= 1 << maker.randrange(8)
            yield " ".join([*words[:5], other.hex()])


def own_string(threshold, index):
    """The string at an index of 16 bytes that are of it."""
    payload = elements_of_bytes((VALUE[index] * (it * it + 7) + threshold) % 256 for it in range(16))
    return with_checksum(CODEX32, [VALUE[it] for it in f"{threshold}test{index}"] + payload)


def five_of(threshold):
    """Five strings: the first ones are made of bytes, the others given by these."""
    own = [own_string(threshold, index) for index in "sacde"]
    return own[:threshold] + [given(own[:threshold], threshold, VALUE[index]) for index in "sacde"[threshold:]]


def fives():
    """Lines of each two or three of five strings, which give all of them, and of five of which one is another string."""
    for threshold in (2, 3):
        texts = five_of(threshold)
        for *others, last in itertools.combinations(texts, threshold):
            some = [*others, last] if threshold == 2 else [last, *others]
            yield from (" ".join(["derive", index, *some]) for index in "sacde")
        for at, index in enumerate("sacde"):
            yield " ".join(["derive s", *texts[:at], own_string(threshold, index), *texts[at + 1:]])


def check(lines, replies):
    """Of the lines of `derive`, `recover` and `split`; of the former two, that are not refused for what is said before the values."""
    pairs = list(zip(Path(lines).read_text().splitlines(), Path(replies).read_text().splitlines()))
    asked = [(line, want) for line, want in pairs if line.split(" ")[0] in ("derive", "recover", "split")]
    asked = [(line, want) for line, want in asked if line.startswith("split ") or want.startswith("ok ") or want == "err 77"]
    wrong = [(line, want) for line, want in asked if reply(line) != want]
    for line, want in wrong:
        print(f"{line}: {reply(line)}, not {want}")
    print(f"{len(asked)} lines, {len(wrong)} of which differ")
    return 1 if wrong else 0


def make(seed):
    maker = random.Random(seed)
    for length in LENGTHS:
        for threshold in THRESHOLDS:
            line = made(maker, length, threshold)
            print(f"{line}\t{reply(line)}")
    return 0


def make_splits(seed, kinds):
    maker = random.Random(seed)
    for kind in kinds:
        for line in kind(maker):
            print(f"{line}\t{reply(line)}")
    return 0


def make_fives():
    for line in fives():
        print(f"{line}\t{reply(line)}")
    return 0


def main(words):
    if len(words) == 3 and words[0] == "check":
        return check(*words[1:])
    if len(words) == 2 and words[0] == "make":
        return make(int(words[1]))
    if len(words) == 2 and words[0] == "split":
        return make_splits(int(words[1]), [splits, refused_splits])
    if len(words) == 2 and words[0] == "equal":
        return make_splits(int(words[1]), [equal_splits])
    if words == ["five"]:
        return make_fives()
    return __doc__.strip()


if __name__ == "__main__":
    sys.exit(main(sys.argv[1:]))
