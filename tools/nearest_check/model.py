#!/usr/bin/env python3
"""Rows of texts and of all texts near to them, from the definition alone and with no code of the library.

    model.py COUNT SEED    COUNT rows: checksum, text, erasures, errors, and the near texts in their order, behind tabs

A text is a polynomial over the field with 32 elements (BIP-173, Checksum): its remainder by the generator, in long division,
is the checksum's constant where the text is right. Near to a text are those that differ from it at the erasures in any way
and in at most this many other characters of the data part, and are right. Their order: by the highest location of a difference
outside the erasures, then by the value added there, then by the next such location; with no such difference first.
"""
import random
import sys
from itertools import combinations, product

ALPHABET = "qpzry9x8gf2tvdw0s3jn54khce6mua7l"
GENERATOR = [18, 29, 21, 20, 22, 29, 1]  # coefficients, that of the constant term first (BIP-173)
TARGETS = {"bech32": 1, "bech32m": 0x2BC830A3}
LONGEST = 34  # data parts are no longer, so that all patterns of two errors fit in a table


def times(a, b):
    """The product in the field: of polynomials over two elements, modulo x^5 + x^3 + 1."""
    product = 0
    for place in range(5):
        if b >> place & 1:
            product ^= a << place
    for place in range(8, 4, -1):
        if product >> place & 1:
            product ^= 0b101001 << (place - 5)
    return product


def remainder(coefficients):
    """The remainder of a polynomial, that of the highest power first, by the generator: six elements, highest first."""
    left = list(coefficients)
    degree = len(GENERATOR) - 1
    for at in range(len(left) - degree):
        factor = left[at]
        for place, coefficient in enumerate(reversed(GENERATOR)):
            left[at + place] ^= times(factor, coefficient)
    return ([0] * degree + left)[-degree:]


def packed(elements):
    number = 0
    for element in elements:
        number = number << 5 | element
    return number


def text_remainder(hrp, data):
    high, low = [ord(c) >> 5 for c in hrp], [ord(c) & 31 for c in hrp]
    return packed(remainder([1, *high, 0, *low, *data]))


def right_text(hrp, payload, target):
    left = text_remainder(hrp, [*payload, 0, 0, 0, 0, 0, 0]) ^ target
    return [*payload, *(left >> 5 * place & 31 for place in range(5, -1, -1))]


def single(location, value):
    """The remainder of one error."""
    return packed(remainder([value, *[0] * location]))


SINGLES = {(i, v): single(i, v) for i in range(LONGEST) for v in range(1, 32)}


def patterns():
    """The patterns of up to two errors by their remainder."""
    found = {}
    for error, left in SINGLES.items():
        found.setdefault(left, []).append((error,))
    for one, other in combinations(sorted(SINGLES), 2):
        if one[0] != other[0]:
            found.setdefault(SINGLES[one] ^ SINGLES[other], []).append((other, one))
    found.setdefault(0, []).append(())
    return found


PATTERNS = patterns()


def near(hrp, data, target, erasures, errors):
    """The data parts of all near texts, in their order."""
    if len(erasures) > 3 or any(i >= len(data) for i in erasures):
        return []
    residue = text_remainder(hrp, data) ^ target
    found = []
    for values in product(range(32), repeat=len(erasures)):
        given = list(zip(erasures, values))
        left = residue
        for error in given:
            left ^= SINGLES.get(error, 0)
        for pattern in PATTERNS.get(left, []):
            if len(pattern) <= errors and all(i < len(data) and i not in erasures for i, _ in pattern):
                found.append((pattern, given))
    texts = []
    for pattern, given in sorted(found, key=lambda it: it[0]):
        mended = list(data)
        for location, value in [*pattern, *given]:
            mended[len(data) - 1 - location] ^= value
        texts.append(mended)
    return texts


def row(chance):
    name = chance.choice(sorted(TARGETS))
    hrp = chance.choice(["bc", "tb", "a", "lnbc", "test"])
    data = right_text(hrp, [chance.randrange(32) for _ in range(chance.randrange(0, LONGEST - 5))], TARGETS[name])
    wrong = chance.sample(range(len(data)), chance.randrange(0, 4))
    for place in wrong:
        data[place] ^= chance.randrange(1, 32)
    erasures = []
    for _ in range(chance.choice([0, 0, 1, 2, 3, 4])):
        location = len(data) - 1 - chance.choice(wrong) if wrong and chance.random() < 0.5 else chance.randrange(len(data))
        erasures.append(location)
    errors = chance.randrange(0, 2 if len(set(erasures)) == 3 else 3)  # with 2 the library would take seconds
    distinct = list(dict.fromkeys(erasures))
    texts = near(hrp, data, TARGETS[name], distinct, errors)
    spelled = [hrp + "1" + "".join(ALPHABET[element] for element in it) for it in [data, *texts]]
    return "\t".join([name, spelled[0], ",".join(map(str, erasures)), str(errors), " ".join(spelled[1:])])


def main():
    count, seed = int(sys.argv[1]), int(sys.argv[2])
    chance = random.Random(seed)
    for _ in range(count):
        print(row(chance))


if __name__ == "__main__":
    main()
