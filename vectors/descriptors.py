"""Makes rows of descriptors (BIP-380) with what they give, by the definitions alone.

    descriptors.py make COUNT SEED          prints COUNT rows of layer_rows, each with a tab and its reply
    descriptors.py check ROWS REPLIES       prints where the model's reply is another

A checksum is the remainder of a long division of lists of coefficients over the field of 32 elements, which are
multiplied bit by bit. A text is mended by trying: each character changed, left out or put in, each two neighbours
swapped, and the remainder of what that makes. So that this takes no hours, the remainder of a changed text is put
together of those of its parts, which are divided once; each text that is found is divided whole. Nothing is shared
with the library.
"""
import random
import sys

GROUPS = ["0123456789()[],'/*abcdefgh@:$%{}", "IJKLMNOPQRSTUVWXYZ&+-.;<=>?!^_|~", "ijklmnopqrstuvwxyzABCDEFGH`#\"\\ "]
LETTERS = "qpzry9x8gf2tvdw0s3jn54khce6mua7l"
CHARACTERS = "".join(GROUPS)
# x^8 + 30 x^7 + 23 x^6 + 15 x^5 + 14 x^4 + 10 x^3 + 6 x^2 + 12 x + 9, the highest first, without the one.
GENERATOR = [30, 23, 15, 14, 10, 6, 12, 9]
TARGET = [0, 0, 0, 0, 0, 0, 0, 1]
KNOWN = ["raw(deadbeef)#89f8spxm", "wpkh(02f9308a019258c31049344f85f89d5229b531c845836f99b08601f113bce036f9)#8zl0zxma",
         "raw(deadbeef)", "raw(deadbeef)#", "raw(deadbeef)#89f8spxmx", "raw(deadbeef)#89f8spx", "raw(dedbeef)#89f8spxm",
         "raw(deadbeef)##9f8spxm", "raw(\u00dceadbeef)#89f8spxm", "raw(deadbeef)#89f8spxM", "#", "", "#qqqqqqqq", "89f8spxm"]


def product(a, b):
    total = 0
    for bit in range(5):
        if b >> bit & 1:
            total ^= a << bit
    for bit in range(9, 4, -1):
        if total >> bit & 1:
            total ^= 0b101001 << bit - 5
    return total


TIMES = [[product(a, b) for b in GENERATOR] for a in range(32)]


def divided(remainder, elements):
    """The remainder of a polynomial with more coefficients behind it."""
    for element in elements:
        first, *rest = remainder
        remainder = [a ^ b for a, b in zip([*rest, element], TIMES[first])]
    return remainder


def symbols(payload):
    found = []
    for start in range(0, len(payload), 3):
        three = payload[start:start + 3]
        places = [CHARACTERS.index(it) for it in three]
        number = 0
        for place in places:
            number = 3 * number + place // 32
        found += [place % 32 for place in places] + [number]
    return found


def remainder_of(payload, checksum):
    return divided([0] * 7 + [1], symbols(payload) + [LETTERS.index(it) for it in checksum])


def checksum_of(payload):
    left = divided([0] * 7 + [1], symbols(payload) + TARGET)
    return "".join(LETTERS[it] for it in left)


def is_right(text):
    payload, mark, checksum = text[:-9], text[-9:-8], text[-8:]
    return (len(text) >= 9 and mark == "#" and set(payload) <= set(CHARACTERS) and set(checksum) <= set(LETTERS)
            and remainder_of(payload, checksum) == TARGET)


def checked(text):
    if len(text) < 9 or text[-9] != "#":
        return "none"
    for place, it in enumerate(text):
        if place != len(text) - 9 and it not in (LETTERS if place > len(text) - 9 else CHARACTERS):
            return f"at {place}"
    return "right" if is_right(text) else "wrong"


# --- texts that one edit makes ---

def packed(remainder):
    total = 0
    for it in remainder:
        total = total * 32 + it
    return total


class Remainders:
    """The remainders of symbols at places from the end, as numbers, each divided once."""

    def __init__(self):
        self.rows = [[packed([0] * 7 + [it]) for it in range(32)]]

    def at(self, place, symbol):
        while len(self.rows) <= place:
            lists = [[row >> 5 * (7 - i) & 31 for i in range(8)] for row in self.rows[-1]]
            self.rows.append([packed(divided(it, [0])) for it in lists])
        return self.rows[place][symbol]

    def of(self, text):
        """The remainder of a text that ends in a mark and a checksum: the sum of those of its symbols."""
        elements = symbols(text[:-9]) + [LETTERS.index(it) for it in text[-8:]]
        total = self.at(len(elements), 1)
        for place, it in enumerate(elements):
            total ^= self.at(len(elements) - 1 - place, it)
        return total


def edits(text):
    """Each edit by its kind, place and character, and what it makes, in the order in which they are told."""
    for place in range(len(text)):
        for it in sorted(CHARACTERS):
            if it != text[place]:
                yield ("=", place), text[:place] + it + text[place + 1:]
    for place in range(len(text) - 1):
        if text[place] != text[place + 1]:
            yield ("x", place), text[:place] + text[place + 1] + text[place] + text[place + 2:]
    for place in range(len(text)):
        if text[place:place + 1] != text[place + 1:place + 2]:
            yield ("-", place), text[:place] + text[place + 1:]
    for place in range(len(text) + 1):
        for it in sorted(CHARACTERS):
            if it != text[place:place + 1]:
                yield ("+", place), text[:place] + it + text[place:]


REMAINDERS = Remainders()


def mended(text):
    found = []
    for edit, made in edits(text):
        if len(made) >= 9 and made[-9] == "#" and set(made[:-9]) <= set(CHARACTERS) and set(made[-8:]) <= set(LETTERS):
            if REMAINDERS.of(made) == 1:
                assert is_right(made)
                found.append((edit, made))
    assert len({it for _, it in found}) == len(found), "a text is found twice"
    return found


def reply(row):
    kind, _, text = row.partition("|")
    # A character is a byte here.
    text = text.encode().decode("latin-1")
    if kind == "checksum":
        strange = [place for place, it in enumerate(text) if it not in CHARACTERS]
        return f"at {strange[0]}" if strange else checksum_of(text)
    return "|".join([checked(text), *(f"{kind} {place} {made}" for (kind, place), made in mended(text))])


# --- making rows ---

class Maker:
    def __init__(self, seed):
        self.random = random.Random(seed)

    def key(self):
        return "".join(self.random.choice("0123456789abcdef") for _ in range(self.random.choice([8, 16, 66])))

    def payload(self):
        choice = self.random.randrange(6)
        if choice == 0:
            return f"raw({self.key()})"
        if choice == 1:
            return f"wpkh([{self.key()[:8]}/84h/0h/0h]{self.key()[:16]}/0/*)"
        if choice == 2:
            return f"sh(wsh(multi(2,{self.key()[:12]},{self.key()[:12]})))"
        if choice == 3:
            return f"tr({self.key()},{{pk({self.key()[:8]}),pk({self.key()[:8]})}})"
        letters = [it for it in CHARACTERS if it != "|"]
        return "".join(self.random.choice(letters) for _ in range(self.random.randrange(40)))

    def right(self):
        payload = self.payload()
        return f"{payload}#{checksum_of(payload)}"

    def letter(self):
        return self.random.choice([it for it in CHARACTERS if it != "|"])

    def changed(self, text):
        place = self.random.randrange(len(text))
        return text[:place] + self.letter() + text[place + 1:]

    def swapped(self, text):
        place = self.random.randrange(len(text) - 1)
        return text[:place] + text[place + 1] + text[place] + text[place + 2:]

    def left_out(self, text):
        place = self.random.randrange(len(text))
        return text[:place] + text[place + 1:]

    def put_in(self, text):
        place = self.random.randrange(len(text) + 1)
        return text[:place] + self.letter() + text[place:]

    def random_checksum(self, text):
        return text[:-8] + "".join(self.random.choice(LETTERS) for _ in range(8))

    def rows(self, count):
        yield from (f"descriptor|{it}" for it in KNOWN)
        kinds = [lambda it: it, self.changed, lambda it: self.changed(self.changed(it)), self.swapped, self.left_out, self.put_in,
                 self.random_checksum]
        for number in range(count - len(KNOWN)):
            if number % 8 == 7:
                yield f"checksum|{self.payload() if number % 3 else self.changed(self.payload() + chr(127))}"
            else:
                yield f"descriptor|{kinds[number % 8 % len(kinds)](self.right())}"


def main(words):
    if len(words) == 3 and words[0] == "make":
        for row in Maker(int(words[2])).rows(int(words[1])):
            print(f"{row}\t{reply(row)}")
    elif len(words) == 3 and words[0] == "check":
        with open(words[1], encoding="utf-8") as rows, open(words[2], encoding="utf-8") as replies:
            for number, (row, said) in enumerate(zip(rows, replies), 1):
                row, said = row.rstrip("\n"), said.rstrip("\n")
                if row.partition("|")[0] in ("checksum", "descriptor") and reply(row) != said:
                    print(f"line {number}: {row}: {said}, by the model {reply(row)}")
    else:
        sys.exit(__doc__)


if __name__ == "__main__":
    main(sys.argv[1:])
