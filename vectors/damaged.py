"""Makes lines of c32 that propose a text, with the replies, by the definition of a nearest text alone.

    damaged.py check LINES REPLIES    prints where the model's reply to `propose` or `propose-long` is another
    damaged.py every SEED             of each length and each number of marks a line, a tab, and the reply

A nearest text is one that the checksum accepts, where the marks (`?`), with twice the changes of other
characters, are at most 8. Such texts differ from each other in nine characters at least, so there is one at
most: a line that is made of a string has that one. That there is none is found by elimination: the marks are
taken out of the remainders, and then each pattern of the changes that are left is tried. With fewer than three
marks these are too many, and nothing is said. Nothing is shared with the library.
"""

import random
import sys
from pathlib import Path

import model
from model import ALPHABET, CODEX32, PRODUCTS, VALUE
from shares import LENGTHS, LONG_CODEX32, code_of, quotient, with_checksum

MOST = 8
MARK = "?"


# --- whether there is a nearest text ---

def without(rows, vectors):
    """The vectors by rows of a basis: each lacks the leading places of these."""
    for place, row in rows:
        vectors = [[a ^ PRODUCTS[vector[place]][b] for a, b in zip(vector, row)] for vector in vectors]
    return vectors


def basis(vectors):
    """Rows that span the same, each with a place where it is one and later ones are zero."""
    rows = []
    for vector in vectors:
        vector = without(rows, [vector])[0]
        place = next((at for at, value in enumerate(vector) if value), None)
        if place is not None:
            rows.append((place, [quotient(value, vector[place]) for value in vector]))
    return rows


def has_nearest(code, text):
    """Whether marks and few changes explain the remainder of a text; None where there is too much to try."""
    size = len(text) - 3
    marks = [size - 1 - place for place, letter in enumerate(text[3:]) if letter == MARK]
    changes = (MOST - len(marks)) // 2
    if changes < 0:
        return False
    if changes > 2:
        return None
    rows = basis([model.term(code, location) for location in marks])
    rest = without(rows, [model.residue_of(code, text.replace(MARK, "q"))])[0]
    if not any(rest):
        return True
    ones = []
    for location in range(size):
        if location not in marks:
            left = without(rows, [model.term(code, location)])[0]
            ones += [tuple(model.times(value, left)) for value in range(1, 32)]
    found = set(ones)
    if changes >= 1 and tuple(rest) in found:
        return True
    return changes == 2 and any(model.added(rest, one) in found for one in ones)


def is_near(code, text, other):
    """Whether the other text is accepted, and so near."""
    try:
        model.test_checksum(code, other)
    except model.Refusal:
        return False
    marks = text.count(MARK)
    changes = sum(a not in (MARK, b) for a, b in zip(text.lower(), other))
    return len(text) == len(other) and marks + 2 * changes <= MOST


def agrees(line, reply):
    """Whether the reply to a line of a text under `ms` of a right length is the definition's; None if not tried."""
    command, text = line.split(" ")
    code = LONG_CODEX32 if command == "propose-long" else CODEX32
    if reply.startswith("some "):
        return is_near(code, text, reply[5:])
    found = has_nearest(code, text)
    return None if found is None else not found


# --- lines ---

class Damaged:
    """Damaged strings; the same for one seed."""

    def __init__(self, seed):
        self.random = random.Random(seed)

    def string(self, length):
        """A string of random elements, of which the first is a threshold."""
        code = code_of(length)
        front = [VALUE[self.random.choice("023456789")]]
        front += [self.random.randrange(32) for _ in range(length - 4 - len(code.generator))]
        return with_checksum(code, front)

    def damaged(self, text, marks, changes):
        """The text with this many marks and this many other characters changed."""
        letters = list(text)
        places = self.random.sample(range(3, len(text)), marks + changes)
        for place in places[:marks]:
            letters[place] = MARK
        for place in places[marks:]:
            letters[place] = self.random.choice(ALPHABET.replace(text[place], ""))
        return "".join(letters)

    def lines(self):
        """Of each length with marks and changes up to what is mended, and of each number of marks one beyond."""
        for length in LENGTHS:
            command = "propose" if length <= 93 else "propose-long"
            for marks in (length % 9, self.random.choice([3, 5])):
                text = self.string(length)
                changed = self.damaged(text, marks, (MOST - marks) // 2)
                changed = changed.upper() if self.random.randrange(4) == 0 else changed
                yield f"{command} {changed}", f"some {text}"
        for length in (48, 61, 74, 92, 93, 125, 127):
            command = "propose" if length <= 93 else "propose-long"
            for marks in range(3, 10):
                while True:
                    line = f"{command} {self.damaged(self.string(length), marks, max(0, (MOST - marks) // 2 + 1))}"
                    if agrees(line, "none"):
                        break
                yield line, "none"


def every(seed):
    for line, reply in Damaged(seed).lines():
        assert agrees(line, reply) is not False
        print(f"{line}\t{reply}")
    return 0


def check(lines, replies):
    """Of the lines of `propose` and `propose-long` that are not refused."""
    pairs = list(zip(Path(lines).read_text("latin-1").split("\n"), Path(replies).read_text().split("\n")))
    asked = [pair for pair in pairs if pair[0].startswith("propose") and pair[1][:4] in ("some", "none")]
    told = [(line, reply, agrees(line, reply)) for line, reply in asked]
    for line, reply, right in told:
        if right is False:
            print(f"{line}: not {reply}")
    wrong, untried = ([it[2] for it in told].count(what) for what in (False, None))
    print(f"{len(told)} lines, {wrong} of which differ, {untried} not tried")
    return 1 if wrong else 0


def main(words):
    if len(words) == 3 and words[0] == "check":
        return check(*words[1:])
    if len(words) == 2 and words[0] == "every":
        return every(int(words[1]))
    return __doc__.strip()


if __name__ == "__main__":
    sys.exit(main(sys.argv[1:]))
