"""Makes lines of mend, with the replies, by the definitions alone.

    mistyped.py check LINES REPLIES    prints where the model's reply is another
    mistyped.py make COUNT SEED        COUNT lines of most kinds, each with a tab and the reply
    mistyped.py every SEED             lines of every length, number of texts, erasures and errors
    mistyped.py suggest COUNT SEED     COUNT lines of suggest of each kind
    mistyped.py plain COUNT SEED       compares COUNT lists of near texts with those of plain trying

Near texts are found by trying every pattern of few errors, with the values at the erasures that go with
it, and every text that is found is tested by long division. `plain` changes the characters themselves
instead, place by place, and keeps what a checksum accepts. Of edits every one is tried. The place of a
fault is read off the text by cases. Nothing is shared with the library.
"""

import random
import sys
from itertools import combinations, product as choices
from math import comb
from pathlib import Path

import descriptors
import liquid
import model
from model import ALPHABET, CODES, Refusal, VALUE
from rows import Maker, ODD_PARTS

# The most erasures that are taken: as many as the code's bound.
MOST_ERASED = 3


# --- near texts ---

def packed(coefficients):
    """A remainder as one number, so that sums of remainders are quick."""
    total = 0
    for coefficient in coefficients:
        total = 32 * total + coefficient
    return total


def patterns(code, residue, erasures, errors, window):
    """Each pattern below the window with this remainder and at most this many errors outside the erasures."""
    remains = {location: [packed(model.times(value, model.term(code, location))) for value in range(32)]
               for location in range(window)}
    of_erasures = {}
    for values in choices(range(32), repeat=len(erasures)):
        total = 0
        for location, value in zip(erasures, values):
            total ^= remains[location][value]
        of_erasures.setdefault(total, []).append(dict(zip(erasures, values)))
    others = [location for location in range(window) if location not in erasures]
    for count in range(errors + 1):
        for places in combinations(others, count):
            left = [(packed(residue), ())]
            for location in places:
                left = [(rest ^ remains[location][value], (*values, value))
                        for rest, values in left for value in range(1, 32)]
            for rest, values in left:
                for known in of_erasures.get(rest, ()):
                    yield {**known, **dict(zip(places, values))}


def rank(pattern, erasures, window):
    """The values outside the erasures from the highest location on: by them near texts rise."""
    return [pattern.get(location, 0) for location in range(window - 1, -1, -1) if location not in erasures]


def read(code, text):
    """The parts of a text that is refused for nothing but its checksum."""
    try:
        model.test_checksum(code, text)
    except Refusal as refusal:
        if refusal.number != 33:
            raise
    return model.parts(text)


def near(code, text, locations, errors):
    hrp, elements = read(code, text)
    window, erasures = len(elements), list(dict.fromkeys(locations))
    if any(location >= window for location in erasures) or len(erasures) > MOST_ERASED:
        return []
    found = list(patterns(code, model.residue_of(code, text), erasures, errors, window))
    found.sort(key=lambda pattern: rank(pattern, erasures, window))
    texts = []
    for pattern in found:
        changed = [value ^ pattern.get(window - 1 - place, 0) for place, value in enumerate(elements)]
        texts.append(model.spelled(hrp, changed))
        model.test_checksum(code, texts[-1])
    assert len(set(texts)) == len(texts), "a text is found twice"
    return texts


def near_by_changes(code, text, locations, errors):
    """The same by changes of the characters: each choice of places and of what stands there."""
    hrp, elements = read(code, text)
    window, erased = len(elements), [len(elements) - 1 - location for location in locations]
    others = [place for place in range(window) if place not in erased]
    texts = []
    for count in range(errors + 1):
        for places in combinations(others, count):
            ranges = [range(32)] * len(erased) + [range(1, 32)] * count
            for values in choices(*ranges):
                changed = list(elements)
                for place, value in zip(erased + list(places), values):
                    changed[place] ^= value
                if model.leaves_target(code, hrp, changed):
                    texts.append(([a ^ b for a, b in zip(elements, changed)], model.spelled(hrp, changed)))
    return [text for _, text in sorted(texts, key=lambda it: [it[0][place] for place in others])]


# --- the texts that one edit makes ---

CHANGES = ["swapped", "left-out", "put-in"]


def edited(elements):
    """What each edit makes of elements, behind its kind, its location and the value that it puts in."""
    size = len(elements)
    for place in range(size - 1):
        yield (0, size - 2 - place, 0), elements[:place] + elements[place:place + 2][::-1] + elements[place + 2:]
    for place in range(size):
        yield (1, size - 1 - place, 0), elements[:place] + elements[place + 1:]
    for place in range(size + 1):
        for value in range(32):
            yield (2, size - place, value), elements[:place] + [value] + elements[place:]


def is_accepted(code, text):
    try:
        model.test_checksum(code, text)
        return True
    except Refusal:
        return False


def near_edits(code, text):
    """What is said of each other text that one edit makes, by the first edit of it."""
    hrp, elements = model.parts(text)
    said = {}
    for (kind, location, _), made in sorted(edited(elements)):
        other = model.spelled(hrp, made)
        if made != elements and other not in said and is_accepted(code, other):
            said[other] = f"{CHANGES[kind]} {location} {other}"
    return list(said.values())


# --- what may have been meant ---

UNREADABLE = "?"
# A text with more characters is no address, whichever edit mends it, nor is one with fewer behind the separator.
MOST_TYPED, LEAST_DATA = 91, 10


def false_answers(size, unread, errors):
    """How many of the texts that are tried for one two checksums of six characters accept by chance."""
    others = sum(comb(size - unread, count) * 31 ** count for count in range(errors + 1))
    by_edits = 0 if unread else (size - 1) + size + 32 * (size + 1)
    return 2 * (32 ** unread * others + by_edits) / 32 ** 6


def errors_looked_for(size, unread):
    """The most errors for which a false answer is expected for one text in 100 at most; None for none."""
    if size < LEAST_DATA or unread > MOST_ERASED:
        return None
    return next((errors for errors in (2, 1, 0) if false_answers(size, unread, errors) <= 1 / 100), None)


# The forms of addresses in use, as version and bytes: BIP-141 has those of version 0, BIP-341 that of version 1.
IN_USE = [(0, 20), (0, 32), (1, 32)]


def may_be_meant(hrp, typed, text):
    """Whether a text is an address of the network: of a form in use, or the typed text itself."""
    try:
        part, version, program = model.segwit_decode(text)
    except Refusal:
        return False
    return part.lower() == hrp.lower() and (text == typed.lower() or (version, len(program)) in IN_USE)


def mending(typed, text):
    """What is done to the typed text, by its length or by doing it, and the first place at which the two differ."""
    place = next((place for place, (a, b) in enumerate(zip(typed, text)) if a != b), min(len(typed), len(text)))
    swapped = typed[:place] + typed[place:place + 2][::-1] + typed[place + 2:]
    if len(text) != len(typed):
        return "left-out" if len(text) < len(typed) else "put-in", place
    return "unchanged" if text == typed else "swapped" if text == swapped else "replaced", place


def suggested(hrp, typed):
    """The addresses of a network that may have been meant, each with what is done to the typed text."""
    model.test_hrp(hrp)
    if len(typed.encode()) > MOST_TYPED:
        return []
    text = typed.replace(UNREADABLE, "0")
    _, elements = model.parts(text)
    unread = [len(typed) - 1 - place for place, it in enumerate(typed) if it == UNREADABLE]
    errors = errors_looked_for(len(elements), len(unread))
    if errors is None:
        return []
    tried = [other for code in CODES.values() for other in near(code, text, unread, errors)]
    if not unread:
        tried += [said.split(" ")[2] for code in CODES.values() for said in near_edits(code, text)]
    found = dict.fromkeys(other for other in tried if may_be_meant(hrp, typed, other))
    return ["{} {} {}".format(*mending(typed.lower(), other), other) for other in found]


# --- the place of a fault ---

def size(text):
    return len(text.encode())


def first_of_other_case(text):
    """The front of a text before the first letter that has one of the other case before it."""
    return next(text[:place] for place in range(len(text)) if model.has_both_cases(text[:place + 1]))


def place_of(text, number):
    """The place in bytes from 0 of the fault of this number."""
    hrp = text.rpartition("1")[0]
    if number in (11, 12):
        return size(hrp)
    if number in (13, 14):
        return size(next(hrp[:place] for place, it in enumerate(hrp) if not 33 <= ord(it) <= 126))
    if number == 15:
        return size(first_of_other_case(hrp))
    if number == 21:
        return size(text[:max(place for place, it in enumerate(text) if it not in VALUE)])
    if number == 22:
        return size(first_of_other_case(text))
    return size(text)


# --- the lines of mend ---

def is_text(line):
    try:
        line.decode("utf-8")
    except UnicodeDecodeError:
        return False
    return True


def number_of_errors(word):
    if word not in ("0", "1", "2"):
        raise Refusal(4)
    return int(word)


def named(text):
    try:
        model.test_checksum(model.BECH32, text)
        return "bech32"
    except Refusal:
        model.test_checksum(model.BECH32M, text)
        return "bech32m"


def fault(code, text):
    try:
        model.test_checksum(code, text)
        return "ok"
    except Refusal as refusal:
        return f"err {refusal.number} {place_of(text, refusal.number)}"


# A line of mend may have this many bytes.
LONGEST_LINE = 16384

# No descriptor of more characters is mended.
LONGEST_MENDED = 7500

# How descriptors.py names what is done to a descriptor.
DONE = {"=": "changed", "x": "swapped", "-": "left-out", "+": "put-in"}


def about_descriptor(name, text):
    """The answer to a command of descriptors, whose text is the rest of the line, or nothing."""
    # A character is a byte here.
    text = text.decode("latin-1")
    if name == b"descriptor" and len(text) > LONGEST_MENDED:
        return "err 89"
    if name == b"descriptor":
        found = descriptors.mended(text)
        return b" ".join([b"ok", *(f"{DONE[kind]} {place} {made}".encode("latin-1") for (kind, place), made in found)]).decode()
    if name == b"descriptor-check":
        said = descriptors.checked(text)
        return {"right": "ok", "wrong": "err 33", "none": "err 88"}.get(said) or said.replace("at", "err 80")
    if name == b"descriptor-checksum":
        said = descriptors.reply(f"checksum|{text}")
        return said.replace("at", "err 80") if said.startswith("at ") else f"ok {said}"
    return None


def answer(line):
    name, space, text = line.partition(b" ")
    said = about_descriptor(name, text) if space and len(line) <= LONGEST_LINE and is_text(line) else None
    if said is not None:
        return said
    name, *arguments = model.words_of(line, LONGEST_LINE)
    if name == "liquid" and len(arguments) in (2, 3):
        listed = arguments[1].split(",") if len(arguments) == 3 else []
        locations = [model.number(word, 1022) for word in listed]
        errors = model.number(arguments[-1], 3)
        return " ".join(["ok"] + liquid.near(arguments[0], locations, errors))
    if name == "nearest" and len(arguments) in (3, 4) and arguments[0] in CODES:
        listed = arguments[2].split(",") if len(arguments) == 4 else []
        locations = [model.number(word, 1022) for word in listed]
        errors = number_of_errors(arguments[-1])
        return " ".join(["ok"] + near(CODES[arguments[0]], arguments[1], locations, errors))
    if name == "edits" and len(arguments) == 2 and arguments[0] in CODES:
        return " ".join(["ok"] + near_edits(CODES[arguments[0]], arguments[1]))
    if name == "fault" and len(arguments) == 2 and arguments[0] in CODES:
        return fault(CODES[arguments[0]], arguments[1])
    if name == "checksum" and len(arguments) == 1:
        return "ok " + named(arguments[0])
    if name == "suggest" and len(arguments) == 2:
        return " ".join(["ok"] + suggested(*arguments))
    raise Refusal(3)


def reply(line):
    """What mend prints for a line, given as bytes without its end."""
    try:
        return answer(line)
    except Refusal as refusal:
        return f"err {refusal.number}"


# --- making lines ---

class Lines(Maker):
    """Random lines of mend; the same for one seed."""

    def by_either(self, text):
        """The name of a checksum: mostly of the one that accepts the text."""
        try:
            name = named(text)
        except Refusal:
            name = self.random.choice(list(CODES))
        return name if not self.one_in(8) else self.random.choice(list(CODES))

    def changed(self, text, count):
        """The text with this many characters of its data part changed, and where."""
        start, letters, places = text.rfind("1") + 1, list(text), []
        for place in self.random.sample(range(start, len(text)), min(count, len(text) - start)):
            letter = self.random.choice(ALPHABET)
            letters[place] = letter.upper() if any(map(model.is_upper, text)) else letter
            places.append(len(text) - 1 - place)
        return "".join(letters), places

    def sized(self, length):
        """An accepted text with a data part of this many characters."""
        code = CODES[self.random.choice(list(CODES))]
        elements = [self.random.randrange(32) for _ in range(length - 6)]
        text = model.encoded(code, self.good_part(), elements)
        return text.upper() if self.one_in(4) else text

    def nearest(self):
        erased = self.random.choice([0, 0, 0, 0, 1, 1, 2, 2, 3])
        length = self.random.choice([6, 7, self.random.randint(6, 40), 39, 59, self.random.randint(60, 90)])
        errors = self.random.choice([0, 1, 2])
        whole = self.sized(length)
        name = self.by_either(whole)
        text, places = self.changed(whole, self.random.choice([0, 1, 2, 2, 3, 4]))
        locations = (places + self.random.sample(range(length), min(3, length)))[:erased]
        if self.one_in(12):
            locations.append(self.random.randrange(1030))
        if locations and self.one_in(8):
            locations.append(locations[0])
        if locations and self.one_in(12):
            locations += [0, 1, 2, 3]
        words = ["nearest", name, text]
        if locations:
            words.append(",".join(map(str, locations)))
        words.append(str(errors))
        if self.one_in(12):
            words[-1] = self.random.choice(["3", "00", "01", "-1", "q", "1,2", "\u0661"])
        if len(words) == 5 and self.one_in(15):
            words[3] = self.random.choice([",", "1,", "1023", "01", "1,2,x", words[3] + ","])
        return " ".join(words)

    def many(self):
        """Lists of many texts, some longer than any other reply."""
        length = self.random.choice([6, 20, 39, 59, self.random.randint(30, 70)])
        text, places = self.changed(self.sized(length), 3)
        locations = (places + list(range(6)))[:3]
        return f"nearest {self.by_either(text)} {text} {','.join(map(str, locations))} 2"

    def refused(self):
        """A text with a fault, more often in its human-readable part than elsewhere."""
        text = self.text((0, 0, 1, 2))
        kind = self.random.randrange(6)
        if kind == 0:
            text = self.random.choice(ODD_PARTS + ["", "a\u00e9B", "Ab", "x\x1fy", "aX\u00e9"]) + text[max(0, text.rfind("1")):]
        elif kind == 1:
            text = text[:text.rfind("1") + self.random.randint(0, 6)]
        elif kind == 2:
            place = self.random.randrange(len(text))
            text = text[:place] + text[place].swapcase() + text[place + 1:]
        elif kind == 3:
            place = self.random.randrange(len(text) + 1)
            text = text[:place] + self.random.choice("bio\u00e9\u20ac\U0001f600?\x7f") + text[place:]
        return text.replace(" ", "") or "1"

    def fault(self):
        text = self.refused()
        return f"fault {self.by_either(text)} {text}"

    def checksum(self):
        return f"checksum {self.text((0, 0, 1, 2)) if self.one_in(2) else self.accepted((0, 1, 2))}"

    def edited(self, text):
        """The text after one edit of its data part, in its own case."""
        place = self.random.randint(text.rfind("1") + 1, len(text))
        kind = self.random.randrange(3)
        if kind == 0:
            return text[:place] + text[place:place + 2][::-1] + text[place + 2:]
        if kind == 1:
            return text[:place] + text[place + 1:]
        letter = self.random.choice([self.random.choice(ALPHABET), text[place - 1].lower()])
        return text[:place] + (letter.upper() if any(map(model.is_upper, text)) else letter) + text[place:]

    def edits(self):
        length = self.random.choice([6, 7, 8, self.random.randint(6, 60), 39, 59, self.random.randint(60, 90)])
        text = self.sized(length)
        if self.one_in(4):
            text = "".join(letter * self.random.choice([1, 2, 3]) for letter in text[text.rfind("1") + 1:])[:30]
            text = model.encoded(CODES[self.random.choice(list(CODES))], "a", [VALUE[letter] for letter in text])
        name = self.by_either(text)
        for _ in range(self.random.choice([0, 1, 1, 1, 1, 1, 1, 1, 2])):
            text = self.edited(text)
        return f"edits {name} {text}"

    def edits_at_limits(self):
        """Texts that are as long as the code or longer, about as short as a checksum, or refused."""
        kind = self.random.randrange(3)
        if kind == 0:
            code = CODES[self.random.choice(list(CODES))]
            text = model.encoded(code, "a", [self.random.randrange(32) for _ in range(1015)])
            edited = next(it for it in iter(lambda: self.edited(text), None) if len(it) >= len(text))
        elif kind == 1:
            text = self.random.choice(["a1", "a1q", "a1lqfn3a", "a12uel5l", "ap1uel5", "a1p", "1a"])
            edited = self.edited(text)
        else:
            return self.fault().replace("fault", "edits", 1)
        return f"edits {self.by_either(text)} {edited}"

    def several_edits(self):
        """Texts of Bech32 that end in p: with a q more before it, and with one less, they are accepted as well."""
        text = ""
        while not text.endswith("p"):
            text = model.encoded(model.BECH32, self.good_part(), [self.random.randrange(32) for _ in range(9)])
        return f"edits bech32 {text[:-1]}{'q' * self.random.randint(1, 3)}p"

    def odd_edits(self):
        return self.mistyped(self.edits(), self.random.randint(1, 3))

    def odd(self):
        line = self.random.choice([self.nearest, self.fault, self.checksum])()
        kind = self.random.randrange(5)
        if kind == 0:
            return self.random.choice(["", " ", "nearest", "fault", "checksum", "fault bech32", "nearest bech32",
                                       "nearest bech32 a12uel5l", "checksum a12uel5l 1", "fault a12uel5l",
                                       "nearest bech32 a12uel5l 1 1 1", "nearest bech33 a12uel5l 1",
                                       "edits", "correct bech32 a12uel5l", "decode a12uel5l"])
        if kind == 1:
            return line.replace(" ", self.random.choice(["  ", "\t", ""]), 1)
        if kind == 2:
            return line + self.random.choice([" ", " 1", " q"])
        if kind == 3 and self.one_in(4):
            return "checksum ".ljust(self.random.randint(LONGEST_LINE - 1, LONGEST_LINE + 2), "q")
        return self.mistyped(line, self.random.randint(1, 3))


# How many of each kind, in parts of a count.
KINDS = {"nearest": 1, "many": 1 / 8, "fault": 1, "checksum": 1, "odd": 1, "edits": 1, "edits_at_limits": 1 / 4,
         "odd_edits": 1 / 4, "several_edits": 1 / 16}


def make(count, seed):
    for kind, part in KINDS.items():
        maker, made = Lines(f"{kind} {seed}"), 0
        while made < int(count * part):
            line = getattr(maker, kind)().encode()
            if kind == "odd" and maker.one_in(12):
                line += bytes([maker.random.randrange(128, 256)])
            if b"\n" in line or b"\t" in line:
                continue
            sys.stdout.buffer.write(line + b"\t" + reply(line).encode() + b"\n")
            made += 1
    return 0


def print_with_reply(line):
    print(line + "\t" + reply(line.encode()))


class Each(Lines):
    """Lines that leave out no length and no number."""

    def text_of(self, length, code, part="bc"):
        """A text of this many characters that the checksum accepts, in lower case or in upper case."""
        elements = [self.random.randrange(32) for _ in range(length - len(part) - 7)]
        text = model.encoded(code, part, elements)
        return text.upper() if self.one_in(4) else text

    def nearest_of(self, text, name, erased, wrong, errors):
        """A line with this many wrong characters outside this many erasures, which are wrong or not."""
        changed, places = self.changed(text, erased + wrong)
        words = ["nearest", name, changed, *[",".join(map(str, places[:erased]))][:erased], str(errors)]
        return " ".join(words)

    def by_number(self, most):
        """For each number of near texts a line by each checksum."""
        for name, code in CODES.items():
            lacking = set(range(most + 1))
            while lacking:
                text = self.text_of(self.random.randint(20, 36), code)
                line = self.nearest_of(text, name, 3, self.random.choice([0, 2, 3]), 2)
                found = len(reply(line.encode()).split(" ")) - 1
                if found in lacking:
                    lacking.remove(found)
                    yield line

    def by_errors(self):
        """By each checksum, with each number of erasures and each of errors that are allowed and made."""
        for name, code in CODES.items():
            for erased in range(MOST_ERASED + 1):
                for errors in range(3):
                    for wrong in range(errors + 2):
                        text = self.text_of(self.random.randint(14, 45), code)
                        yield self.nearest_of(text, name, erased, wrong, errors)

    def by_length(self):
        """Of each length, with each length of the data part: near texts, and an edit."""
        for length in range(9, 97):
            for name, code in CODES.items():
                text = self.text_of(length, code)
                erased, errors = self.random.choice([(0, 1), (0, 2), (1, 1), (2, 0), (2, 1), (3, 0)])
                yield self.nearest_of(text, name, erased, errors, errors)
                edited = next(it for it in iter(lambda: self.edited(text), None) if it != text)
                yield f"edits {name} {edited}"


def every(seed):
    each = Each(f"every {seed}")
    for lines in (each.by_number(12), each.by_errors(), each.by_length()):
        for line in lines:
            print_with_reply(line)
    return 0


class Typed(Lines):
    """Lines of suggest: what people may do to an address, and what is no address."""

    NETWORKS = ["bc", "tb", "bcrt", "ltc", "a"]

    def address(self, hrp):
        version = self.random.choice([0, 0, 1, 1, self.random.randint(2, 16)])
        length = self.random.choice([20, 32]) if version < 2 else self.random.choice([2, 40, self.random.randint(2, 40)])
        return model.segwit_encode(hrp, version, self.random.randbytes(length))

    def with_marks(self, text, count):
        letters = list(text)
        for place in self.random.sample(range(text.rfind("1") + 1, len(text)), count):
            letters[place] = UNREADABLE
        return "".join(letters)

    def line(self, hrp, text):
        word = hrp.upper() if self.one_in(8) else hrp
        return f"suggest {word} {text.upper() if self.one_in(4) else text}"

    def wrong(self, count):
        hrp = self.random.choice(self.NETWORKS)
        return self.line(hrp, self.changed(self.address(hrp), count)[0])

    def right(self):
        return self.wrong(0)

    def one_wrong(self):
        return self.wrong(1)

    def two_wrong(self):
        return self.wrong(2)

    def three_wrong(self):
        return self.wrong(3)

    def marked(self):
        hrp = self.random.choice(self.NETWORKS)
        return self.line(hrp, self.with_marks(self.address(hrp), self.random.randint(1, 5)))

    def marked_and_wrong(self):
        hrp = self.random.choice(self.NETWORKS)
        text, _ = self.changed(self.address(hrp), self.random.randint(1, 2))
        return self.line(hrp, self.with_marks(text, self.random.randint(1, 3)))

    def slip(self):
        hrp = self.random.choice(self.NETWORKS)
        text = self.address(hrp)
        return self.line(hrp, next(it for it in iter(lambda: self.edited(text), None) if it != text))

    def other_network(self):
        one, other = self.random.sample(self.NETWORKS, 2)
        return self.line(one, self.changed(self.address(other), self.random.randint(0, 2))[0])

    def no_address(self):
        """Texts of a right checksum that are no addresses, and of none."""
        hrp = self.random.choice(self.NETWORKS)
        elements = [self.random.randrange(32) for _ in range(self.random.randint(0, 84))]
        text = model.encoded(self.random.choice([model.BECH32, model.BECH32M]), hrp, elements)
        return self.line(hrp, self.changed(text, self.random.randint(0, 7))[0])

    def odd(self):
        hrp = self.random.choice(self.NETWORKS)
        text = self.mistyped(self.with_marks(self.address(hrp), self.random.randint(0, 2)), self.random.randint(1, 3))
        return self.random.choice([
            f"suggest {hrp} {self.refused()}", f"suggest {self.random.choice(ODD_PARTS)} {text}", f"suggest {hrp} {text}",
            f"suggest {hrp} {text.ljust(self.random.randint(90, 93), 'q')}", f"suggest {hrp} {text} 1", f"suggest {text}",
            f"suggest {hrp} ?{text}", f"suggest {hrp} {UNREADABLE * 3}",
        ])


TYPED = ["right", "one_wrong", "two_wrong", "three_wrong", "marked", "marked_and_wrong", "slip", "other_network",
         "no_address", "odd"]


def typed(count, seed):
    for kind in TYPED:
        maker, made = Typed(f"typed {kind} {seed}"), 0
        while made < count:
            line = getattr(maker, kind)()
            if not set("\n\t") & set(line):
                print_with_reply(line)
                made += 1
    return 0


def check(lines, replies):
    pairs = list(zip(Path(lines).read_bytes().split(b"\n"), Path(replies).read_text().split("\n")))
    wrong = [(line, want) for line, want in pairs[:-1] if reply(line) != want]
    for line, want in wrong:
        print(f"{line!r}: {reply(line)}, not {want}")
    print(f"{len(pairs) - 1} lines, {len(wrong)} of which differ")
    return 1 if wrong else 0


def plain(count, seed):
    maker, wrong = Lines(f"plain {seed}"), 0
    for _ in range(count):
        code = CODES[maker.random.choice(list(CODES))]
        erased, errors = maker.random.choice([(0, 1), (0, 2), (1, 1), (2, 0), (2, 1), (3, 0)])
        length = maker.random.randint(6, 8)
        text, places = maker.changed(maker.sized(length), 3)
        locations = (places + list(range(3)))[:erased]
        locations = list(dict.fromkeys(locations))
        wrong += near(code, text, locations, errors) != near_by_changes(code, text, locations, errors)
    print(f"{count} lists, {wrong} of which differ")
    return 1 if wrong else 0


def main(words):
    if len(words) == 3 and words[0] == "check":
        return check(*words[1:])
    if len(words) == 3 and words[0] == "make":
        return make(int(words[1]), words[2])
    if len(words) == 2 and words[0] == "every":
        return every(words[1])
    if len(words) == 3 and words[0] == "suggest":
        return typed(int(words[1]), words[2])
    if len(words) == 3 and words[0] == "plain":
        return plain(int(words[1]), words[2])
    return __doc__.strip()


if __name__ == "__main__":
    sys.exit(main(sys.argv[1:]))
