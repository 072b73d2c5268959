"""A reference model of Bech32 (BIP-173) and Bech32m (BIP-350), written from the definitions alone.

It is slow and short. A remainder is computed by long division of lists of coefficients. Bytes and
elements are cut from whole lists of bits. The grammar is checked by cases. A correction is found by
trying every pattern within the bound. There are no syndromes, no shift registers and no roots, and
nothing is shared with the library. Polynomials are lists of coefficients, the highest first.

`reply(line)` is what the program b32 prints for a line.
"""

from collections import namedtuple
from itertools import product as choices

# The most characters of a text by Bech32, by a long checksum, of a human-readable part (BIP-173, Bech32) and of an address.
MAX_TEXT, MAX_LONG_TEXT, MAX_PART, MAX_ADDRESS = 1023, 7089, 83, 90
# The highest witness version, and the lengths of its program (BIP-173, Segwit address format; BIP-141, Witness program).
MAX_VERSION, MIN_PROGRAM, MAX_PROGRAM, PROGRAMS_OF_VERSION_0 = 16, 2, 40, (20, 32)

# The elements of the field of 32, by the characters that stand for 0 to 31 (BIP-173, Bech32).
ALPHABET = "qpzry9x8gf2tvdw0s3jn54khce6mua7l"
VALUE = {letter: value for value, letter in enumerate(ALPHABET)}
VALUE.update({letter.upper(): value for letter, value in list(VALUE.items())})


class Refusal(Exception):
    """A refusal, by its number."""

    @property
    def number(self):
        return self.args[0]


# --- the field of 32 elements (BIP-173, Checksum design) ---

def product(a, b):
    """The first shifted by i for each bit i of the second, reduced by x^5 + x^3 + 1."""
    total = 0
    for i in range(5):
        if b >> i & 1:
            total ^= a << i
    for bit in range(8, 4, -1):
        if total >> bit & 1:
            total ^= 0b101001 << bit - 5
    return total


PRODUCTS = [[product(a, b) for b in range(32)] for a in range(32)]


# --- checksums ---

# The generator's coefficients below the leading one, the target's, the greatest length of a text,
# and how far apart accepted texts are promised to lie, less one (BIP-173, Checksum; BIP-350; BIP-93).
Code = namedtuple("Code", "generator target length bound")

BECH32 = Code([29, 22, 20, 21, 29, 18], [0, 0, 0, 0, 0, 1], MAX_TEXT, 3)
BECH32M = Code(BECH32.generator, [0x2BC830A3 >> 5 * i & 31 for i in range(5, -1, -1)], MAX_TEXT, 3)
CODEX32 = Code([0x19DC500CE73FDE210 >> 5 * i & 31 for i in range(12, -1, -1)],
               [0x10CE0795C2FD1E62A >> 5 * i & 31 for i in range(12, -1, -1)], 93, 8)
CODES = {"bech32": BECH32, "bech32m": BECH32M}

# The same for long texts, of which no distance is promised, and all.
LONG_CODES = {f"long-{name}": code._replace(length=MAX_LONG_TEXT, bound=0) for name, code in CODES.items()}
ALL_CODES = {**CODES, **LONG_CODES}


def remainder(code, coefficients):
    """The remainder by the generator: as many coefficients as its degree."""
    divisor = [1] + code.generator
    rest = [0] * len(code.generator) + list(coefficients)
    for place in range(len(coefficients)):
        factor = rest[place]
        if factor:
            for i, coefficient in enumerate(divisor):
                rest[place + i] ^= PRODUCTS[factor][coefficient]
    return rest[len(coefficients):]


def text_polynomial(hrp, elements):
    """1, the high bits of the part's characters, 0, their low bits, and the elements (BIP-173)."""
    lower = hrp.lower().encode()
    return [1] + [byte >> 5 for byte in lower] + [0] + [byte & 31 for byte in lower] + elements


def leaves_target(code, hrp, elements):
    return remainder(code, text_polynomial(hrp, elements)) == code.target


def checksum(code, hrp, elements):
    """The one list of elements that, put behind these, makes the polynomial leave the target."""
    room = [0] * len(code.generator)
    rest = remainder(code, text_polynomial(hrp, elements + room))
    found = [a ^ b for a, b in zip(rest, code.target)]
    assert leaves_target(code, hrp, elements + found)
    return found


# --- bits (BIP-173, Segwit address format) ---

def bits_of(values, size):
    return [value >> bit & 1 for value in values for bit in range(size - 1, -1, -1)]


def cut(bits, size):
    """Numbers of this many bits each; a last part that is shorter is left over."""
    whole = len(bits) // size * size
    numbers = [int("".join(map(str, bits[i:i + size])), 2) for i in range(0, whole, size)]
    return numbers, bits[whole:]


def to_elements(data):
    """Bytes as elements, zeros added at the end."""
    bits = bits_of(data, 8)
    return cut(bits + [0] * (-len(bits) % 5), 5)[0]


def to_bytes(elements):
    """Elements as bytes, and the bits that are left over."""
    numbers, left = cut(bits_of(elements, 5), 8)
    return bytes(numbers), left


# --- texts (BIP-173, Bech32) ---

def is_upper(character):
    return "A" <= character <= "Z"


def is_lower(character):
    return "a" <= character <= "z"


def has_both_cases(text):
    return any(map(is_upper, text)) and any(map(is_lower, text))


def test_hrp(hrp):
    """Refuses what is no human-readable part, by its first fault."""
    if hrp == "":
        raise Refusal(11)
    if len(hrp.encode()) > MAX_PART:
        raise Refusal(12)
    for place, character in enumerate(hrp):
        if ord(character) > 127:
            raise Refusal(13)
        if not 33 <= ord(character) <= 126:
            raise Refusal(14)
        if has_both_cases(hrp[:place + 1]):
            raise Refusal(15)


def parts(text):
    """The human-readable part and the elements behind the last `1`, or the text's first fault."""
    others = [character for character in text if character not in VALUE]
    if others and others[-1] != "1":
        raise Refusal(21)
    if has_both_cases(text):
        raise Refusal(22)
    if not others:
        raise Refusal(23)
    hrp, data = text.rsplit("1", 1)
    test_hrp(hrp)
    return hrp, [VALUE[character] for character in data]


def test_checksum(code, text):
    """Refuses a text of the grammar that a checksum does not accept."""
    hrp, elements = parts(text)
    if len(text) > code.length:
        raise Refusal(31)
    if len(elements) < len(code.generator):
        raise Refusal(32)
    if not leaves_target(code, hrp, elements):
        raise Refusal(33)


def spelled(hrp, elements):
    return hrp.lower() + "1" + "".join(ALPHABET[element] for element in elements)


def encoded(code, hrp, elements):
    return spelled(hrp, elements + checksum(code, hrp, elements))


def encode(code, hrp, data):
    text = encoded(code, hrp, to_elements(data))
    if len(text) > code.length:
        raise Refusal(51)
    return text


def decode(text):
    """The human-readable part and the bytes of a text that Bech32m or Bech32 accepts."""
    hrp, elements = parts(text)
    try:
        test_checksum(BECH32, text)
    except Refusal:
        test_checksum(BECH32M, text)
    return hrp, to_bytes(elements[:-6])[0]


def test_padding(padding):
    """Refuses the bits that elements leave over behind their bytes, if they are more than four or not all zero."""
    if len(padding) > 4:
        raise Refusal(44)
    if any(padding):
        raise Refusal(45)


def decode_elements(code, text):
    """The human-readable part and the elements of a text that a checksum accepts."""
    hrp, elements = parts(text)
    test_checksum(code, text)
    return hrp, elements[:len(elements) - len(code.generator)]


def decode_strict(code, text):
    """The human-readable part and the bytes of a text that a checksum accepts and that is the only one of them."""
    hrp, elements = decode_elements(code, text)
    data, padding = to_bytes(elements)
    test_padding(padding)
    return hrp, data


def encode_elements(code, hrp, values):
    text_length = len(hrp) + 1 + len(values) + len(code.generator)
    if text_length > code.length:
        raise Refusal(51)
    if any(value > 31 for value in values):
        raise Refusal(67)
    return encoded(code, hrp, list(values))


# --- segwit addresses (BIP-173, BIP-350) ---

def segwit_code(version):
    return BECH32 if version == 0 else BECH32M


def test_program(version, length):
    if length < MIN_PROGRAM:
        raise Refusal(46)
    if length > MAX_PROGRAM:
        raise Refusal(47)
    if version == 0 and length not in PROGRAMS_OF_VERSION_0:
        raise Refusal(48)


def segwit_encode(hrp, version, program):
    if version > MAX_VERSION:
        raise Refusal(52)
    test_program(version, len(program))
    text = encoded(segwit_code(version), hrp, [version] + to_elements(program))
    if len(text) > MAX_ADDRESS:
        raise Refusal(53)
    return text


def segwit_decode(text):
    if len(text.encode()) > MAX_ADDRESS:
        raise Refusal(41)
    hrp, elements = parts(text)
    if not elements:
        raise Refusal(42)
    version = elements[0]
    if version > MAX_VERSION:
        raise Refusal(43)
    test_checksum(segwit_code(version), text)
    if not elements[:-6]:
        raise Refusal(42)
    program, padding = to_bytes(elements[1:-6])
    test_padding(padding)
    test_program(version, len(program))
    return hrp, version, program


# --- corrections ---

# More patterns than these are not tried.
PATTERNS = 40_000_000


class TooMany(Exception):
    """There are too many patterns to try."""


def times(value, coefficients):
    return tuple(PRODUCTS[value][coefficient] for coefficient in coefficients)


def added(a, b):
    return tuple(x ^ y for x, y in zip(a, b))


_terms, _singles = {}, {}


def term(code, location):
    """The remainder of x to the power of a location."""
    key = (tuple(code.generator), location)
    if key not in _terms:
        _terms[key] = remainder(code, [1] + [0] * location)
    return _terms[key]


def singles(code, window):
    """Each pattern of one element, below the window at least, by its remainder."""
    locations, found = _singles.setdefault(tuple(code.generator), ([], {}))
    for location in range(len(locations), window):
        locations.append(location)
        for value in range(1, 32):
            found[times(value, term(code, location))] = (location, value)
    assert len(found) == 31 * len(locations), "two patterns of one element leave the same"
    return found


def errors_with(code, rest, count, window, taken):
    """Each pattern of this many elements, below the window and outside what is taken, that leaves
    this remainder. The last element is found among all patterns of one."""
    if count == 0:
        if not any(rest):
            yield {}
        return
    if count == 1:
        location, value = singles(code, window).get(rest, (window, 0))
        if location < window and location not in taken:
            yield {location: value}
        return
    for remains, (location, value) in singles(code, window).items():
        if location < window and location not in taken:
            # The locations fall, so that each pattern comes once.
            higher = set(range(location, window)) | set(taken)
            for others in errors_with(code, added(rest, remains), count - 1, window, higher):
                yield {location: value, **others}


def solutions(code, residue, erasures, window):
    """Each pattern below the window with this remainder for which twice its errors outside the
    erasures, with the erasures, are at most the bound."""
    most = (code.bound - len(erasures)) // 2
    if most < 0:
        return
    if 32 ** len(erasures) * max(1, 31 * window) ** max(0, most - 1) > PATTERNS:
        raise TooMany
    of_erasures = [[(location, value, times(value, term(code, location))) for value in range(32)]
                   for location in erasures]
    for chosen in choices(*of_erasures):
        rest = tuple(residue)
        for _, _, remains in chosen:
            rest = added(rest, remains)
        known = {location: value for location, value, _ in chosen if value}
        for count in range(most + 1):
            for errors in errors_with(code, rest, count, window, erasures):
                yield {**known, **errors}


def listing(code, residue, erasures, window):
    """The one pattern that solves, or None: the erasures in their order, 0 where nothing is wrong,
    then the errors, location 0 first and the others falling."""
    found = list(solutions(code, residue, erasures, window))
    assert len(found) <= 1, "two patterns solve"
    if not found:
        return None
    pattern = found[0]
    errors = [location for location in pattern if location not in erasures]
    errors.sort(key=lambda location: (location != 0, -location))
    return [(location, pattern.get(location, 0)) for location in erasures + errors]


def residue_of(code, text):
    hrp, elements = parts(text)
    return added(remainder(code, text_polynomial(hrp, elements)), code.target)


def correct(code, text, locations):
    """None where the text is accepted, else the listing and the mended text, or no listing."""
    try:
        test_checksum(code, text)
        return None
    except Refusal as refusal:
        if refusal.number != 33:
            raise
    hrp, elements = parts(text)
    erasures = list(dict.fromkeys(locations))
    if any(location >= len(elements) for location in erasures):
        return [], None
    found = listing(code, residue_of(code, text), erasures, len(elements))
    if found is None:
        return [], None
    for location, value in found:
        elements[len(elements) - 1 - location] ^= value
    mended = spelled(hrp, elements)
    test_checksum(code, mended)
    return found, mended


# --- the lines of b32 ---

LONGEST_LINE = 4096


def number(word, most):
    """A number in decimal without leading zeros."""
    if not word or any(digit not in "0123456789" for digit in word) or (word[0] == "0" and word != "0"):
        raise Refusal(4)
    if len(word) > 4 or int(word) > most:
        raise Refusal(4)
    return int(word)


def bytes_of(word):
    if word == "-":
        return b""
    if len(word) % 2 or any(digit not in "0123456789abcdefABCDEF" for digit in word):
        raise Refusal(5)
    return bytes.fromhex(word)


def word_of(data):
    return data.hex() or "-"


def words_of(line, most):
    """The words of a line, which may have so many bytes, or its refusal."""
    if len(line) > most:
        raise Refusal(1)
    try:
        words = line.decode("utf-8").split(" ")
    except UnicodeDecodeError:
        raise Refusal(2) from None
    if "" in words:
        raise Refusal(3)
    return words


def by_checksum(codes, name, arguments):
    """The answer to a command that names one of these checksums, or nothing."""
    if not arguments or arguments[0] not in codes:
        return None
    code, arguments = codes[arguments[0]], arguments[1:]
    if name == "encode" and len(arguments) == 2:
        data = bytes_of(arguments[1])
        test_hrp(arguments[0])
        return "ok " + encode(code, arguments[0], data)
    if name == "decode-strict" and len(arguments) == 1:
        hrp, data = decode_strict(code, arguments[0])
        return f"ok {hrp.lower()} {word_of(data)}"
    if name == "encode-elements" and len(arguments) == 2:
        values = bytes_of(arguments[1])
        test_hrp(arguments[0])
        return "ok " + encode_elements(code, arguments[0], values)
    if name == "decode-elements" and len(arguments) == 1:
        hrp, values = decode_elements(code, arguments[0])
        return f"ok {hrp.lower()} {word_of(bytes(values))}"
    return None


def by_liquid(name, arguments):
    """The answer to a command of confidential addresses, or nothing."""
    import liquid  # which stands on this module
    if name == "liquid-encode" and len(arguments) == 4:
        version, key = number(arguments[1], 31), bytes_of(arguments[2])
        if len(key) != 33:
            raise Refusal(5)
        program = bytes_of(arguments[3])
        test_hrp(arguments[0])
        return "ok " + liquid.encode(arguments[0], version, key, program)
    if name == "liquid-decode" and len(arguments) == 1:
        hrp, version, key, program = liquid.decode(arguments[0])
        return f"ok {hrp.lower()} {version} {word_of(key)} {word_of(program)}"
    return None


def answer(line, most):
    name, *arguments = words_of(line, most)
    said = by_checksum(ALL_CODES, name, arguments)
    if said is None:
        said = by_liquid(name, arguments)
    if said is not None:
        return said
    if name == "decode" and len(arguments) == 1:
        hrp, data = decode(arguments[0])
        return f"ok {hrp.lower()} {word_of(data)}"
    if name == "segwit-encode" and len(arguments) == 3:
        version, program = number(arguments[1], 31), bytes_of(arguments[2])
        test_hrp(arguments[0])
        return "ok " + segwit_encode(arguments[0], version, program)
    if name == "segwit-decode" and len(arguments) == 1:
        hrp, version, program = segwit_decode(arguments[0])
        return f"ok {hrp.lower()} {version} {word_of(program)}"
    if name == "correct" and len(arguments) in (2, 3) and arguments[0] in CODES:
        words = arguments[2].split(",") if len(arguments) == 3 else []
        locations = [number(word, 1022) for word in words]
        corrected = correct(CODES[arguments[0]], arguments[1], locations)
        if corrected is None:
            return "fine"
        found, mended = corrected
        if mended is None:
            return "none"
        items = [f"{location}:{ALPHABET[value]}" for location, value in found]
        return " ".join(["ok"] + items + [mended])
    raise Refusal(3)


def reply(line, most=LONGEST_LINE):
    """What b32 prints for a line, given as bytes without its end, where a line may have so many bytes."""
    try:
        return answer(line, most)
    except Refusal as refusal:
        return f"err {refusal.number}"
