"""Makes the rows of layer_rows on the layers below the readers and on these: fields, polynomials, registers, packed rows,
human-readable parts, groups of bits, encoders, engines, readers of texts and of addresses, and what refusals say.

    layers.py rows          prints the rows
    layers.py replies       prints what they give

Written from the definitions alone, over model.py: an extension field is polynomials over the field of 32 elements, an inverse
and an order are found by trying all powers, a register by elimination, roots by trying. What refusals say, and the constants of
fields and checksums, were copied from the Rust crate bech32 0.12.0, and from BIP-93 and BIP-380.
"""
import sys

import model
from model import ALPHABET, BECH32, BECH32M, CODEX32, PRODUCTS, Code, Refusal

LETTER = ALPHABET


def chars(elements):
    return "".join(LETTER[x] for x in elements)


def elements_of(text):
    return [ALPHABET.index(c) for c in text.lower()]


# --- fields ---

class Extension:
    """Polynomials over GF(32), the constant coefficient first, with a power of z replaced."""

    def __init__(self, name, degree, power, generator):
        self.name, self.degree, self.power = name, degree, power
        self.generator = self.of(generator)
        self.zero, self.one = (0,) * degree, (1,) + (0,) * (degree - 1)
        self.order = 32 ** degree - 1
        self.characteristic = 2

    def of(self, text):
        return tuple(elements_of(text))

    def list_of(self, text):
        whole = [ALPHABET.index(c) for c in text.lower() if c in ALPHABET]
        return [tuple(whole[i:i + self.degree]) for i in range(0, len(whole), self.degree)]

    def show(self, x):
        return chars(x)

    def add(self, x, y):
        return tuple(a ^ b for a, b in zip(x, y))

    def neg(self, x):
        return x

    def mul(self, x, y):
        whole = [0] * (2 * self.degree - 1)
        for i, a in enumerate(x):
            for j, b in enumerate(y):
                whole[i + j] ^= PRODUCTS[a][b]
        for place in range(len(whole) - 1, self.degree - 1, -1):
            for i, c in enumerate(self.power):
                whole[place - self.degree + i] ^= PRODUCTS[whole[place]][c]
        return tuple(whole[:self.degree])


class Integers:
    """The integers modulo 7."""

    name, zero, one, generator, order, characteristic = "Seven", 0, 1, 3, 6, 7

    def list_of(self, text):
        return [int(c) % 7 for c in text]

    def show(self, x):
        return str(x)

    def add(self, x, y):
        return (x + y) % 7

    def neg(self, x):
        return -x % 7

    def mul(self, x, y):
        return x * y % 7


FE32 = Extension("Fe32", 1, (1,), "z")
FE1024 = Extension("Fe1024", 2, (1, 1), "ph")
FE32768 = Extension("Fe32768", 3, (1, 1, 0), "acq")
SEVEN = Integers()
FIELDS = {field.name: field for field in (FE32, FE1024, FE32768, SEVEN)}


def power(field, x, n):
    """For n from 0 on, bit by bit."""
    total, base = field.one, x
    while n:
        if n & 1:
            total = field.mul(total, base)
        base, n = field.mul(base, base), n >> 1
    return total


def order(field, x):
    n, total = 1, x
    while total != field.one:
        n, total = n + 1, field.mul(total, x)
    return n


def inverse(field, x):
    return power(field, x, order(field, x) - 1)


def signed_power(field, x, n):
    return power(field, x, n) if n >= 0 else power(field, inverse(field, x), -n)


def multiple(field, x, n):
    total = field.zero
    for _ in range(abs(n) % field.characteristic):
        total = field.add(total, x)
    return field.neg(total) if n < 0 else total


def listed(field, items):
    return " ".join(map(field.show, items)) or "-"


def divisors(n):
    return [d for d in range(1, n + 1) if n % d == 0]


# --- polynomials: the constant coefficient first ---

def trimmed(field, p):
    while p and p[-1] == field.zero:
        p = p[:-1]
    return list(p)


def times(field, p, q):
    whole = [field.zero] * max(0, len(p) + len(q) - 1)
    for i, a in enumerate(p):
        for j, b in enumerate(q):
            whole[i + j] = field.add(whole[i + j], field.mul(a, b))
    return whole


def rest_of(field, p, low):
    """The remainder by the monic polynomial with these lower coefficients."""
    p = list(p) + [field.zero] * max(0, len(low) - len(p))
    while len(p) > len(low):
        top = p.pop()
        for i, c in enumerate(low):
            place = len(p) - len(low) + i
            p[place] = field.add(p[place], field.neg(field.mul(top, c)))
    return p


def value_at(field, p, x):
    total = field.zero
    for place, c in enumerate(p):
        total = field.add(total, field.mul(c, power(field, x, place)))
    return total


def embedded(p):
    return [(c, 0) for (c,) in p]


# --- registers ---

def solutions(field, rows, size):
    """The one solution of linear equations, each a list of coefficients and a value; None where there is none, and the
    string `many` where there are several."""
    rows, pivots = [list(row) for row in rows], []
    for column in range(size):
        found = next((i for i in range(len(pivots), len(rows)) if rows[i][column] != field.zero), None)
        if found is None:
            continue
        at = len(pivots)
        rows[at], rows[found] = rows[found], rows[at]
        scale = inverse(field, rows[at][column])
        rows[at] = [field.mul(scale, c) for c in rows[at]]
        for i, row in enumerate(rows):
            if i != at and row[column] != field.zero:
                factor = field.neg(row[column])
                rows[i] = [field.add(a, field.mul(factor, b)) for a, b in zip(row, rows[at])]
        pivots.append(column)
    if any(row[size] != field.zero for row in rows[len(pivots):]):
        return None
    return [rows[i][size] for i in range(size)] if len(pivots) == size else "many"


def register(field, items):
    """The length of a shortest register, and its coefficients where there is only one."""
    for size in range(len(items) + 1):
        rows = [[field.neg(items[n - 1 - i]) for i in range(size)] + [items[n]] for n in range(size, len(items))]
        found = solutions(field, rows, size)
        if found is not None:
            return size, found if 2 * size <= len(items) else None
    raise AssertionError


def going_on(field, coefficients, items, count):
    items = list(items)
    while len(items) < count:
        total = field.zero
        for i, c in enumerate(coefficients):
            total = field.add(total, field.mul(c, items[-1 - i]))
        items.append(field.neg(total))
    return items[:count]


# --- checksums ---

DESCRIPTOR = Code([30, 23, 15, 14, 10, 6, 12, 9], [0, 0, 0, 0, 0, 0, 0, 1], 32767, 3)
NONE = Code([], [], 2 ** 64 - 1, 0)
CODES = {"Bech32": BECH32, "Bech32m": BECH32M, "Codex32": CODEX32, "Descriptor": DESCRIPTOR, "NoChecksum": NONE}
# The field, the base, the exponents of the first and the last root, and how many elements the packed words hold.
ROOTS = {"Bech32": (FE1024, "px", 24, 26, 6), "Bech32m": (FE1024, "px", 24, 26, 6), "Codex32": (FE1024, "99", 9, 16, 25),
         "Descriptor": (FE32768, "tg0", 1056, 1058, 12), "NoChecksum": (FE32, "p", 0, 0, 0)}


def packed_row(width, coefficients):
    """The characters of a packed row, the constant coefficient first; the coefficients come highest first."""
    low = list(reversed(coefficients))
    return chars(low + [0] * (width - len(low)))


def remainder(code, coefficients):
    return model.remainder(code, coefficients) if code.generator else []


# --- what is refused, and what is said of it ---

def hrp_fault(hrp):
    try:
        model.test_hrp(hrp)
        return None
    except Refusal as refusal:
        number = refusal.number
    bad = next((c for i, c in enumerate(hrp) if ord(c) > 127 or not 33 <= ord(c) <= 126 or model.has_both_cases(hrp[:i + 1])), "")
    return {11: "hrp is empty, must have at least 1 character",
            12: f"hrp is too long, found {len(hrp.encode())} characters, must be <= 83",
            13: f"found non-ASCII character: {bad}", 14: f"byte value is not valid US-ASCII: '{ord(bad or ' '):x}'",
            15: "hrp cannot mix upper and lower case"}[number]


def grammar(text):
    """The parts of a text, the second as characters, or a refusal."""
    try:
        hrp, _ = model.parts(text)
        return (hrp, text[len(hrp) + 1:]), None
    except Refusal as refusal:
        number = refusal.number
    if number == 21:
        return None, f"character error: invalid character (code={[c for c in text if c not in model.VALUE][-1]})"
    if number == 22:
        return None, "character error: mixed-case strings not allowed"
    if number == 23:
        return None, 'character error: missing human-readable separator, "1"'
    return None, f"invalid human-readable part: {hrp_fault(text.rsplit('1', 1)[0])}"


def residue_text(coefficients):
    """The constant coefficient first, up to the highest that is not zero."""
    low = trimmed_numbers(list(reversed(coefficients)))
    return chars(low or [0])


def trimmed_numbers(p):
    while p and p[-1] == 0:
        p = p[:-1]
    return p


def checksum_fault(code, length, hrp, data):
    """What a checksum says of a text of this length with these parts."""
    if length > code.length:
        return f"string exceeds maximum allowed length: encoded length {length} exceeds maximum (code length) {code.length}"
    if len(data) < len(code.generator):
        return "the checksummed string is not a valid length"
    rest = remainder(code, model.text_polynomial(hrp, elements_of(data)))
    if code.generator and rest != code.target:
        return f"checksum failed: residue {residue_text(rest)} did not match target {residue_text(code.target)}"
    return None


NO_DATA = "no data found after removing the checksum"


def version_fault(version):
    return f"invalid segwit witness version: {version} (bech32 character: '{LETTER[version]}')" if version > model.MAX_VERSION else None


def padding_fault(elements):
    padding = model.to_bytes(elements)[1]
    if len(padding) > 4:
        return "the data payload has too many bits of padding"
    return "the data payload is padded with non-zero bits" if any(padding) else None


def length_fault(version, length):
    try:
        model.test_program(version, length)
        return None
    except Refusal as refusal:
        return {46: "witness program is less than 2 bytes long", 47: "witness program is more than 40 bytes long",
                48: "the segwit v0 witness is not 20 or 32 bytes long"}[refusal.number]


def address_rules(length, data):
    """What the rules of addresses say of the data before the checksum, and the version and program."""
    elements = elements_of(data)
    if not elements:
        return None, NO_DATA
    if length > model.MAX_ADDRESS:
        return None, f"encoded length {length} exceeds spec limit {model.MAX_ADDRESS} chars"
    version, rest = elements[0], elements[1:]
    program = model.to_bytes(rest)[0]
    if version_fault(version):
        return None, version_fault(version)
    if padding_fault(rest):
        return None, f"invalid padding on the witness data: {padding_fault(rest)}"
    if length_fault(version, len(program)):
        return None, f"invalid witness length: {length_fault(version, len(program))}"
    return (version, program, data[1:]), None


def address_text(hrp, found):
    version, program, data = found
    return f"{hrp}|{LETTER[version]}|{program.hex() or '-'}|{data}|{str(hrp.lower() in ('bc', 'tb')).lower()}"


def address(text, old):
    length = len(text.encode())
    if not old and length > model.MAX_ADDRESS:
        return f"encoded length {length} exceeds spec limit {model.MAX_ADDRESS} chars"
    found, fault = grammar(text)
    if fault:
        return f"parsing unchecked hrpstring failed: {fault}"
    hrp, data = found
    if not data:
        return NO_DATA
    version = ALPHABET.index(data[0].lower())
    if version_fault(version):
        return version_fault(version)
    code = BECH32 if old or version == 0 else BECH32M
    fault = checksum_fault(code, length, hrp, data)
    if fault:
        return f"invalid checksum: {fault}"
    found, fault = address_rules(length, data[:len(data) - 6])
    return fault or address_text(hrp, found)


# --- turns ---

def turns(items, total, count, start=0):
    """What an iterator over items says is left, and gives, in turns."""
    said = []
    for turn in range(start, start + count):
        said.append(f"{max(0, total - turn)}:{items[turn] if turn < len(items) else '-'}")
    return " ".join(said)


def whole_turns(items, count, start=0):
    return turns(items, len(items), count, start)


# --- replies ---

def integer(kind, text):
    value = int(text)
    if kind == "low":
        return LETTER[value & 31]
    if not 0 <= value < 256:
        return "tried to interpret an integer as a GF32 element but it is not a byte: out of range integral type conversion attempted"
    return LETTER[value] if value < 32 else f"tried to interpret a byte as a GF32 element but it is not below 32: {value}"


def printed(x):
    return f"{LETTER[x]}|  {LETTER[x]}|Fe32 {{ value: {x} }}|{x}"


def character(c):
    if ord(c) > 127:
        return f"tried to interpret a character as a GF32 element but it is not ASCII: {c}"
    if c not in model.VALUE:
        return f"tried to interpret a character as a GF32 element but it is not of the alphabet: {c}"
    return printed(model.VALUE[c])


def rust_code(x):
    one = [f"Fe32::{'_' if LETTER[a].isdigit() else ''}{LETTER[a].upper()}" for a in x]
    return one[0] if len(x) == 1 else f"Fe32Ext {{ inner: [{', '.join(one)}] }}"


def by_field(word, field, words):
    x = field.list_of(words[0])[0]
    if word == "multiple":
        return field.show(multiple(field, x, int(words[1])))
    if word == "power":
        return field.show(signed_power(field, x, int(words[1])))
    if word == "order":
        return "none" if x == field.zero else f"{field.show(inverse(field, x))}|{order(field, x)}"
    if word == "powers":
        at, items = 0, []
        for place in words[1].split(" "):
            at += 0 if place == "next" else int(place)
            items.append(power(field, x, at))
            at += 1
        return listed(field, items)
    if word == "range":
        start, end, asked = map(int, words[1:])
        return listed(field, [power(field, x, start + i) for i in range(min(asked, end - start + 1))])
    if word == "constants":
        z = field.of("qp" + "q" * (field.degree - 2)) if field.degree > 1 else field.one
        assert order(field, field.generator) == field.order
        elements = [field.zero, field.zero, field.one, field.generator, power(field, z, field.degree), z]
        numbers = " ".join(map(str, divisors(field.order)))
        return f"{field.name}|{listed(field, elements)}|2 {field.order} {field.degree}|{numbers}|{numbers}"
    if word == "code":
        debugged = f"Fe32 {{ value: {x[0]} }}" if field is FE32 else field.show(x)
        return f"{field.show(x)}|{debugged}|{rust_code(x)}"
    if word == "base":
        return "none" if any(x[1:]) else f"{LETTER[x[0]]}|{field.show(x)}"
    raise AssertionError(word)


def forms(field, words):
    x, y = field.list_of(words[0])
    total, product = field.add(x, y), field.mul(x, y)
    quotient = field.mul(x, inverse(field, y))
    said = [listed(field, [it] * 4) for it in (total, total, product, quotient)]
    others = [x, y]
    if field is not FE32:
        others += [field.mul(x, (ALPHABET.index(words[1]),) + (0,) * (field.degree - 1))] * 4
    return "|".join([*said, listed(field, [total, x, product, x, x]), listed(field, others)])


def polynomials(word, field, words):
    p, q = field.list_of(words[0]), field.list_of(words[1]) if len(words) > 1 and words[1] != "-" else []
    if words[0] == "-":
        p = []
    if word == "polynomial":
        kept = trimmed(field, p)
        leading = kept[-1] if kept else field.zero
        turned = trimmed(field, p[::-1])
        return f"{listed(field, kept)}|{listed(field, kept)}|{listed(field, turned)}|{max(0, len(kept) - 1)}|{field.show(leading)}"
    if word == "product":
        whole = times(field, p, q)
        return f"{listed(field, trimmed(field, whole))}|{listed(field, trimmed(field, whole[:int(words[2])]))}"
    rest = rest_of(field, p, q)
    return f"{listed(field, rest)}|{listed(field, trimmed(field, rest))}"


def begins(field, text, first, then):
    items = field.list_of(text)
    size, only = register(field, items)
    shown = listed(field, only) if only is not None else str(size)
    if only is None:
        assert first <= len(items) and then == 0, "not determined"
        return f"{shown}|{listed(field, items[:first])}|{shown}|-|-"
    going = going_on(field, only, items, first + then)
    after = listed(field, going[first:])
    return f"{shown}|{listed(field, going[:first])}|{shown}|{after}|{after}"


def roots(list_of, base, start, end):
    p, x = embedded(FE32.list_of(list_of)), FE1024.of(base)
    return " ".join(str(i) for i in range(start, end) if value_at(FE1024, p, power(FE1024, x, i)) == FE1024.zero) or "-"


def declared(name):
    code, (field, base, start, end, width) = CODES[name], ROOTS[name]
    base = field.of(base)
    monic = embed(field, [1] + code.generator)
    assert all(not code.generator or value_at(field, monic, power(field, base, i)) == field.zero for i in range(start, end + 1))
    words = [packed_row(width, [PRODUCTS[1 << i][c] for c in code.generator]) for i in range(5)]
    target = packed_row(width, code.target)
    return f"{field.show(base)} {order(field, base)}|{start} {end} true|{code.length} {len(code.generator)}|{' '.join([target, *words])}"


def embed(field, highest_first):
    return [(c,) + (0,) * (field.degree - 1) for c in reversed(highest_first)]


def part(text):
    fault = hrp_fault(text)
    if fault:
        return fault
    lower = text.lower()
    flags = [("s", ("bc", "tb")), ("m", ("bc",)), ("t", ("tb",)), ("g", ("tb",)), ("r", ("bcrt",))]
    networks = "".join(letter if lower in names else "-" for letter, names in flags)
    return f"{text}|{text * 3}|{text}|{len(text)}|{lower}|{networks}"


def kept(text):
    shown = "".join(chr(byte) if 33 <= byte <= 126 else "X" for byte in text.encode())
    return f"{shown}|{len(shown)}"


def compared(a, b):
    a, b = a.lower(), b.lower()
    same = str(a == b).lower()
    return f"{same} {same} {'<' if a < b else '=' if a == b else '>'} {str(a < b).lower()}"


def sides(text, which):
    rest, said = list(text), ""
    for side in which:
        left = " ".join([str(len(rest))] * 8)
        item = "none"
        if rest:
            c = rest.pop() if side == "b" else rest.pop(0)
            item = f"{ord(c):x} {c} {ord(c.lower()):x} {c.lower()}"
        said += f"|{left} {item}"
    return said


def pieces(words):
    joined = ["".join(words[:i]) for i in range(len(words) + 1)]
    said = [hrp_fault(text) or text for text in joined]
    return "|".join([said[0], *(it for text in said[1:] for it in (text, text)), said[-1]])


def to_elements(data):
    items = [LETTER[x] for x in model.to_elements(data)]
    count = min(60, 2 * len(data))
    after = whole_turns(items, count, 1)
    return f"{len(items)} {whole_turns(items, 1)}|{after}|{after}"


def filled(elements):
    data, left = model.to_bytes(elements)
    if left:
        data += bytes([int("".join(map(str, left)).ljust(8, "0"), 2)])
    return data


def to_bytes(text):
    elements = elements_of(text)
    said = []
    for data in (model.to_bytes(elements)[0], filled(elements)):
        after = whole_turns(list(data), min(60, len(elements)), 1)
        said.append(f"{len(data)} {whole_turns(list(data), 1)}|{after}|{after}")
    return "|".join(said)


def plain(data):
    elements = model.to_elements(data)
    back = filled(elements)
    return f"{' '.join(chars(elements)) or '-'}|{data.hex() or '-'}|{data.hex() or '-'}|{back.hex() or '-'}"


WIDTHS = {"u32": 6, "u64": 12, "u128": 25, "null": 0}


def packed(kind, a, b):
    width = WIDTHS[kind]
    a, b = ([int(word) for word in words.split()][:width] for words in (a, b))
    low = [list(reversed(row)) + [0] * (width - len(row)) for row in (a, b)]
    return "|".join([str(width), *map(chars, low), chars(x ^ y for x, y in zip(*low))])


def moved(kind, values, degree, add):
    if kind == "null":
        return "0|0|true"
    width, values = WIDTHS[kind], [int(word) for word in values.split()]
    row = ([0] * degree + values)[-degree:]
    return f"{row[0]}|{packed_row(width, row[1:] + [add])}"


def fine(fault):
    return fault or "fine"


def shown_version(data):
    return data[0].lower() if data and ALPHABET.index(data[0].lower()) <= model.MAX_VERSION else "-"


def read(text):
    found, fault = grammar(text)
    if fault:
        return fault
    hrp, data = found
    version = shown_version(data)
    return f"{hrp}|{data}|{version}|{version}|{data if version == '-' else data[1:]}"


def checked(name, text):
    code = CODES[name]
    found, fault = grammar(text)
    if fault:
        return f"parse failed: {fault}"
    hrp, data = found
    fault = checksum_fault(code, len(text), hrp, data)
    if fault:
        return f"invalid checksum: {fault}"
    data = data[:len(data) - len(code.generator)]
    elements = elements_of(data)
    program = model.to_bytes(elements)[0]
    version = shown_version(data)
    count = len(elements) + 2
    items = f"{whole_turns([LETTER[x] for x in elements], count)}|{whole_turns(list(program), count)}"
    rules = "|".join(fine(it) for it in (padding_fault(elements), length_fault(0, len(program)), length_fault(1, len(program))))
    parts, fault = address_rules(len(text), data)
    rest = data if version == "-" else data[1:]
    return f"{hrp}|{version}|{rest}|{items}|{rules}|{fault or address_text(hrp, parts)}"


def taken_off(name, length, hrp, data):
    code = CODES[name]
    fault = checksum_fault(code, length, hrp, data)
    return f"false|{fault}" if fault else f"true|{hrp}|{data[:len(data) - len(code.generator)]}"


def shortened(name, text):
    (hrp, data), _ = grammar(text)
    return taken_off(name, len(text), hrp, data if shown_version(data) == "-" else data[1:])


def untested(name, text):
    (hrp, data), _ = grammar(text)
    said, size = taken_off(name, len(text), hrp, data), len(CODES[name].generator)
    return said if len(data) < size else f"{said}|{data[:len(data) - size]}"


def residues(first, a, second, b):
    rests = []
    for name, text in ((first, a), (second, b)):
        (hrp, data), _ = grammar(text)
        rests.append((remainder(CODES[name], model.text_polynomial(hrp, elements_of(data))), CODES[name].target))
    return str(rests[0] == rests[1]).lower()


def program(length):
    said = [f"{LETTER[v]} {str(length_fault(v, length) is None).lower()}|{fine(length_fault(v, length))}" for v in (0, 1)]
    return "|".join([*said, str(model.MAX_ADDRESS)])


def version(x):
    return f"{str(x <= model.MAX_VERSION).lower()}|{fine(version_fault(x))}"


def checksum_behind(code, coefficients):
    """The elements that make the polynomial of these coefficients leave the target."""
    if not code.generator:
        return []
    rest = remainder(code, coefficients + [0] * len(code.generator))
    return [a ^ b for a, b in zip(rest, code.target)]


def encoder(name, hrp, front, text, count):
    code, lower = CODES[name], hrp.lower()
    part_elements = model.text_polynomial(hrp, [])[1:]
    data = elements_of(front.strip("-") + text.strip("-"))
    whole = data + checksum_behind(code, [1] + part_elements + data)
    of_part = [LETTER[x] for x in part_elements]
    behind = [LETTER[x] for x in data]
    spelled = lower + "1" + chars(whole)
    elements = of_part + [LETTER[x] for x in whole]
    alone = elements_of(text.strip("-"))
    summed = [LETTER[x] for x in alone + checksum_behind(code, [1] + alone)]
    half = count // 2
    after = whole_turns(summed, count, half)
    return "|".join([whole_turns(of_part, count), whole_turns(behind, count), whole_turns(elements, count),
                     whole_turns(spelled, count), whole_turns(list(spelled.encode()), count),
                     whole_turns(summed, half), after, after])


def put(name, hrp, front, text, room):
    data = elements_of(front.strip("-") + text.strip("-"))
    whole = data + checksum_behind(CODES[name], model.text_polynomial(hrp, data))
    spelled = hrp.lower() + "1" + chars(whole)
    return f"{min(room, len(spelled))} {(spelled + '-' * room)[:room]}"


def engine(name, hrp, text):
    code, width = CODES[name], ROOTS[name][4]
    taken = [1] + (model.text_polynomial(hrp, [])[1:] if hrp != "" else []) + elements_of(text.strip("-"))
    before = remainder(code, taken)
    behind = remainder(code, taken + code.target)
    new = remainder(code, [1])
    said = [f"{packed_row(width, rest)} {str(rest == new).lower()} true" for rest in (before, behind)]
    return "|".join(said)


SENTENCES = {
    "Fmt": "formatting failed|Fmt",
    "Degree": "the generator has degree 1|Degree",
    "NotSplit": "the generator has fewer different roots in the field than its degree|NotSplit",
    "NotPowers": "the first root of the longest series is no power of the base|NotPowers",
    "Memory": "out of memory|Memory",
    "NoMemory": "out of memory|Memory",
    "CodeLength": f"encoded length 91 exceeds maximum (code length) 1023|encoded length 91 exceeds maximum (code length) {model.MAX_ADDRESS}",
}


def block(field, generator, target, base, start, end, longest):
    """The block of a generator of degree 2 or 8, the highest coefficient first, given its roots."""
    low, degree = elements_of(generator), len(generator)
    bits, digits = ("u32", 8) if degree <= 6 else ("u64", 16)
    rows = [sum(PRODUCTS[1 << i][c] << 5 * (degree - 1 - n) for n, c in enumerate(low)) for i in range(5)]
    of_target = sum(c << 5 * (degree - 1 - n) for n, c in enumerate(elements_of(target)))
    return "\n".join([
        f"// Code block generated by Checksum::print_impl polynomial {generator[::-1]}p target {target}", "impl Checksum for T {",
        f"    type MidstateRepr = {bits}; // checksum packs into {5 * degree} bits", "",
        f"    type CorrectionField = {field.name};", f"    const ROOT_GENERATOR: Self::CorrectionField = {rust_code(field.of(base))};",
        f"    const ROOT_EXPONENTS_START: usize = {start};", f"    const ROOT_EXPONENTS_END: usize = {end};", "",
        f"    const CODE_LENGTH: usize = {longest};", f"    const CHECKSUM_LENGTH: usize = {degree};",
        f"    const GENERATOR_SH: [{bits}; 5] = [", *(f"        0x{row:0{digits}x}," for row in rows), "    ];",
        f"    const TARGET_RESIDUE: {bits} = 0x{of_target:0{digits}x};", "}"])


def reply(row):
    word, *words = row.split("|")
    if word in ("multiple", "power", "order", "powers", "range", "constants", "code", "base"):
        return by_field(word, FIELDS[words[0]], words[1:])
    if word in ("polynomial", "product", "remainder"):
        return polynomials(word, FIELDS[words[0]], words[1:])
    said = {
        "integer": lambda: integer(*words),
        "character": lambda: character(words[0]),
        "products": lambda: "|".join([chars(PRODUCTS[ALPHABET.index(words[0])])] * 2),
        "alphabet": lambda: f"{' '.join(ALPHABET)}|{' '.join(sorted(ALPHABET, key=lambda c: (c.isdigit(), c)))}",
        "forms": lambda: forms(FIELDS[words[0]], words[1:]),
        "vector": lambda: "|".join([str(len(words[0])), "false", *[" ".join(words[1] + words[0][1:])] * 2]) if words[0] else "0|true|-|-",
        "begins": lambda: begins(FIELDS[words[0]], words[1], int(words[2]), int(words[3])),
        "roots": lambda: roots(words[0], words[1], int(words[2]), int(words[3])),
        "value": lambda: FE1024.show(value_at(FE1024, embedded(FE32.list_of(words[0])), FE1024.of(words[1]))),
        "declared": lambda: declared(words[0]),
        "part": lambda: part(words[0]),
        "kept": lambda: kept(words[0]),
        "parts": lambda: "bc|tb|bcrt",
        "compared": lambda: compared(*words),
        "sides": lambda: sides(*words),
        "pieces": lambda: pieces(words),
        "message": lambda: SENTENCES[words[0]],
        "elements": lambda: to_elements(bytes.fromhex(words[0])),
        "bytes": lambda: to_bytes(words[0]),
        "regrouped": lambda: plain(bytes.fromhex(words[0])),
        "packed": lambda: packed(*words),
        "moved": lambda: moved(words[0], words[1], int(words[2]), int(words[3])),
        "version": lambda: version(ALPHABET.index(words[0])),
        "program": lambda: program(int(words[0])),
        "read": lambda: read(words[0]),
        "residues": lambda: residues(*words),
        "address": lambda: address(words[0], False),
        "older": lambda: address(words[0], True),
        "encoder": lambda: encoder(*words[:4], int(words[4])),
        "put": lambda: put(*words[:4], int(words[4])),
        "engine": lambda: engine(*words),
        "checked": lambda: checked(*words),
        "shortened": lambda: shortened(*words),
        "untested": lambda: untested(*words),
    }
    return said[word]()


# --- the rows ---

LEAST, GREATEST, MOST = -2 ** 63, 2 ** 63 - 1, 2 ** 64 - 1
BECH32_LOW, DESCRIPTOR_LOW, CODEX32_LOW = (chars(reversed(code.generator)) for code in (BECH32, DESCRIPTOR, CODEX32))
FORTY = chars(i % 32 for i in range(40))


def rows_of_fields():
    values = {"u8": (0, 31, 32, 255), "u16": (31, 255, 256), "u32": (31, 256), "u64": (31, MOST), "u128": (31, 2 ** 128 - 1),
              "i8": (31, 127, -1), "i16": (31, 256), "i32": (31, -1), "i64": (31, LEAST), "i128": (31, 32, -2 ** 127), "low": (0, 31, 32, 52, 255)}
    yield from (f"integer|{kind}|{value}" for kind, all_of in values.items() for value in all_of)
    yield from (f"character|{c}" for c in ALPHABET + ALPHABET.upper() + "bio1B \x7f\u00e9\x80\u0180\U0001f4a5")
    yield "alphabet"
    yield from (f"products|{c}" for c in ALPHABET)
    yield from (f"multiple|Fe32|z|{n}" for n in (-3, 0, LEAST, GREATEST))
    yield from (f"multiple|Seven|3|{n}" for n in (-2, 0, 5, LEAST, GREATEST))
    yield from (f"power|Fe32|{x}|{n}" for x, n in (("q", 31), ("q", 0), *(("z", n) for n in (-1, 0, 31, LEAST, GREATEST))))
    yield from (f"power|Seven|3|{n}" for n in (-1, -2, 6, LEAST, GREATEST))
    for field, x, exponents in ((FE1024, "kl", (3, 341)), (FE32768, "acq", (7, 341))):
        yield f"order|{field.name}|{x}"
        for n in exponents:
            yield f"power|{field.name}|{x}|{n}"
            yield f"order|{field.name}|{field.show(power(field, field.of(x), n))}"
    yield from (f"order|Fe32|{c}" for c in ALPHABET)
    yield from (f"order|Seven|{n}" for n in range(7))
    yield from (f"order|{name}|{x}" for name, x in (("Fe1024", "px"), ("Fe1024", "qq"), ("Fe32768", "qqq"), ("Fe32768", "qpq")))
    yield from (f"powers|{it}" for it in ("Fe32|z|next next", "Fe32|z|31 next 0", f"Fe32|z|{MOST}", "Fe32|q|0 2", f"Seven|3|{MOST}"))
    yield from (f"range|{it}" for it in ("Fe32|5|0|30|34", "Fe32|z|31|32|4", f"Fe32|z|{MOST}|{MOST}|1", "Fe1024|me|0|3|5", "Seven|2|0|1|3"))
    yield from ("constants|Fe32|q", "constants|Fe1024|qq", "constants|Fe32768|qqq")
    yield from (f"code|{it}" for it in ("Fe32|z", "Fe32|9", "Fe32|q", "Fe1024|px", "Fe32768|9ql"))
    yield from (f"base|{it}" for it in ("Fe32|c", "Fe1024|lq", "Fe1024|aq", "Fe1024|zq", "Fe1024|pp", "Fe32768|lqq", "Fe32768|zqq",
                                        "Fe32768|ppq", "Fe32768|pqp", "Fe32768|qpq"))
    yield from (f"forms|{it}" for it in ("Fe32|9x", "Fe32|x9", "Fe32|qx", "Fe32|5f", "Fe32|ll", "Fe32|sz", "Fe1024|mejc|a",
                                         "Fe32768|q34823|a"))


def rows_of_polynomials():
    yield from ("vector|pz|j", "vector||")
    yield from ("polynomial|Fe32|zqpqq", "polynomial|Fe32|qq", "polynomial|Fe32|-", "polynomial|Seven|12", "polynomial|Seven|0350")
    yield from (f"product|Seven|12|34|{end}" for end in (0, 1, 2, 3, 9))
    yield from (f"product|Fe32|{BECH32_LOW}p|9x8|{end}" for end in (4, 8, 20))
    yield from ("remainder|Seven|54321|65", "remainder|Seven|54321|3")
    low = BECH32_LOW
    yield from (f"remainder|Fe32|{it}" for it in (f"qqqqqqp|{low}", f"3p|{low}", "ace|-", f"-|{low}"))
    yield from (f"remainder|Fe32|{FORTY[::-1]}p|{low}" for low in (BECH32_LOW, DESCRIPTOR_LOW, CODEX32_LOW, "-"))
    yield from (f"roots|{BECH32_LOW}p|px|{it}" for it in ("0|1023", "25|800", "26|26"))
    yield from (f"value|{BECH32_LOW}p|{FE1024.show(power(FE1024, FE1024.of('px'), n))}" for n in (0, 1, 24, 800))
    yield from (f"begins|Fe32|{it}" for it in ("q|1|0", "qp|2|0", "qqp|3|0", "ppq|3|0", "ppqp|4|8", "j|1|0", "yhqq|2|8", "j62u|3|5"))
    yield from (f"begins|Seven|{it}" for it in ("13|7|3", "132|0|4", "132645|1|9"))
    yield from (f"declared|{name}" for name in CODES)


def rows_of_rows():
    yield "packed|u32|31 30 29 28 27 26|1 2 3"
    yield from ("packed|u64|1 2 31|3 2 1", "packed|u64|1 2 3 4 5 6 7 8 9 10 11 12|31")
    rising = " ".join(map(str, range(1, 26)))
    yield from (f"packed|u128|1 2 3 4|{rising}", "packed|null|1 2|3")
    yield from ("moved|u32|29 22 20 21 29 18|6|7", "moved|u32|1|1|31", "moved|u64|30 23 15 14 10 6 12 9|8|0",
                "moved|u64|1 2 3 4 5 6 7 8 9 10 11 12|12|31", "moved|u128|25 27 17 8 0 25 25 25 31 27 24 16 16|13|1",
                f"moved|u128|{rising}|25|31", "moved|null||3|200")


LONGEST_PARTS = ["an83characterlonghumanreadablepartthatcontainsthetheexcludedcharactersbioandnumber1"]
LONGEST_PARTS.append(LONGEST_PARTS[0].upper())


def rows_of_parts():
    yield from (f"part|{it}" for it in ("", "~ABC!1", "ABC", "AB", "bc", "BC", "tb", "TB", "bcrt", "b", "~A1[@", "a" * 84, "\u00e9" * 42,
                                        " " + "a" * 83, "a b", "a\x7fB", "aB", "Ab", "aB\u00e9", "\u00e9", "a\u00e9B", "A1b"))
    yield from (f"part|{text[:size]}" for text in LONGEST_PARTS for size in range(83, 0, -1))
    yield from (f"kept|{it}" for it in ("", "bc", "aB", "a b\x7fc", "\u00e9", "!\x01~", "~" * 83))
    yield "parts"
    yield from (f"compared|{a}|{b}" for a, b in (("A", "a"), ("a", "B"), ("B", "a"), ("B", "c"), ("bz", "c"), ("B", "bz"), ("bc", "BC"),
                                                 ("a", "aa"), ("[", "a"), ("Z", "[")))
    yield from ("sides|AB|bbb", "sides|AB|ffff", "sides||fb", "sides|bC1|fbfb")
    yield from (f"sides|A~Z|{''.join('fb'[bits >> turn & 1] for turn in range(6))}" for bits in range(64))
    yield from ("pieces", "pieces||ab", "pieces|AB||1|C~", "pieces||", "pieces|a|B", "pieces|A|1|b", "pieces|a| |B", "pieces|ab|\u00e9|B",
                "pieces|bc|RT")
    longest, accents = "a" * 83, "\u00e9" * 21
    yield from ("|".join(["pieces", *it]) for it in ((longest[1:], "a"), (longest + "a",), (longest, "a"), (" ", longest), (accents, accents),
                                                     (longest[1:], "\u00e9"), (longest + "a", longest + "a", "B")))
    yield from (f"pieces|{longest[:size]}" for size in range(83, 0, -1))
    yield from (f"message|{name}" for name in SENTENCES)


def rows_of_bits():
    lists = [bytes((37 * i + j) % 256 for j in range(i % 7)) for i in range(70)]
    yield from (f"elements|{it}" for it in ("", "ab", "abab", "abcd", "751e76e819", "ff" * 9))
    yield from (f"bytes|{it}" for it in ("", "l", "4v", "4vl", "l" * 9, "w508d6qe", "444", "q" * 16))
    yield from (f"regrouped|{data.hex()}" for data in lists)


PROGRAM = "w508d6qejxtdg4y5r3zarvary0c5xw7k"
OLD = "bc1qar0srrr7xfkvy5l643lydnw9re59gtzzwf5mdq"
P2TR = "0xlxvlhemja6c4dqv22uapctqupfhlxm9h8z3k2e72q4k9hcz7v"


def rows_of_encoders():
    yield from (f"encoder|{it}" for it in ("Bech32|a|-|-|12", "Bech32|ab|-|l|15", "Bech32|AB|q|lq|18", "Bech32m|a|p|44|14",
                                           "Bech32m|a|-|-|12", "Bech32|a|-|44|14", "NoChecksum|a|-|-|5", "NoChecksum|a|-|44|8",
                                           "Descriptor|a|-|lq|20", "Codex32|ms|-|44|24", f"Bech32|BC|q|{PROGRAM}|48", "Bech32|a|-|rqp|12"))
    yield from (f"put|Bech32|A|-|-|{room}" for room in range(12))
    yield from (f"put|Bech32|BC|q|{PROGRAM}|45", "put|Bech32m|a|p|44|12", "put|NoChecksum|a|-|44|5", "put|Codex32|ms|-|44|20",
                "put|Bech32|bc|q|44|9", "put|Bech32|bc|q|44|4")
    yield from (f"engine|{name}|{it}" for name in ("Bech32", "Bech32m") for it in ("|rqp", "A|-", "a|-", "|-", "|l", f"|{FORTY}"))
    yield from (f"engine|{name}|{it}" for name in ("Descriptor", "Codex32", "NoChecksum") for it in (f"|{FORTY}", "a|l", "|-"))


def changed_texts(name):
    """A text of 40 elements, and each with 1 added to one of these."""
    text = "a1" + FORTY + chars(checksum_behind(CODES[name], model.text_polynomial("a", elements_of(FORTY))))
    yield text
    for place in range(2, 42):
        yield text[:place] + LETTER[ALPHABET.index(text[place]) ^ 1] + text[place + 1:]


def rows_of_texts():
    yield from (f"read|{it}" for it in (
        "abcdef", "qpzry", "Q1q", "a1B", "", "a1\u00e9", "aB1qqqqqq", "A1q", "a1qqqqqb", "1qqqqqq", "1", "\u00e91qqqqqq", "a 1q", "a\x7f1q",
        "a" * 84 + "1", "a1", "11qqqqqq", "A1QPZR", "a" * 83 + "1", OLD, "a1sq", "a13qq", "a1lqq"))
    yield from (f"checked|NoChecksum|{it}" for it in ("a1", "a1qpz", "a1b", f"a1{ALPHABET}", f"A1{ALPHABET.upper()}"))
    yield from (f"checked|Bech32|{it}" for it in (OLD, "a1qpzre5gzdl", "a12uel5l", "a1b", "a1", f"a1{'q' * 1022}",
                                                  f"a13{'q' * 100}k8ljg5"))
    yield from (f"checked|Bech32m|{it}" for it in (
        "a13qqqq9qz88s", "a1lqfn3a", "a1qy52hkn", "a1qq43hjaz", "a1qpg8r8qs", "a1qqqcmw5yr", "a1qqqq726jfk", "a1qqqsttj2u9", "a1qqqgq777ht",
        "a1llllltkgalp", "a1qqqqqqyu9vm5", "a1lllllll9dmlf7", "a1yyyyyyyfsyl5s", "a1ggggggguzulx0", "a1llllllllm6su8m"))
    yield from (f"checked|{name}|{text}" for name in ("Descriptor", "Codex32") for text in changed_texts(name))
    yield from (f"shortened|Bech32|{it}" for it in (f"a1{'q' * 1022}", OLD, "a1qqqqq"))
    yield from (f"untested|{it}" for it in ("Bech32m|a1qpzryyy", f"Bech32|{OLD}", f"Bech32m|{OLD}", "Bech32|a1qpzr", "NoChecksum|a1qp"))
    yield from (f"residues|{it}" for it in ("Bech32m|a12uel57|Bech32m|A12UEL57", "Bech32m|a12uel57|Bech32|a12uel57",
                                            "Bech32m|a12uel57|Bech32m|a12uel5q", "Bech32|a12uel5q|Bech32|b12uel5q"))
    yield from (f"address|{it}" for it in (
        "BC1QW508D6QEJXTDG4Y5R3ZARVARY0C5XW7KV8F3T4", "tb1qrp33g0q5c5txsp9arysrx4k6zdkfs4nce4xj0gdcccefvpysxf3q0sl5k7",
        "bc1pw508d6qejxtdg4y5r3zarvary0c5xw7kw508d6qejxtdg4y5r3zarvary0c5xw7kt5nd6y", "BC1SW50QGDZ25J",
        "bc1zw508d6qejxtdg4y5r3zarvaryvaxxpcs", f"tc1p{P2TR}q5zuyut", OLD, "a12uel5l", f"bc1p{P2TR}qh2y7hd",
        f"BC1S{P2TR.upper()}Q54WELL", "bc1gmk9yu", "bc1qw508d6qejxtdg4y5r3zarvary0c5xw7kemeawh", "bc1pw5dgrnzv",
        f"bc1p{P2TR[:51]}8n0nx0muaewav253zgeav", "BC1QR508D6QEJXTDG4Y5R3ZARVARYV98GJ9P", f"bc1p{P2TR}07qwwzcrf", f"tb1p{P2TR}pggkg4j",
        "a1lqfn3a", "a13qqqq9qz88s", f"BC13{P2TR.upper()}Q7ZWS8R", "a1",
        "anhrpthatistwentycha1pqyqszqgpqyqszqgpqyqszqgpqyqszqgpqyqszqgpqyqszqgpqyqszqgpqyqszqgqfrwjz",
        "bc1p38j9r5y49hruaue7wxjce0updqjuyyx0kh56v8s25huc6995vvpql3jow4", f"tb1p{P2TR}q47Zagq"))
    yield from (f"older|{it}" for it in (
        "bc1pw508d6qejxtdg4y5r3zarvary0c5xw7kw508d6qejxtdg4y5r3zarvary0c5xw7k7grplx", "BC1SW50QGDZ25J", "a12uel5l", "a1", "a1lqfn3a",
        f"a1p{'q' * 100}lqe4dnl", "BC1QR508D6QEJXTDG4Y5R3ZARVARYV98GJ9P", OLD, "a1b"))
    yield from (f"version|{c}" for c in "qps3l")
    yield from (f"program|{length}" for length in (0, 1, 2, 19, 20, 21, 32, 40, 41))
    yield "block|Fe32|xg|qp"
    yield "block|Fe32768|7h0w2xvf|qqqqqqqp"


BLOCKS = {"block|Fe32|xg|qp": lambda: block(FE32, "xg", "qp", "z", 1, 2, 31),
          "block|Fe32768|7h0w2xvf|qqqqqqqp": lambda: block(FE32768, "7h0w2xvf", "qqqqqqqp", "tg0", 1056, 1058, 32767)}


def rows():
    for part_of in (rows_of_fields, rows_of_polynomials, rows_of_rows, rows_of_parts, rows_of_bits, rows_of_encoders, rows_of_texts):
        yield from part_of()


def main():
    what = sys.argv[1:]
    if what not in (["rows"], ["replies"]):
        sys.exit(__doc__)
    for row in rows():
        print(row if what == ["rows"] else BLOCKS[row]() if row in BLOCKS else reply(row))


if __name__ == "__main__":
    main()
