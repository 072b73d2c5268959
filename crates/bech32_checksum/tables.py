#!/usr/bin/env python3
"""Writes locations.rt, powers.rt and logarithms.rt of src/checksums/, whose tables belong to the generator
of BIP-173 and are no sums of a few words, as `rt fmt` lays them out. With --check it writes nothing, names
each file that differs, and ends with status 1 if one does.

The proofs do not trust this script: they compute each entry again.
"""
import pathlib
import sys

FOLDER = pathlib.Path(__file__).parent / "src" / "checksums"
# The generator's lower coefficients, packed, and their products with 2, 4, 8 and 16.
WORDS = [0x3B6A57B2, 0x26508E6D, 0x1EA119FA, 0x3D4233DD, 0x2A1462B3]
# Hashes the keys of the locations; found by trial. ones.rt has it too.
MULTIPLIER = 208833772613
# 1 + 6 z, whose powers 24 to 26 are roots of the generator.
BASE = 1 + 32 * 6


def product(a, b):
    """The product of two elements, whose values are polynomials modulo y^5 + y^3 + 1."""
    total = 0
    for bit in range(5):
        if b >> bit & 1:
            total ^= a << bit
    for bit in (3, 2, 1, 0):
        if total >> (bit + 5) & 1:
            total ^= 0b101001 << bit
    return total


def generator_times(element):
    """The generator's lower coefficients times an element, packed."""
    total = 0
    for bit in range(5):
        if element >> bit & 1:
            total ^= WORDS[bit]
    return total


def times_x(row):
    """A packed remainder times x."""
    return (row & 0x1FFFFFF) << 5 ^ generator_times(row >> 25)


def digits(row):
    return [row >> 5 * place & 31 for place in range(6)]


def packed(elements):
    return sum(element << 5 * place for place, element in enumerate(elements))


def powers():
    rows = [1]
    while len(rows) < 1023:
        rows.append(times_x(rows[-1]))
    return rows


INVERSES = [0] + [next(b for b in range(32) if product(a, b) == 1) for a in range(1, 32)]


def placed(keys):
    """For each slot the location whose key stands there, and by how much each bucket is moved. A slot
    goes by the five lowest elements of the key: these, too, are those of one location alone."""
    buckets = {}
    for location, key in enumerate(keys):
        hashed = (key & 0x1FFFFFF) * MULTIPLIER
        buckets.setdefault((hashed >> 44) % 512, []).append(((hashed >> 34) % 1024, location))
    slots, moves = [None] * 1024, [0] * 512
    for bucket in sorted(buckets, key=lambda b: -len(buckets[b])):
        items = buckets[bucket]
        for move in range(1024):
            wanted = {(first + move) % 1024 for first, _ in items}
            if len(wanted) == len(items) and all(slots[slot] is None for slot in wanted):
                moves[bucket] = move
                for first, location in items:
                    slots[(first + move) % 1024] = location
                break
    free = slots.index(None)
    slots[free] = slots[(free + 1) % 1024]
    return slots, moves


def filled(items):
    """Lines of items, as many as go into 99 columns."""
    lines, line = [], "   "
    for item in items:
        if len(line) + len(item) + 2 > 99:
            lines.append(line)
            line = "   "
        line += f" {item},"
    return "\n".join(lines + [line])


def table(name, kind, items, form=str):
    head = f"pub(super) const {name}: [{kind}; {len(items)}] = [\n"
    return head + filled(form(item) for item in items) + "\n];\n"


def locations():
    rows = powers()
    scales = [INVERSES[next(digit for digit in digits(row) if digit)] for row in rows]
    keys = [packed(product(scale, digit) for digit in digits(row)) for scale, row in zip(scales, rows)]
    slots, moves = placed(keys)
    return (
        "//! Which single error leaves which remainder by the generator of BIP-173: written by tables.py.\n"
        "\n// By how much the slots of a bucket of keys are moved, so that no two keys share one.\n"
        + table("MOVES", "u16", moves)
        + "\n// The key of the location in a slot: the remainder of x to its power, divided by its lowest\n"
        "// coefficient that is not zero.\n"
        + table("KEYS", "u32", [keys[location] for location in slots], hex)
        + "\n// The location in a slot, times 32, and the inverse of that coefficient.\n"
        + table("ANSWERS", "u16", [location * 32 + scales[location] for location in slots])
    )


def powers_of_x():
    return (
        "//! The remainders of the powers of x by the generator of BIP-173: written by tables.py.\n"
        "\n// The remainder of x to the power i at place i, packed.\n"
        + table("POWERS_OF_X", "u32", powers(), "0x{:08x}".format)
    )


def product_of_pairs(a, b):
    """The product of two elements of the field of 1,024, the constant part lowest: z^2 = z + 1."""
    low, high = product(a % 32, b % 32), product(a // 32, b // 32)
    return (low ^ high) + 32 * (product(a % 32, b // 32) ^ product(a // 32, b % 32) ^ high)


def logarithms_of_elements():
    base = [1]
    while len(base) < 1023:
        base.append(product_of_pairs(BASE, base[-1]))
    logarithms = [0] * 1024
    for exponent, power in enumerate(base):
        logarithms[power] = exponent
    return (
        "//! The field of 1,024 elements, in which the generator of BIP-173 has its roots: written by\n"
        "//! tables.py. An element a + b z is the number a + 32 b.\n"
        "\n// The power i of 1 + 6 z at place i.\n"
        + table("POWERS", "u16", base)
        + "\n// Which power of 1 + 6 z each element is; 0 for zero, which is none.\n"
        + table("LOGARITHMS", "u16", logarithms)
    )


def main():
    texts = {
        "locations.rt": locations(),
        "powers.rt": powers_of_x(),
        "logarithms.rt": logarithms_of_elements(),
    }
    check = sys.argv[1:] == ["--check"]
    differ = False
    for name, text in texts.items():
        file = FOLDER / name
        if file.exists() and file.read_text(encoding="utf8") == text:
            continue
        differ = True
        if check:
            print(file)
        else:
            file.write_text(text, encoding="utf8")
    return int(check and differ)


if __name__ == "__main__":
    sys.exit(main())
