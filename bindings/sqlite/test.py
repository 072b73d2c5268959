"""Tests the extension by Python's sqlite3: test.py EXTENSION MODEL_ROWS COUNT"""

import random
import re
import sqlite3
import sys

ALPHABET = "qpzry9x8gf2tvdw0s3jn54khce6mua7l"


def unescaped(word):
    return re.sub(r"\\x(..)", lambda it: chr(int(it[1], 16)), word).encode("latin-1")


def model_rows(path):
    for line in open(path, encoding="utf-8"):
        asked, _, reply = line.rstrip("\n").partition("\t")
        words = asked.split(" ")
        if words[0] == "segwit-decode" and len(words) == 2:
            yield unescaped(words[1]), unescaped(reply).decode("utf-8")


def replied(db, blob):
    number, hrp, version, program = db.execute(
        "SELECT segwit_number(?1), segwit_hrp(?1), segwit_version(?1), segwit_program(?1)", (blob,)
    ).fetchone()
    return f"err {number}" if number else f"ok {hrp} {version} {program.hex()}"


def random_text(draw, addresses):
    kind = draw.randrange(4)
    if kind == 0:
        return bytes(draw.randrange(256) for _ in range(draw.randrange(100)))
    if kind == 1:
        return "".join(chr(draw.choice([draw.randrange(128), draw.randrange(0x800)])) for _ in range(draw.randrange(60)))
    text = list(draw.choice(addresses))
    for _ in range(draw.randrange(3)):
        text[draw.randrange(len(text))] = draw.choice(ALPHABET + "1B?")
    return "".join(text).upper() if kind == 2 else "".join(text)


def denials(db, it):
    """What two functions say of a text or a blob that cannot both be."""
    (number, check, fault, lower, again, either, bech32_number, bech32_fault, corrected) = db.execute(
        "SELECT segwit_number(?1), segwit_check(?1), segwit_fault(?1), segwit_lower(?1),"
        " segwit_encode(segwit_hrp(?1), segwit_version(?1), segwit_program(?1)), bech32_check(?1), bech32_number(?1),"
        " bech32_fault(?1), bech32_check(coalesce(bech32_correct(?1), 'a12uel5l'))",
        (it,),
    ).fetchone()
    text = it if isinstance(it, str) else it.decode("latin-1")
    is_address = number == 0
    return [
        name
        for name, holds in [
            ("segwit_check", check == is_address),
            ("segwit_fault", (fault is None) == is_address),
            ("segwit_lower", (lower == text.lower()) if is_address else lower is None),
            ("segwit_encode", again == lower),
            ("bech32_check", either >= is_address and either == (bech32_number == 0)),
            ("bech32_fault", (bech32_fault is None) == (bech32_number == 0)),
            ("bech32_correct", corrected == 1),
        ]
        if not holds
    ]


def main():
    extension, rows, count = sys.argv[1], list(model_rows(sys.argv[2])), int(sys.argv[3])
    db = sqlite3.connect(":memory:")
    db.enable_load_extension(True)
    db.load_extension(extension)
    wrong = [(blob, reply, replied(db, blob)) for blob, reply in rows if replied(db, blob) != reply]
    print(f"model: {len(rows)} rows, {len(wrong)} different", *wrong[:5], sep="\n" if wrong else "")
    draw = random.Random(1)
    addresses = [reply.split(" ") for _, reply in rows if reply.startswith("ok")]
    texts = [
        db.execute("SELECT segwit_encode(?, ?, ?)", (hrp, int(version), bytes.fromhex(program))).fetchone()[0]
        for _, hrp, version, program in addresses
    ]
    denied = 0
    for _ in range(count):
        it = random_text(draw, texts)
        found = denials(db, it)
        denied += bool(found)
        if found and denied <= 5:
            print(repr(it), found)
    print(f"random: {count} texts and blobs, {denied} different")
    return 1 if wrong or denied or len(rows) < 100 else 0


if __name__ == "__main__":
    sys.exit(main())
