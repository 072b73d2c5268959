"""Prints rows of `fault`: its lines with the number and the place of a text's fault; and some of `correct`.

    places.py FOLDER    FOLDER has the rows of the vectors, whose texts are taken, each by one checksum

The numbers are those of the model (vectors/model.py); the places are found here from what
include/bech32.h says of them. Some texts are added whose bytes are at the borders of UTF-8, and those that
the tests of bech32_c have; and corrections with erasures at the borders, with the model's replies.
"""

import os
import sys

sys.path.insert(0, os.path.join(os.path.dirname(os.path.abspath(__file__)), "..", "..", "vectors"))
import model  # noqa: E402
import rows  # noqa: E402

COMMANDS = {"decode": 1, "segwit-decode": 1, "correct": 2}  # where their text stands

# The first and the last characters of one length in UTF-8, those before and behind the surrogates, and what
# is none: overlong, a surrogate, above U+10FFFF, cut short, or a byte that begins none.
UTF8 = [b"\xc2\x80", b"\xdf\xbf", b"\xe0\xa0\x80", b"\xed\x9f\xbf", b"\xee\x80\x80", b"\xef\xbf\xbf",
        b"\xf0\x90\x80\x80", b"\xf4\x8f\xbf\xbf"]
NOT_UTF8 = [b"\xc0\x80", b"\xc1\xbf", b"\xe0\x9f\xbf", b"\xed\xa0\x80", b"\xed\xbf\xbf",
            b"\xf0\x8f\xbf\xbf", b"\xf4\x90\x80\x80", b"\xf5\x80\x80\x80", b"\x80", b"\xbf", b"\xff",
            b"\xc2", b"\xe0\xa0", b"\xf0\x90\x80", b"\xe1\x80\x41", b"\xf1\x80\x80\x41", b"\xc3\xc3"]
LONG_PART = b"an84characterslonghumanreadablepartthatcontainsthenumber1andtheexcludedcharactersbio"
KNOWN = [b"x1b4n0q5v", b"A12UEL5L", b"a12uel5l", b"1qzzfhee", LONG_PART + b"1569pvx", b"\x7f1axkwrx",
         b"ab\xc3\xa9!1qqqqqq", b"x1b4\xc3\xa90q5v", b"a!1qqQqqqq", b"pzry9x0s0muk", b"in1muywd",
         b"a11qqqqqqq", b"a1" + b"q" * 1021, b"a1" + b"q" * 1022, b"Aa1qqqqqqb", b"1", b"11", b"\xc3\xa9"]

CORRECTIONS = ["correct bech32 a12uel5q " + erasures
               for erasures in ("5", "6", "7", "0,6", "0,7", "3,0,3,0", "0,1,2", "0,1,2,3", "1,2")]


def place(number, text):
    """Where the fault of this number stands in a text, counted in bytes."""
    if number in (11, 12):
        characters = text[:text.rindex("1")]
    elif number in (13, 14):
        characters = next(text[:i] for i, c in enumerate(text) if not 33 <= ord(c) <= 126)
    elif number == 21:
        characters = text[:max(i for i, c in enumerate(text) if c not in model.VALUE)]
    elif number == 22:
        characters = next(text[:i] for i in range(len(text)) if model.has_both_cases(text[:i + 1]))
    else:
        characters = text
    return len(characters.encode())


def reply(name, text):
    try:
        model.test_checksum(model.CODES[name], text)
        return "fine"
    except model.Refusal as refusal:
        return f"{refusal.number} at {place(refusal.number, text)}"


def texts(folder):
    """The texts of the rows, those with an empty word left out, and the ones above."""
    for file in sorted(os.listdir(folder)):
        for line, _ in rows.rows_of(os.path.join(folder, file)):
            words = rows.line_of(line).split(b" ")
            at = COMMANDS.get(words[0].decode("latin-1"), len(words))
            if at < len(words) and b"" not in words:
                yield words[at]
    yield from KNOWN
    for some in UTF8 + NOT_UTF8:
        yield b"x" + some + b"1qqqqqq"
        yield b"x1qqqqqq" + some


def main(folder):
    for number, text in enumerate(texts(folder)):
        name = list(model.CODES)[number % 2]
        line = b"fault %s %s" % (name.encode(), text)
        try:
            said = reply(name, text.decode()) if len(line) <= model.LONGEST_LINE else "err 1"
        except UnicodeDecodeError:
            said = "err 2"
        print(f"{rows.word_of(line)}\t{said}")
    for line in CORRECTIONS:
        print(f"{line}\t{model.reply(line.encode())}")


if __name__ == "__main__":
    main(sys.argv[1])
