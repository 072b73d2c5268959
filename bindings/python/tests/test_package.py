"""Tests the package as it is installed, over the vectors of BIP-173, BIP-350 and BIP-93."""

import array
import contextlib
import copy
import ctypes
import doctest
import gc
import pickle
import shutil
import signal
import subprocess
import sys
import tempfile
import threading
import time
import unittest
from pathlib import Path
from unittest import mock

import bech32_proved
from bech32_proved import Checksum, Edit, EditKind, check, codex32, correct, decode, decode_with_checksum
from bech32_proved import convertbits, decode_elements, decode_strict, encode_elements
from bech32_proved import _searches, edits, encode, errors, near_edits, nearest, segwit, texts
from bech32_proved._library import Lent, interruptible

PROGRAM = bytes.fromhex("751e76e8199196d454941c45d1b3a323f1433bd6")

# Texts that a checksum accepts.
BECH32 = [
    "A12UEL5L",
    "an83characterlonghumanreadablepartthatcontainsthenumber1andtheexcludedcharactersbio1tt5tgs",
    "abcdef1qpzry9x8gf2tvdw0s3jn54khce6mua7lmqqqxw",
    "split1checkupstagehandshakeupstreamerranterredcaperred2y9e3w",
    "?1ezyfcl",
]
BECH32M = [
    "A1LQFN3A",
    "an83characterlonghumanreadablepartthatcontainsthetheexcludedcharactersbioandnumber11sg7hg6",
    "abcdef1l7aum6echk45nj3s0wdvt2fg8x9yrzpqzd3ryx",
    "split1checkupstagehandshakeupstreamerranterredcaperredlc445v",
    "?1v759aa",
]

# Texts that both refuse: why, and the place of the character at fault, from 0.
REFUSED = [
    ("\x201nwldj5", errors.HrpInvalid, 0),
    ("\x7f1axkwrx", errors.HrpInvalid, 0),
    ("\x801eym55h", errors.HrpNotAscii, 0),
    ("a\u1e9e1eym55h", errors.HrpNotAscii, 1),
    (
        "an84characterslonghumanreadablepartthatcontainsthenumber1andtheexcludedcharactersbio1569pvx",
        errors.HrpTooLong,
        None,
    ),
    ("pzry9x0s0muk", errors.NoSeparator, None),
    ("1pzry9x0s0muk", errors.HrpEmpty, None),
    ("x1b4n0q5v", errors.InvalidCharacter, 2),
    ("\xe9x1q\xe94n0q5v", errors.InvalidCharacter, 4),
    ("li1dgmt3", errors.NoChecksum, None),
    ("A1G7SGD8", errors.WrongChecksum, None),
    ("a12uEL5l", errors.MixedCase, 4),
    ("a1" + "q" * 1022, errors.TextTooLong, None),
    # What may stand in a pasted text: marks of direction, the sign of kelvin for K, markup, half of a pair.
    ("\u202ea12uel5l", errors.HrpNotAscii, 0),
    ("a12uel5l\u202c", errors.InvalidCharacter, 8),
    ("bc1qw508d6qejxtdg4y5r3zarvary0c5xw7\u212av8f3t4", errors.InvalidCharacter, 35),
    ("<b>a12uel5l</b>", errors.InvalidCharacter, 14),
    ("a12ue\ud800l5l", errors.NotUnicode, 5),
    ("q" * 1_000_000, errors.NoSeparator, None),
]

# What is printed of such texts.
PRINTED = [
    ("x1b4n0q5v", "a character behind the separator may not stand there: character 3, b"),
    ("\xe9x1q\xe94n0q5v", "a character behind the separator may not stand there: character 5, U+00E9"),
    ("a12uel5l\u202c", "a character behind the separator may not stand there: character 9, U+202C"),
    ("a12uEL5l", "the text has letters of both cases: character 5, E"),
    ("\x201nwldj5", "the human-readable part has a character whose code is not from 33 to 126: character 1, U+0020"),
    ("\U0001f6001q", "the human-readable part has a character that is not ASCII: character 1, U+1F600"),
    ("a12ue\ud800l5l", "the text holds half of a surrogate pair, which is no character: character 6, U+D800"),
    ("pzry9x0s0muk", "the text has no separator, '1'"),
    ("hello", "the text has no separator, '1', and a character that may not stand behind one: character 5, o"),
    ("A1G7SGD8", "the checksum is wrong"),
]

# Texts with two wrong characters, what is added to them, and the one near text, by Bech32.
NEAR = [
    (
        "bc1qqq08d6qejxtdg4y5r3zarvary0c5xw7kv8f3t4",
        ((37, 14), (36, 20)),
        "bc1qw508d6qejxtdg4y5r3zarvary0c5xw7kv8f3t4",
    ),
    (
        "bc1qar0srrr7xfkvy5l64qlydnw9re59gtzzwf5mdx",
        ((0, 6), (20, 17)),
        "bc1qar0srrr7xfkvy5l643lydnw9re59gtzzwf5mdq",
    ),
]

ADDRESS = NEAR[0][2]

# A text of which one edit makes two that Bech32 accepts: one with a `q` less before its last `p`, and one with more.
TWO_EDITS = "ii2134hk2xmat79tqp"

# Texts that are no address.
NO_ADDRESS = [
    ("tb1q0xlxvlhemja6c4dqv22uapctqupfhlxm9h8z3k2e72q4k9hcz7vq24jc47", errors.WrongChecksum),
    (
        "anhrpthatistwentycha1pqyqszqgpqyqszqgpqyqszqgpqyqszqgpqyqszqgpqyqszqgpqyqszqgpqyqszqgqfrwjz",
        errors.AddressTooLong,
    ),
    ("a1", errors.NoData),
    ("BC130XLXVLHEMJA6C4DQV22UAPCTQUPFHLXM9H8Z3K2E72Q4K9HCZ7VQ7ZWS8R", errors.BadVersion),
    (
        "bc1p0xlxvlhemja6c4dqv22uapctqupfhlxm9h8z3k2e72q4k9hcz7v07qwwzcrf",
        errors.PaddingTooLong,
    ),
    ("tb1p0xlxvlhemja6c4dqv22uapctqupfhlxm9h8z3k2e72q4k9hcz7vpggkg4j", errors.PaddingNotZero),
    ("bc1pw5dgrnzv", errors.ProgramTooShort),
    (
        "bc1p0xlxvlhemja6c4dqv22uapctqupfhlxm9h8z3k2e72q4k9hcz7v8n0nx0muaewav253zgeav",
        errors.ProgramTooLong,
    ),
    ("BC1QR508D6QEJXTDG4Y5R3ZARVARYV98GJ9P", errors.ProgramNotV0),
]

SECRET = "ms10testsxxxxxxxxxxxxxxxxxxxxxxxxxx4nzvca9cmczlw"
SHARE = "MS12NAMEA320ZYXWVUTSRQPNMLKJHGFEDCAXRPP870HKKQRM"
OTHER_SHARE = "MS12NAMECACDEFGHJKLMNPQRSTUVWXYZ023FTR2GDZMPY6PN"
LONG = (
    "ms100c8vsm32zxfguhpchtlupzry9x8gf2tvdw0s3jn54khce6mua7lqpzygsfjd6an074rxvcemlh8wu3tk925acdefghjklmn"
    "pqrstuvwxy06fhpv80undvarhrak"
)

# More than four bits are left over behind the bytes of its payload.
ODD = "ms14lvh96q5zxeuujvzg58w59yc7s38yyfhkh8q0nuzggke5jv9s"


def reference_bits(data, frombits, tobits, pad=True):
    """What BIP-173's text says of regrouping, a bit at a time: groups from the highest bit on, and what may be left over."""
    if any(it < 0 or it >= 2**frombits for it in data):
        return None
    bits = [it >> at & 1 for it in data for at in reversed(range(frombits))]
    over = len(bits) % tobits
    if pad:
        bits += [0] * (-len(bits) % tobits)
    elif over >= frombits or any(bits[len(bits) - over :]):
        return None
    whole = [bits[at : at + tobits] for at in range(0, len(bits) - tobits + 1, tobits)]
    return [int("".join(map(str, it)), 2) for it in whole]


class Texts(unittest.TestCase):
    def test_accepts(self):
        rows = [(text, Checksum.BECH32, Checksum.BECH32M) for text in BECH32]
        rows += [(text, Checksum.BECH32M, Checksum.BECH32) for text in BECH32M]
        for text, right, wrong in rows:
            hrp, _, behind = text.rpartition("1")
            with self.subTest(text):
                self.assertEqual(check(right, text), (hrp, behind[:-6]))
                self.assertEqual(decode(text).hrp, hrp)
                self.assertEqual(decode_with_checksum(text), (*decode(text), right))
                self.assertRaises(errors.WrongChecksum, check, wrong, text)
                self.assertEqual(correct(right, text, [len(text) - 1]), (text, ()))
                self.assertEqual(correct(right, text, erasures=[0]), (text, ()))

    def test_refuses(self):
        for text, error, place in REFUSED:
            calls = [lambda: decode(text), lambda: decode_with_checksum(text)]
            calls += [lambda c=c: check(c, text) for c in (Checksum.BECH32, Checksum.BECH32M)]
            for call in calls:
                with self.subTest(text[:90]), self.assertRaises(error) as raised:
                    call()
                self.assertEqual((raised.exception.text, raised.exception.place), (text, place))

    def test_names_the_character(self):
        for text, words in PRINTED:
            with self.subTest(text), self.assertRaises(errors.Refused) as raised:
                decode(text)
            refused = raised.exception
            self.assertEqual(str(refused), words)
            named = None if refused.place is None else text[refused.place]
            self.assertEqual(refused.character, named)

    def test_encodes(self):
        data = b"\xff" + PROGRAM[1:]
        self.assertEqual(
            encode(Checksum.BECH32, "test", data), "test1lu08d6qejxtdg4y5r3zarvary0c5xw7kw79nnx"
        )
        text = encode(Checksum.BECH32M, "TEST", bytearray(data))
        self.assertEqual(text, "test1lu08d6qejxtdg4y5r3zarvary0c5xw7kmz4lky")
        self.assertEqual(decode(text.upper()), ("TEST", data))
        self.assertEqual(len(encode(Checksum.BECH32M, "a", bytes(634))), 1023)
        self.assertRaises(errors.EncodedTooLong, encode, Checksum.BECH32M, "a", bytes(635))
        for hrp, error in [
            ("", errors.HrpEmpty),
            ("a" * 84, errors.HrpTooLong),
            ("\xe9", errors.HrpNotAscii),
            ("a b", errors.HrpInvalid),
            ("aB", errors.HrpMixedCase),
            ("\udfff", errors.NotUnicode),
        ]:
            self.assertRaises(error, encode, Checksum.BECH32M, hrp, b"")

    def test_decodes_one_spelling(self):
        for checksum in Checksum:
            for size in range(12):
                # Eight spellings at most of the same bytes: those of the bits behind them, and of a further element.
                data, free = bytes(range(200, 200 + size)), -8 * size % 5
                right = encode(checksum, "a", data)
                elements = decode_elements(checksum, right).elements
                self.assertEqual(decode_strict(checksum, right), ("a", data))
                self.assertEqual(decode_strict(checksum, right.upper()), ("A", data))
                for more in range(1, 1 << free):
                    other = encode_elements(checksum, "a", elements[:-1] + bytes([elements[-1] | more]))
                    self.assertRaises(errors.PaddingNotZero, decode_strict, checksum, other)
                if free <= 2:
                    other = encode_elements(checksum, "a", elements + bytes([0]))
                    self.assertRaises(errors.PaddingTooLong, decode_strict, checksum, other)
                    self.assertEqual(decode_elements(checksum, other), ("a", elements + bytes([0])))
        for text, error, place in REFUSED:
            for call in (decode_strict, decode_elements):
                with self.subTest(text[:90]), self.assertRaises(error) as raised:
                    call(Checksum.BECH32, text)
                self.assertEqual((raised.exception.text, raised.exception.place), (text, place))

    def test_reads_and_writes_elements(self):
        for checksum in Checksum:
            for length in (0, 1, 31, 1015):
                elements = bytes(n % 32 for n in range(length))
                text = encode_elements(checksum, "a", elements)
                self.assertEqual(text[2 : 2 + length], "".join(bech32_proved.ALPHABET[it] for it in elements))
                self.assertEqual(decode_elements(checksum, text), ("a", elements))
                self.assertEqual(check(checksum, text).data_part, text[2 : 2 + length])
        self.assertRaises(errors.EncodedTooLong, encode_elements, Checksum.BECH32, "a", bytes(1016))
        self.assertEqual(len(encode_elements(Checksum.LONG_BECH32, "a", bytes(7081))), 7089)
        self.assertRaises(errors.EncodedTooLong, encode_elements, Checksum.LONG_BECH32, "a", bytes(7082))
        self.assertRaises(errors.HrpEmpty, encode_elements, Checksum.BECH32, "", bytes([32]))
        for elements, place in ((b"\x20", 0), (b"\x00\x1f\xff\x40", 2)):
            with self.assertRaises(errors.BadElement) as raised:
                encode_elements(Checksum.BECH32, "a", elements)
            self.assertEqual((raised.exception.place, raised.exception.text, raised.exception.number), (place, None, 67))
            self.assertEqual(str(raised.exception), f"an element is above 31: {elements[place]}, at place {place}")
        # An address of silent payments, whose first element is its version.
        payments = "sp1qqgste7k9hx0qftg6qmwlkqtwuy6cycyavzmzj85c6qdfhjdpdjtdgqjuexzk6murw56suy3e0rd2cgqvycxttddwsvgxe2usfpxumr70xc9pkqwv"
        hrp, (version, *rest) = decode_elements(Checksum.BECH32M, payments)
        self.assertEqual((hrp, version, len(rest)), ("sp", 0, 106))
        self.assertEqual(encode_elements(Checksum.BECH32M, hrp, bytes([version, *rest])), payments)

    def test_regroups_bits_as_the_reference_does(self):
        for widths in ((8, 5), (5, 8)):
            for size in [*range(26), 4399, 4400, 4401, 7039, 7040, 7041, 7048]:
                for last in (0, 1, 4, 16, 31, 255):
                    data = [(7 * at + size) % 2 ** widths[0] for at in range(size)]
                    data[-1:] = [last][: len(data)]
                    for pad in (True, False):
                        said = (size, last, widths, pad)
                        # No comparison of unittest's own, which takes minutes to say how long lists differ.
                        self.assertTrue(convertbits(data, *widths, pad) == reference_bits(data, *widths, pad), said)
        self.assertEqual(convertbits(bytearray(PROGRAM), 8, 5), convertbits(list(PROGRAM), 8, 5))
        self.assertEqual(convertbits(b"", 5, 8, False), [])
        for data, widths in ([256], (8, 5)), ([-1], (8, 5)), ([32], (5, 8)), (b"\x20", (5, 8)), ([0, 0, 2**70], (5, 8)):
            self.assertIsNone(convertbits(data, *widths))
            self.assertIsNone(reference_bits(data, *widths))
        for widths in (8, 8), (5, 5), (8, 4), (1, 8), (5, 16):
            self.assertRaisesRegex(ValueError, "not from", convertbits, [0], *widths)
        for data in "qpzry", None, 5, [None], ["0"], [0.5]:
            self.assertRaises(TypeError, convertbits, data, 5, 8)

    def test_reads_and_writes_long_texts(self):
        for checksum, short in ((Checksum.LONG_BECH32, Checksum.BECH32), (Checksum.LONG_BECH32M, Checksum.BECH32M)):
            for size in (0, 634, 635, 1000, 4425):
                data = bytes(n % 251 for n in range(size))
                text = encode(checksum, "a", data)
                self.assertEqual(decode_strict(checksum, text), ("a", data))
                self.assertEqual(check(checksum, text).hrp, "a")
                self.assertRaises(errors.WrongChecksum, check, checksum, text[:-1] + ("q" if text[-1] != "q" else "p"))
                if len(text) <= 1023:
                    self.assertEqual(encode(short, "a", data), text)
                else:
                    self.assertRaises(errors.TextTooLong, check, short, text)
                    self.assertRaises(errors.TextTooLong, decode, text)
            self.assertRaises(errors.EncodedTooLong, encode, checksum, "a", bytes(4426))
            for call in (correct, nearest, near_edits):
                with self.assertRaises(ValueError) as raised:
                    call(checksum, "a12uel5l")
                said = f"checksum must be Checksum.BECH32 or Checksum.BECH32M, not {checksum}: long texts are not mended"
                self.assertEqual(str(raised.exception), said)

    def test_mends(self):
        self.assertEqual(correct(Checksum.BECH32, "a12uel5q"), ("a12uel5l", ((0, 31),)))
        mended = correct(Checksum.BECH32, "bc1qar0srrr7xfkvy5l64qlydnw9re59gtzzwf5mdx", [41])
        self.assertEqual(mended.text, "bc1qar0srrr7xfkvy5l643lydnw9re59gtzzwf5mdq")
        self.assertEqual([location for location, _ in mended.errors], [0, 20])
        for erasures in [(1, 2), (0, 1, 2, 3), (6,), (2**64,), (2**64 - 1,)]:
            with self.subTest(erasures), self.assertRaises(errors.NoCorrection):
                correct(Checksum.BECH32, "a12uel5q", erasures=erasures)
        with self.assertRaises(errors.InvalidCharacter) as raised:
            correct(Checksum.BECH32, "x1b4n0q5v")
        self.assertEqual(raised.exception.place, 2)

    def test_says_the_changes(self):
        self.assertEqual(correct(Checksum.BECH32, "a12uel5q").changes, ((7, "q", "l"),))
        self.assertEqual(correct(Checksum.BECH32, "A12UEL5Q").changes, ((7, "Q", "L"),))
        self.assertEqual(correct(Checksum.BECH32, "a12uel5l").changes, ())
        for text, listed, near in NEAR:
            places = sorted(len(text) - 1 - location for location, _ in listed)
            wanted = tuple((place, text[place], near[place]) for place in places)
            self.assertEqual(nearest(Checksum.BECH32, text)[0].changes, wanted)
            known = [location for location, _ in listed]
            self.assertEqual(nearest(Checksum.BECH32, text, errors=0, erasures=reversed(known))[0].changes, wanted)
            self.assertEqual(nearest(Checksum.BECH32, text, iter(places), 0)[0].changes, wanted)
        changes = nearest(Checksum.BECH32, NEAR[0][0])[0].changes
        self.assertEqual(
            [str(it) for it in changes], ["character 5: q becomes w", "character 6: q becomes 5"]
        )
        known = nearest(Checksum.BECH32, "a12uel5l", [5], 0)
        self.assertEqual([str(it) for it in known[0].changes], ["character 6: l stays"])

    def test_lists_near_texts(self):
        for text, listed, near in NEAR:
            with self.subTest(text):
                self.assertEqual(nearest(Checksum.BECH32, text), [(near, listed)])
                self.assertEqual(nearest(Checksum.BECH32, text.upper()), [(near.upper(), listed)])
                self.assertEqual(nearest(Checksum.BECH32, text, errors=1), [])
                # The first of the two is known to be wrong.
                known = [listed[0][0]]
                self.assertEqual(nearest(Checksum.BECH32, text, errors=1, erasures=known), [(near, listed)])
                self.assertEqual(correct(Checksum.BECH32, text, erasures=known), (near, listed))
                places = [len(text) - 1 - known[0]]
                self.assertEqual(nearest(Checksum.BECH32, text, places, 1), [(near, listed)])
                self.assertEqual(correct(Checksum.BECH32, text, places), (near, listed))
        for text in BECH32:
            with self.subTest(text):
                self.assertEqual(nearest(Checksum.BECH32, text)[0], (text, ()))
                known = nearest(Checksum.BECH32, text, errors=0, erasures=iter([1, 0, 1]))
                self.assertEqual(known, [(text, ((1, 0), (0, 0)))])
        damaged = (Checksum.BECH32, "a12qqq5l", (3, 4, 5), 0)
        self.assertEqual(nearest(*damaged), [("a12uel5l", ((4, 28), (3, 25), (2, 31)))])
        found = nearest(Checksum.BECH32, "a1" + "z" * 1021)
        self.assertEqual([it.errors for it in found], [((597, 28), (91, 7)), ((737, 28), (184, 1))])
        for it in found:
            self.assertEqual(check(Checksum.BECH32, it.text).hrp, "a")
        found = nearest(Checksum.BECH32, "split1checkupstagehan", erasures=[3, 8, 1])
        near = ["split1checkuysyvg6h8n", "split1czecku5stag5hnn", "split15hecku0atag7hzn"]
        self.assertEqual([it.text for it in found], near)

    def test_reads_unreadable_characters(self):
        """Each `?` behind the last `1` is one: it is the same as any character there whose place is given."""
        for text, checksum in [(it, Checksum.BECH32) for it in BECH32] + [(it, Checksum.BECH32M) for it in BECH32M]:
            first, length = text.rindex("1") + 1, len(text)
            for places in ([length - 1], [first, length - 2], [first + 1, first + 2, length - 1]):
                damaged = "".join("?" if place in places else it for place, it in enumerate(text))
                filled = "".join("q" if place in places else it for place, it in enumerate(text))
                wanted = tuple((place, "?", text[place]) for place in places)
                with self.subTest(damaged):
                    mended = correct(checksum, damaged)
                    self.assertEqual((mended.text, mended.changes), (text, wanted))
                    self.assertEqual(dict(mended.errors), {length - 1 - place: None for place in places})
                    [near] = nearest(checksum, damaged, errors=0)
                    self.assertEqual((near.text, near.changes), (text, wanted))
                    self.assertEqual(str(near.changes[0]), f"character {places[0] + 1}: ? becomes {text[places[0]]}")
                    if filled.isupper() or filled.islower():
                        same = nearest(checksum, filled, places)
                        self.assertEqual([it.text for it in nearest(checksum, damaged)], [it.text for it in same])
        # One wrong character beside one that cannot be read, and beside a place; the case is that of the letters.
        damaged = ADDRESS[:4] + "?" + ADDRESS[5:20] + "q" + ADDRESS[21:]
        self.assertEqual(correct(Checksum.BECH32, damaged).text, ADDRESS)
        self.assertEqual(correct(Checksum.BECH32, damaged.upper(), [20]).text, ADDRESS.upper())
        changes = correct(Checksum.BECH32, damaged.upper(), [20]).changes
        self.assertEqual(changes, ((4, "?", ADDRESS[4].upper()), (20, "Q", ADDRESS[20].upper())))
        self.assertEqual(correct(Checksum.BECH32, damaged, erasures=[len(ADDRESS) - 21]).text, ADDRESS)
        # A place that is given and cannot be read is one.
        self.assertEqual(correct(Checksum.BECH32, damaged, [4, 4], erasures=[len(ADDRESS) - 5]).text, ADDRESS)
        # In the human-readable part it is a character like others.
        self.assertEqual(correct(Checksum.BECH32, "?1ezyfcl"), ("?1ezyfcl", ()))
        self.assertEqual(correct(Checksum.BECH32, "?1ezyf?l").text, "?1ezyfcl")
        # More than three, or one before the separator: there is no correction, whatever stands there.
        zeros = encode(Checksum.BECH32, "bc", bytes(5 * [0x7B, 0xDE, 0xF7, 0xBD, 0xEF]))
        self.assertEqual(zeros[3:8], "00000")
        for count in range(1, 6):
            damaged = zeros[:3] + "?" * count + zeros[3 + count :]
            if count > 3:
                self.assertRaises(errors.NoCorrection, correct, Checksum.BECH32, damaged)
                self.assertEqual(nearest(Checksum.BECH32, damaged), [])
                continue
            wanted = tuple((3 + n, "?", "0") for n in range(count))
            self.assertEqual(correct(Checksum.BECH32, damaged).changes, wanted)
            self.assertEqual(nearest(Checksum.BECH32, damaged, errors=0)[0].changes, wanted)
            self.assertRaises(errors.NoCorrection, correct, Checksum.BECH32, damaged, [1])
            self.assertEqual(nearest(Checksum.BECH32, damaged, [1]), [])
        # What is refused is the text as it was given.
        for text, error, place in (
            ("a12?e?bl", errors.InvalidCharacter, 6),
            ("a12u?L5l", errors.MixedCase, 5),
            ("?a", errors.InvalidCharacter, 0),
            ("a\xe91q?pzry9x", errors.HrpNotAscii, 1),
            ("a1q?p\udc00qqqq", errors.NotUnicode, 5),
            ("a1q??", errors.NoChecksum, None),
        ):
            for call in (correct, nearest):
                with self.subTest(text), self.assertRaises(error) as raised:
                    call(Checksum.BECH32, text)
                self.assertEqual((raised.exception.text, raised.exception.place), (text, place))
        for call in (check, near_edits):
            self.assertRaises(errors.InvalidCharacter, call, Checksum.BECH32, "a12u?l5l")

    def test_exports_the_alphabet(self):
        self.assertEqual(len(set(bech32_proved.ALPHABET)), 32)
        for value, character in enumerate(bech32_proved.ALPHABET):
            self.assertEqual(check(Checksum.BECH32, encode(Checksum.BECH32, "a", bytes([8 * value]))).data_part[0], character)

    def test_takes_more_memory_for_near_texts(self):
        text, listed, near = NEAR[0]
        with mock.patch.object(_searches, "LEAST_MEMORY", 16), mock.patch.object(_searches, "OF_A_CHARACTER", 0):
            self.assertEqual(nearest(Checksum.BECH32, text), [(near, listed)])
            self.assertEqual(near_edits(Checksum.BECH32, "a12uel5")[0].text, "a12uel5l")
            self.assertRaises(errors.MixedCase, nearest, Checksum.BECH32, "a12ueL5q")
            with mock.patch.object(_searches, "MOST_MEMORY", 32):
                self.assertRaises(MemoryError, nearest, Checksum.BECH32, text)
                self.assertRaises(MemoryError, near_edits, Checksum.BECH32, "a12uel5")

    def test_makes_room_for_near_texts(self):
        """Where all texts fit there is one call, and else a second one, with the room that the first one told."""
        text, known = "split1checkupstagehan", [17, 12, 19]
        found, made = nearest(Checksum.BECH32, text, known), near_edits(Checksum.BECH32, TWO_EDITS)
        for room, calls in ((0, 2), (len(text), 2), (3 * len(text) - 1, 2), (3 * len(text), 1)):
            with mock.patch.object(texts, "_LEAST_ROOM", room), counted("nearest") as asked:
                self.assertEqual(nearest(Checksum.BECH32, text, known), found)
            self.assertEqual(len(asked), calls)
            self.assertEqual([it[-2] for it in asked[1:]], [3 * len(text)] * (calls - 1))
        for room, calls in ((0, 2), (1, 2), (2, 1)):
            with mock.patch.object(edits, "_LEAST_TEXTS", room), counted("near_edits") as asked:
                self.assertEqual(near_edits(Checksum.BECH32, TWO_EDITS), made)
            self.assertEqual(len(asked), calls)

    def test_lists_no_near_texts(self):
        for erasures in [(0, 1, 2, 3), (6,), (2**64,), (2**64 - 1,)]:
            with self.subTest(erasures):
                self.assertEqual(nearest(Checksum.BECH32, "a12uel5l", erasures=erasures), [])
        for count in [-1, 3, 2**64]:
            self.assertRaises(ValueError, nearest, Checksum.BECH32, "a12uel5l", (), count)
        self.assertRaises(TypeError, nearest, Checksum.BECH32, b"a12uel5l")
        self.assertRaises(TypeError, nearest, Checksum.BECH32, "a12uel5l", (), 1.0)
        for text, error, place in REFUSED:
            if error is errors.WrongChecksum:
                continue
            with self.subTest(text[:90]), self.assertRaises(error) as raised:
                nearest(Checksum.BECH32, text)
            self.assertEqual((raised.exception.text, raised.exception.place), (text, place))

    def test_lists_what_one_edit_makes(self):
        for place in range(3, len(ADDRESS)):
            front, character, behind = ADDRESS[:place], ADDRESS[place], ADDRESS[place + 1 :]
            for text, kind, edited in (
                (front + behind, EditKind.PUT_IN, character),
                ((front + character + character + behind).upper(), EditKind.LEFT_OUT, character),
                (front + behind[:1] + character + behind[1:], EditKind.SWAPPED, behind[:1] + character),
            ):
                with self.subTest(text):
                    if text == ADDRESS:
                        continue
                    [near] = near_edits(Checksum.BECH32, text)
                    wanted = (ADDRESS.upper(), edited.upper()) if text.isupper() else (ADDRESS, edited)
                    self.assertEqual((near.text, near.edit.characters), wanted)
                    self.assertEqual(near.edit.kind, kind)
                    # Of a run of the same the last one is named.
                    run = len(behind) - len(behind.lstrip(character))
                    places = {EditKind.SWAPPED: place, EditKind.PUT_IN: place + run, EditKind.LEFT_OUT: place + 1 + run}
                    self.assertEqual(near.edit.place, places[kind])
        self.assertEqual(
            near_edits(Checksum.BECH32, TWO_EDITS),
            [
                ("ii2134hk2xmat79tp", (EditKind.LEFT_OUT, 16, "q")),
                ("ii2134hk2xmat79tqqp", (EditKind.PUT_IN, 17, "q")),
            ],
        )
        printed = [str(Edit(kind, 10, "xy"[: 1 + (kind.value == 1)])) for kind in EditKind]
        self.assertEqual(
            printed,
            ["characters 11 and 12: x and y are swapped", "character 11: x is left out", "character 11: x is put in"],
        )

    def test_lists_edits_of_any_text_in_the_grammar(self):
        self.assertEqual([it.text for it in near_edits(Checksum.BECH32M, "a1lqfn3")], ["a1lqfn3a"])
        for text in (ADDRESS, "bc1", "a1" + "q" * 100_000):
            self.assertEqual(near_edits(Checksum.BECH32, text), [])
        self.assertRaises(TypeError, near_edits, Checksum.BECH32, b"a12uel5l")
        for text, error, place in REFUSED:
            if error in (errors.WrongChecksum, errors.NoChecksum, errors.TextTooLong):
                continue
            with self.subTest(text[:90]), self.assertRaises(error) as raised:
                near_edits(Checksum.BECH32, text)
            self.assertEqual((raised.exception.text, raised.exception.place), (text, place))

    def test_keeps_the_case(self):
        """Whoever types upper case gets upper case: age refuses a secret key in lower case."""
        lower = encode(Checksum.BECH32, "age-secret-key-", bytes(range(32)))
        for key in (lower, lower.upper()):
            self.assertTrue(key == lower or key.startswith("AGE-SECRET-KEY-1"))
            one, two = (key[:-9] + key[-2] * count + key[count - 9 :] for count in (1, 2))
            missing, swapped = key[:30] + key[31:], key[:40] + key[41] + key[40] + key[42:]
            self.assertEqual(len({key, one, two, missing, swapped}), 5)
            mended = correct(Checksum.BECH32, one)
            self.assertEqual(mended.text, key)
            self.assertEqual(mended.changes, ((len(key) - 9, one[-9], key[-9]),))
            for text in (one, two):
                [near] = nearest(Checksum.BECH32, text)
                self.assertEqual(near.text, key)
                for place, from_, to in near.changes:
                    self.assertEqual((from_, to), (text[place], key[place]))
            for text in (missing, swapped):
                [near] = near_edits(Checksum.BECH32, text)
                self.assertEqual(near.text, key)
                self.assertIn(near.edit.characters, (key[30], swapped[40:42]))
            self.assertEqual(correct(Checksum.BECH32, key), (key, ()))
            self.assertEqual(nearest(Checksum.BECH32, key), [(key, ())])
        # A text without letters is mended in lower case.
        without = encode(Checksum.BECH32, "0", bytes(5 * [0x42]))
        found = nearest(Checksum.BECH32, "01" + "2" * 12, (13, 12, 11), 2)
        self.assertTrue(found and all(it.text == it.text.lower() for it in found))
        self.assertEqual(correct(Checksum.BECH32, without).text, without)

    def test_says_which_argument_is_wrong(self):
        """Of each argument of each call: what it must be, and what was given; nothing of what stands inside."""
        text, a, bech32 = "a12uel5l", "ms12namea320zyxwvutsrqpnmlkjhgfedcaxrpp870hkkqrm", Checksum.BECH32
        header, data = (2, "name", "s"), bytes(16)
        for call, arguments, words in (
            (encode, (bech32, 5, b""), "hrp must be a str, not int"),
            (encode, (bech32, "abc", "x"), "data must be bytes, a bytearray or a memoryview, not str"),
            (encode, (bech32, "abc", None), "data must be bytes, a bytearray or a memoryview, not NoneType"),
            (encode, (bech32, "abc", 5), "data must be bytes, a bytearray or a memoryview, not int"),
            (encode, (bech32, "abc", [1, 2]), "data must be bytes, a bytearray or a memoryview, not list"),
            (decode, (b"a12uel5l",), "text must be a str, not bytes"),
            (decode_with_checksum, (None,), "text must be a str, not NoneType"),
            (check, (bech32, 5), "text must be a str, not int"),
            (correct, (bech32, None), "text must be a str, not NoneType"),
            (correct, (bech32, text, None), "places must be a list of places, not NoneType"),
            (correct, (bech32, text, 3), "places must be a list of places, not int"),
            (correct, (bech32, text, "12"), "places must be a list of places, not str"),
            (correct, (bech32, text, b"12"), "places must be a list of places, not bytes"),
            (correct, (bech32, text, [1.0]), "each place of places must be an int, not float"),
            (nearest, (bech32, None), "text must be a str, not NoneType"),
            (nearest, (bech32, text, 1), "places must be a list of places, not int"),
            (nearest, (bech32, text, ["1"]), "each place of places must be an int, not str"),
            (nearest, (bech32, text, (), 1.0), "errors must be an int, not float"),
            (nearest, (bech32, text, (), None), "errors must be an int, not NoneType"),
            (near_edits, (bech32, None), "text must be a str, not NoneType"),
            (segwit.encode, (None, 0, PROGRAM), "hrp must be a str, not NoneType"),
            (segwit.encode, ("bc", "0", PROGRAM), "version must be an int, not str"),
            (segwit.encode, ("bc", 0.0, PROGRAM), "version must be an int, not float"),
            (segwit.encode, ("bc", 0, "ab"), "program must be bytes, a bytearray or a memoryview, not str"),
            (segwit.decode, (b"bc1",), "text must be a str, not bytes"),
            (codex32.parse, (None,), "text must be a str or a bytearray, not NoneType"),
            (codex32.share, (b"ms1",), "text must be a str or a bytearray, not bytes"),
            (codex32.encode, ("2", "name", "s", data), "threshold must be an int, not str"),
            (codex32.encode, (None, "name", "s", data), "threshold must be an int, not NoneType"),
            (codex32.encode, (2, b"name", "s", data), "identifier must be a str, not bytes"),
            (codex32.encode, (2, "name", None, data), "share_index must be a str, not NoneType"),
            (codex32.encode, (*header, "ab"), "data must be bytes, a bytearray or a memoryview, not str"),
            (codex32.encode_payload, (None, "name", "a", "q"), "threshold must be an int, not NoneType"),
            (codex32.encode_payload, (2, None, "a", "q"), "identifier must be a str, not NoneType"),
            (codex32.encode_payload, (2, "name", 16, "q"), "share_index must be a str, not int"),
            (codex32.encode_payload, (*header, b"q"), "payload must be a str or a bytearray, not bytes"),
            (codex32.derive, (a, "s"), "texts must be a list of shares, not str"),
            (codex32.derive, (a.encode(), "s"), "texts must be a list of shares, not bytes"),
            (codex32.derive, (bytearray(a.encode()), "s"), "texts must be a list of shares, not bytearray"),
            (codex32.derive, (None, "s"), "texts must be a list of shares, not NoneType"),
            (codex32.derive, ([a, None], "s"), "each share of texts must be a str or a bytearray, not NoneType"),
            (codex32.derive, ([a], None), "share_index must be a str, not NoneType"),
            (codex32.derive, ([a], ["s"]), "share_index must be a str, not list"),
            (codex32.recover, (a,), "texts must be a list of shares, not str"),
            (codex32.recover, (5,), "texts must be a list of shares, not int"),
            (codex32.recover, ([5],), "each share of texts must be a str or a bytearray, not int"),
            (codex32.propose, (None,), "text must be a str or a bytearray, not NoneType"),
            (codex32.propose_long, (b"ms1",), "text must be a str or a bytearray, not bytes"),
        ):
            with self.subTest(words), self.assertRaises(TypeError) as raised:
                call(*arguments)
            self.assertEqual(str(raised.exception), words)
        for checksum, shown in ((5, "5"), (0, "0"), (None, "NoneType"), ("bech32", "str"), ([], "list"), (b"x", "bytes")):
            words = f"checksum must be Checksum.BECH32 or Checksum.BECH32M, not {shown}"
            for call, arguments in (
                (encode, (checksum, "a", b"")),
                (check, (checksum, text)),
                (correct, (checksum, text)),
                (nearest, (checksum, text)),
                (near_edits, (checksum, text)),
            ):
                with self.subTest(words), self.assertRaises(ValueError) as raised:
                    call(*arguments)
                self.assertEqual(str(raised.exception), words)
        # The order of earlier versions: the text is taken for a checksum.
        for call in (check, correct, nearest, near_edits):
            with self.assertRaises(ValueError) as raised:
                call(text, bech32)
            self.assertEqual(str(raised.exception), "checksum must be Checksum.BECH32 or Checksum.BECH32M, not str")
        for location in (-1, -(2**64), -(2**70)):
            words = f"a location of erasures is negative: {location} (0 is the last character)"
            for call in (correct, nearest):
                for mistyped in (text, "a12uel5q", "a12ue?5l"):
                    with self.subTest(words), self.assertRaises(ValueError) as raised:
                        call(bech32, mistyped, erasures=[0, location])
                    self.assertEqual((type(raised.exception), str(raised.exception)), (ValueError, words))
        for call, mistyped in ((correct, text), (nearest, "a12ue?5l"), (correct, "a12uel5q"), (nearest, "")):
            for place in (-1, len(mistyped), -(2**70), 2**70):
                with self.subTest((mistyped, place)), self.assertRaises(ValueError) as raised:
                    call(bech32, mistyped, [place])
                words = f"the text has no place {place} (0 is the first character)"
                self.assertEqual((type(raised.exception), str(raised.exception)), (ValueError, words))
        for call in (correct, nearest):
            for known in (None, 3, "12", b"12"):
                with self.assertRaises(TypeError) as raised:
                    call(bech32, text, erasures=known)
                words = f"erasures must be a list of locations, not {type(known).__name__}"
                self.assertEqual(str(raised.exception), words)
        for count in (-1, 3, 2**64):
            with self.assertRaises(ValueError) as raised:
                nearest(bech32, text, (), count)
            self.assertEqual(str(raised.exception), f"errors must be 0, 1 or 2, not {count}")

    def test_takes_whole_numbers_of_other_types(self):
        class Two:
            def __index__(self):
                return 2

        two = Two()
        self.assertEqual(correct(Checksum.BECH32, "a1zuel5l", [two]), correct(Checksum.BECH32, "a1zuel5l", [2]))
        self.assertEqual(correct(Checksum.BECH32, "a12uez5l", erasures=[two]).text, "a12uel5l")
        self.assertEqual(nearest(Checksum.BECH32, "a12uelqq", [two], two), nearest(Checksum.BECH32, "a12uelqq", [2], 2))
        self.assertEqual(segwit.encode("bc", two, PROGRAM), segwit.encode("bc", 2, PROGRAM))
        self.assertEqual(codex32.encode(two, "test", "s", bytes(16)), codex32.encode(2, "test", "s", bytes(16)))
        self.assertEqual(encode(Checksum.BECH32, "a", array.array("B", b"xyz")), encode(Checksum.BECH32, "a", b"xyz"))


class Addresses(unittest.TestCase):
    def test_reads_and_writes(self):
        text = "BC1QW508D6QEJXTDG4Y5R3ZARVARY0C5XW7KV8F3T4"
        address = segwit.decode(text)
        self.assertEqual(address, ("BC", 0, PROGRAM))
        self.assertEqual(segwit.encode(*address), text.lower())
        self.assertEqual(segwit.encode("bc", 16, b"\x75\x1e"), "bc1sw50qgdz25j")

    def test_refuses(self):
        for text, error in NO_ADDRESS:
            with self.subTest(text), self.assertRaises(error):
                segwit.decode(text)
        with self.assertRaises(errors.InvalidCharacter) as raised:
            segwit.decode("bc1p38j9r5y49hruaue7wxjce0updqjuyyx0kh56v8s25huc6995vvpql3jow4")
        self.assertEqual(raised.exception.place, 59)
        for hrp, version, length, error in [
            ("bc", 17, 20, errors.BadVersion),
            ("bc", -1, 20, errors.BadVersion),
            ("bc", 2**32, 20, errors.BadVersion),
            ("bc", 1, 1, errors.ProgramTooShort),
            ("bc", 1, 41, errors.ProgramTooLong),
            ("bc", 0, 21, errors.ProgramNotV0),
            ("anhrpthatis19charsx", 1, 40, errors.EncodedAddressTooLong),
            ("", 1, 40, errors.HrpEmpty),
        ]:
            self.assertRaises(error, segwit.encode, hrp, version, bytes(length))
        # One class, and the number that the library answers.
        for version, number in [(17, 52), (32, 4), (2**32, 4), (-1, 4)]:
            with self.assertRaises(errors.BadVersion) as raised:
                segwit.encode("bc", version, PROGRAM)
            self.assertEqual(raised.exception.number, number)


    def test_reads_those_of_one_network(self):
        text = segwit.encode("bc", 0, PROGRAM)
        for given, hrp in (text, "bc"), (text, "BC"), (text.upper(), "bc"), (text, None):
            self.assertEqual(segwit.decode(given, hrp), segwit.decode(given))
        for hrp in "tb", "bcrt", "b", "c", "TB":
            with self.assertRaises(errors.OtherHrp) as caught:
                segwit.decode(text, hrp=hrp)
            refused = caught.exception
            self.assertEqual((refused.text, refused.place, refused.number), (text, None, 49))
        # A part that is none is told first, then a fault of the address, then another part.
        for hrp, error in ("", errors.HrpEmpty), ("b c", errors.HrpInvalid), ("Bc", errors.HrpMixedCase), ("\u212a", errors.HrpNotAscii):
            self.assertRaises(error, segwit.decode, "bc1", hrp)
        self.assertRaises(errors.WrongChecksum, segwit.decode, text[:-1] + "q", "tb")
        for hrp in b"bc", 5, ["bc"]:
            self.assertRaisesRegex(TypeError, "hrp must be a str", segwit.decode, text, hrp)


class Suggestions(unittest.TestCase):
    TAPROOT = "bc1p0xlxvlhemja6c4dqv22uapctqupfhlxm9h8z3k2e72q4k9hcz7vqzk5jj0"

    def test_suggests(self):
        for right in (ADDRESS, self.TAPROOT):
            self.assertEqual(segwit.suggest(right, "bc"), [(right, (), None)])
            self.assertEqual(segwit.suggest(right.upper(), "BC"), [(right.upper(), (), None)])
            self.assertEqual(segwit.suggest(right, "tb"), [])
            for places, other in (([10, 20], "y"), ([10, 20, 30], "?"), ([11], "y"), ([12], "?")):
                text = "".join(other if place in places else it for place, it in enumerate(right))
                changes = tuple((place, text[place], right[place]) for place in places if text[place] != right[place])
                self.assertEqual(segwit.suggest(text, "bc"), [(right, changes, None)])
                [found] = segwit.suggest(text.upper(), "bc")
                self.assertEqual((found.text, len(found.changes)), (right.upper(), len(changes)))
            [found] = segwit.suggest(right[:20] + right[21:], "bc")
            self.assertEqual((found.text, found.changes, found.edit.kind), (right, (), EditKind.PUT_IN))
            [found] = segwit.suggest(right[:20] + right[21] + right[20] + right[22:], "bc")
            self.assertEqual((found.text, found.edit), (right, (EditKind.SWAPPED, 20, right[21] + right[20])))
            self.assertEqual(str(found), f"characters 21 and 22: {right[21]} and {right[20]} are swapped")
        for text in ("a12uel5l", "q1" * 46, ADDRESS.replace("w5", "??").replace("za", "??")):
            self.assertEqual(segwit.suggest(text, "bc"), [])
        # The text itself may be of any form, here version 1 with 33 bytes, and a guess may not.
        other = segwit.encode("bc", 1, bytes(33))
        self.assertEqual(segwit.suggest(other, "bc"), [(other, (), None)])
        self.assertEqual(segwit.suggest(other[:-1] + ("q" if other[-1] != "q" else "p"), "bc"), [])

    def test_refuses(self):
        for hrp, error in (("", errors.HrpEmpty), ("aB", errors.HrpMixedCase), ("a b", errors.HrpInvalid), ("\xe9", errors.HrpNotAscii)):
            with self.assertRaises(error) as raised:
                segwit.suggest("x1b?", hrp)
            self.assertEqual(raised.exception.text, hrp)
        for text, error, place in (("x1?b?", errors.InvalidCharacter, 3), ("bc1?qQ", errors.MixedCase, 5), ("qq", errors.NoSeparator, None)):
            with self.assertRaises(error) as raised:
                segwit.suggest(text, "bc")
            self.assertEqual((raised.exception.text, raised.exception.place), (text, place))
        self.assertRaises(TypeError, segwit.suggest, b"bc1", "bc")
        self.assertRaises(TypeError, segwit.suggest, "bc1", None)


class Codex32(unittest.TestCase):
    def test_parses(self):
        self.assertEqual(codex32.parse(SECRET), (0, "test", "s", "x" * 26))
        share = codex32.parse(SHARE)
        self.assertEqual(share, (2, "NAME", "A", "320ZYXWVUTSRQPNMLKJHGFEDCA"))

    def test_refuses(self):
        for text, error in [
            (SECRET[:-1], errors.BadLength),
            ("mt" + SECRET[2:], errors.NotMs),
            (SECRET[:-1] + "q", errors.WrongChecksum),
            ("ms10fauxsxxxxxxxxxxxxxxxxxxxxxxxxxxve740yyge2ghP", errors.MixedCase),
            ("ms1fauxxxxxxxxxxxxxxxxxxxxxxxxxxxxxda3kr3s0s2swg", errors.BadThreshold),
            ("ms10fauxxxxxxxxxxxxxxxxxxxxxxxxxxxx0z26tfn0ulw3p", errors.BadShareIndex),
            ("1" + SECRET[3:], errors.HrpEmpty),
            ("m" * 84 + SECRET[2:], errors.HrpTooLong),
            ("m\xe9" + SECRET[2:], errors.HrpNotAscii),
            ("m " + SECRET[2:], errors.HrpInvalid),
            (SECRET[3:].replace("1", ""), errors.NoSeparator),
            (SECRET[:30] + "b" + SECRET[31:], errors.InvalidCharacter),
            (SECRET[:30] + "\udc00" + SECRET[31:], errors.NotUnicode),
        ]:
            for call in (codex32.parse, codex32.share, lambda it: codex32.recover([SHARE, it, "ms1"])):
                with self.subTest(text), self.assertRaises(error) as raised:
                    call(text)
                self.assertEqual(raised.exception.text, text)
        self.assertRaises(errors.BadLength, codex32.parse, LONG)
        for length in (0, 47, 94, 124, 128, 1 << 20):
            text = "ms1".ljust(length, "q")
            for call in (codex32.share, codex32.propose, codex32.propose_long):
                self.assertRaises(errors.BadLength if length else errors.NoSeparator, call, text[:length])
        with self.assertRaises(errors.BitsLeftOver) as raised:
            codex32.share(ODD)
        self.assertEqual((raised.exception.text, raised.exception.number), (ODD, 87))

    def test_reads_shares(self):
        secret = codex32.share(SECRET)
        self.assertEqual(secret, (0, "test", "s", bytes.fromhex("318c6318c6" * 3 + "31"), SECRET))
        share = codex32.share(SHARE)
        self.assertEqual((share.threshold, share.identifier, share.share_index), (2, "name", "a"))
        self.assertEqual((len(share.data), share.text), (16, SHARE))
        self.assertEqual(codex32.share(LONG).data[:4], bytes.fromhex("dc542325"))
        for text in (SECRET, SHARE, LONG):
            share = codex32.share(text)
            again = codex32.share(codex32.encode(*share[:4]))
            self.assertEqual(again[:4], share[:4])

    def test_makes_strings(self):
        for size in range(100):
            data = bytes(range(size))
            if size in range(16, 45) or size in (63, 64):
                text = codex32.encode(9, "CASH", "A", data)
                self.assertEqual(codex32.share(text), (9, "cash", "a", data, text))
                for same in (bytearray(data), memoryview(data), memoryview(bytes(2 * size))[::2]):
                    self.assertEqual(len(codex32.encode(9, "cash", "a", same)), len(text))
            else:
                self.assertRaises(errors.BadSize, codex32.encode, 9, "cash", "a", data)
        kept = bytearray(range(16))
        codex32.encode(0, "test", "S", kept)
        self.assertEqual(kept, bytes(range(16)))
        for threshold in range(12):
            if threshold in (0, *range(2, 10)):
                codex32.encode(threshold, "test", "s", kept)
            else:
                self.assertRaises(errors.BadThreshold, codex32.encode, threshold, "test", "s", kept)
        for words, error in [
            ((-1, "bank", "b", b""), errors.BadThreshold),
            ((2**32, "test", "s", b""), errors.BadThreshold),
            ((2, "bank", "b", b""), errors.BadIdentifier),
            ((2, "tesT", "b", b""), errors.BadIdentifier),
            ((2, "tes", "s", b""), errors.BadIdentifier),
            ((2, "tes\udc00", "s", b""), errors.BadIdentifier),
            ((0, "test", "b", b""), errors.NoShareIndex),
            ((0, "test", "", b""), errors.NoShareIndex),
            ((0, "test", "ss", b""), errors.NoShareIndex),
            ((0, "test", "\U0001f600", b""), errors.NoShareIndex),
            ((0, "test", "a", b""), errors.BadShareIndex),
            ((0, "test", "s", b""), errors.BadSize),
        ]:
            with self.subTest(words), self.assertRaises(error):
                codex32.encode(*words)
        self.assertRaises(TypeError, codex32.encode, "0", "test", "s", kept)
        self.assertRaises(TypeError, codex32.encode, 0, b"test", "s", kept)
        self.assertRaises(TypeError, codex32.encode, 0, "test", 16, kept)
        self.assertRaises(TypeError, codex32.encode, 0, "test", "s", "text")

    def test_derives(self):
        self.assertEqual(codex32.derive([SHARE, OTHER_SHARE], "D"), "ms12namedll4f8jlh4e5vdvuldlfxu2jhdnlsm97xvenrxeg")
        secret = codex32.derive(iter([OTHER_SHARE, SHARE]), "s")
        self.assertEqual(secret, "ms12names6xqguzttxkeqnjsjzv4jv3nz5k3kwgsphuh6evw")
        self.assertEqual(codex32.recover(iter([OTHER_SHARE, SHARE])).hex(), "d1808e096b35b209ca12132b264662a5")
        self.assertEqual(codex32.derive([SECRET], "S"), SECRET)
        self.assertEqual(codex32.derive([LONG.upper()], "s"), LONG)
        self.assertEqual(codex32.recover([LONG.upper()]), codex32.share(LONG).data)
        # All of a set, any two of which give each.
        whole = [codex32.derive([SHARE, OTHER_SHARE], index) for index in bech32_proved.ALPHABET]
        for n, text in enumerate(whole):
            two = [whole[(n + 3) % 32], whole[(n + 20) % 32]]
            self.assertEqual(codex32.derive(two, text[8]), text)
        self.assertEqual(codex32.derive(whole, "s"), secret)
        self.assertEqual(codex32.recover(whole), codex32.share(secret).data)

    def test_makes_strings_of_characters(self):
        for text in (SECRET, SHARE, OTHER_SHARE, "ms13casha320zyxwvutsrqpnmlkjhgfedca2a8d0zehn8a0t"):
            share = codex32.parse(text)
            for payload in (share.payload.lower(), share.payload.upper()):
                self.assertEqual(codex32.encode_payload(*share[:3], payload), text.lower())
        self.assertEqual(codex32.encode_payload(0, "0c8v", "S", LONG[9:-15]), LONG)
        for count in range(150):
            # As many as bytes have: the last holds bits that are left over.
            payload = "l" * count
            if (26 <= count <= 71 or count in (101, 103)) and 5 * count % 8 <= 4:
                text = codex32.encode_payload(9, "CASH", "A", payload)
                self.assertEqual(text[9 : 9 + count], payload)
                self.assertEqual(codex32.share(text), (9, "cash", "a", b"\xff" * (5 * count // 8), text))
            else:
                self.assertRaises(errors.BadSize, codex32.encode_payload, 9, "cash", "a", payload)
        payload = SHARE[9:35]
        for words, error, place in [
            ((1, "bank", "b", "b"), errors.BadThreshold, None),
            ((2**32, "bank", "b", "b"), errors.BadThreshold, None),
            ((0, "bank", "b", "b"), errors.BadIdentifier, None),
            ((0, "test", "b", "b"), errors.NoShareIndex, None),
            ((0, "test", "a", "b"), errors.BadShareIndex, None),
            ((0, "test", "s", "b"), errors.InvalidCharacter, 0),
            ((0, "test", "s", "1"), errors.InvalidCharacter, 0),
            ((2, "test", "s", payload.replace("Z", "1")), errors.InvalidCharacter, 3),
            ((2, "test", "s", payload.replace("Z", "?").lower()), errors.InvalidCharacter, 3),
            ((2, "test", "s", payload.replace("K", "\u212a")), errors.InvalidCharacter, 17),
            ((2, "test", "s", payload.replace("Z", "\U0001f600") + "b"), errors.InvalidCharacter, 26),
            ((2, "test", "s", payload.replace("Z", "\udc00")), errors.NotUnicode, 3),
            ((2, "test", "s", payload.replace("X", "x")), errors.MixedCase, 5),
            ((2, "test", "s", payload[1:]), errors.BadSize, None),
            ((2, "test", "s", ""), errors.BadSize, None),
            ((2, "test", "s", "q" * (1 << 20)), errors.BadSize, None),
        ]:
            with self.subTest(words), self.assertRaises(error) as raised:
                codex32.encode_payload(*words)
            self.assertEqual(raised.exception.place, place)
            self.assertEqual(raised.exception.text, None if place is None else words[3])
            said = {
                errors.InvalidCharacter: "a character of the payload is not of the alphabet: character ",
                errors.MixedCase: "the payload has letters of both cases: character ",
            }
            self.assertTrue(str(raised.exception).startswith(said.get(error, error.sentence)))
        self.assertRaises(TypeError, codex32.encode_payload, "0", "test", "s", payload)
        self.assertRaises(TypeError, codex32.encode_payload, 0, b"test", "s", payload)
        self.assertRaises(TypeError, codex32.encode_payload, 0, "test", 16, payload)
        self.assertRaises(TypeError, codex32.encode_payload, 0, "test", "s", payload.encode())

    def test_what_one_share_of_two_says(self):
        # How many values of the last character of a secret's payload a derived share leaves, of as many as there
        # are: all, where the other string is of random characters, and not where it is of random bytes.
        for size, most, left in [(20, 32, {32}), (32, 2, {1}), (16, 8, {2, 4}), (64, 4, {1, 2})]:
            count = (8 * size + 4) // 5
            whole = [codex32.encode(2, "cash", "s", bytes(size - 1) + bytes([end])) for end in range(most)]
            of_bytes = [codex32.encode(2, "cash", "a", bytes(size - 1) + bytes([end])) for end in range(most)]
            ends = [last.rjust(count, "q") for last in bech32_proved.ALPHABET]
            of_characters = [codex32.encode_payload(2, "cash", "a", payload) for payload in ends]
            for index in "c9":
                for others, wanted in [(of_characters, {most}), (of_bytes, left)]:
                    secrets = {}
                    for secret in whole:
                        for other in others:
                            secrets.setdefault(codex32.derive([secret, other], index), set()).add(secret)
                    self.assertLessEqual({len(it) for it in secrets.values()}, wanted)

    def test_what_four_shares_of_five_say(self):
        # Of 18 bytes the last character of the secret's payload holds four bits. Four shares tell all of them if the
        # other strings were made of random bytes, and none if they were made of random characters.
        strings, shares, count, alphabet = "scku6", "fg5x", 29, bech32_proved.ALPHABET

        def seen(at, bit):
            # The last characters of the shares, as one number, where one string ends in a bit and the others in zeros.
            ends = [bit if place == at else 0 for place in range(5)]
            payloads = [alphabet[end].rjust(count, "q") for end in ends]
            whole = [codex32.encode_payload(5, "cash", *it) for it in zip(strings, payloads)]
            last = [codex32.derive(whole, index)[8 + count] for index in shares]
            return sum(alphabet.index(it) << 5 * n for n, it in enumerate(last))

        def rank(rows):
            found = {}
            for row in rows:
                while row and row.bit_length() in found:
                    row ^= found[row.bit_length()]
                found.setdefault(row.bit_length(), row)
            return len(found) - (0 in found)

        self.assertEqual(codex32.encode(5, "cash", "s", bytes(17) + b"\1")[8 + count], alphabet[2])
        secret = [seen(0, 2 << n) for n in range(4)]
        for lowest, told in ((2, 4), (1, 0)):
            bits = [lowest << n for n in range(5) if lowest << n < 32]
            others = [seen(at, bit) for at in range(1, 5) for bit in bits]
            self.assertEqual(rank(secret + others) - rank(others), told)

    def test_refuses_sets(self):
        unlike = codex32.encode(2, "name", "d", bytes(16))
        longer = codex32.encode(2, "name", "d", bytes(17))
        for given, index, error, text in [
            ([], "s", errors.TooFewShares, None),
            ([], "b", errors.NoShareIndex, None),
            (["ms1", SHARE], "", errors.NoShareIndex, None),
            ([SHARE], "a", errors.TooFewShares, None),
            ([SHARE, SECRET, SECRET], "s", errors.OtherSet, SECRET),
            ([SHARE, OTHER_SHARE, longer], "s", errors.OtherSet, longer),
            ([SHARE, OTHER_SHARE, SHARE.lower()], "s", errors.IndexTwice, SHARE.lower()),
            ([SECRET, SECRET], "a", errors.IndexTwice, SECRET),
            ([SECRET], "a", errors.BadShareIndex, None),
            ([SHARE, OTHER_SHARE, unlike], "s", errors.Contradiction, None),
            # More than there are indices.
            ([SHARE] * 33, "s", errors.IndexTwice, SHARE),
            ([SHARE] * 32 + [SECRET], "s", errors.OtherSet, SECRET),
            ([SHARE] * 33 + ["ms1"], "s", errors.BadLength, "ms1"),
            # Its payload holds no whole bytes: it is one of a set all the same.
            ([ODD], "s", errors.TooFewShares, None),
        ]:
            with self.subTest((given, index)), self.assertRaises(error) as raised:
                codex32.derive(given, index)
            self.assertEqual(raised.exception.text, text)
            if index == "s":
                with self.assertRaises(error) as raised:
                    codex32.recover(given)
                self.assertEqual(raised.exception.text, text)
        self.assertRaises(TypeError, codex32.recover, SHARE)
        self.assertRaises(TypeError, codex32.recover, [SHARE.encode()])
        self.assertRaises(TypeError, codex32.derive, [SHARE], 16)

    def test_proposes(self):
        self.assertEqual(codex32.propose(SECRET), SECRET)
        damaged = SECRET[:20] + "????" + SECRET[24:-2] + "qq"
        self.assertEqual(codex32.propose(damaged), SECRET)
        self.assertIsNone(codex32.propose(SECRET[:20] + "?" * 10 + SECRET[30:]))
        with self.assertRaises(errors.InvalidCharacter) as raised:
            codex32.propose(SECRET[:30] + "?b?" + SECRET[33:])
        self.assertEqual(raised.exception.place, 31)
        self.assertRaises(errors.BadLength, codex32.propose, LONG)

    def test_proposes_long_strings(self):
        self.assertEqual(codex32.propose_long(LONG), LONG)
        self.assertEqual(codex32.propose_long(LONG.upper()), LONG.upper())
        self.assertEqual(codex32.propose_long(LONG[:20].upper() + "?" * 8 + LONG[28:].upper()), LONG.upper())
        self.assertEqual(codex32.propose_long(LONG[:20] + "?" * 8 + LONG[28:]), LONG)
        self.assertIsNone(codex32.propose_long(LONG[:20] + "?" * 9 + LONG[29:]))
        self.assertRaises(errors.BadLength, codex32.propose_long, SECRET)
        # A share that is mended, and then used.
        mended = codex32.propose(SHARE.replace("ZYX", "Z?P"))
        self.assertEqual(mended, SHARE)
        self.assertEqual(codex32.propose(SHARE.lower().replace("zyx", "z?p")), SHARE.lower())
        self.assertEqual(codex32.recover([mended, OTHER_SHARE])[:2].hex(), "d180")


# A call that never ends, which no signal interrupts, in place of one of the library, and what Ctrl-C makes of it.
INTERRUPTED = """
import ctypes, signal
from bech32_proved import Checksum, _library, decode, nearest

# A shell may have started all of this without the signal.
signal.signal(signal.SIGINT, signal.default_int_handler)
lock, mutex = ctypes.CDLL(None).pthread_mutex_lock, ctypes.create_string_buffer(64)
lock(mutex)
_library.nearest = lambda *given: print("searching", flush=True) or lock(mutex)
try:
    nearest(Checksum.BECH32, "a12uel5l")
except KeyboardInterrupt:
    print("interrupted", decode("a12uel5l").hrp)
"""


class Package(unittest.TestCase):
    def test_examples(self):
        for module in (bech32_proved, codex32, edits, segwit, texts):
            tried = doctest.testmod(module)
            self.assertEqual(tried.failed, 0)
            self.assertGreater(tried.attempted, 0)

    def test_each_refusal_has_a_class(self):
        for number, error in errors.BY_NUMBER.items():
            self.assertTrue(issubclass(error, bech32_proved.Refused))
            self.assertTrue(error().number == number or error is errors.BadVersion)
            self.assertTrue(issubclass(error, ValueError) and error.sentence)
            self.assertEqual(str(error("xy1b", 3)), error.sentence + ": character 4, b")

    def test_errors_are_copied(self):
        for error in errors.BY_NUMBER.values():
            for refused in (error(), error("a1b"), error("a1b", 2), error("ab", 1), error("ab", 1, "it is wrong")):
                for again in copies(refused):
                    self.assertIs(type(again), error)
                    self.assertEqual(str(again), str(refused))
                    self.assertEqual((again.text, again.place), (refused.text, refused.place))
                    self.assertEqual((again.args, again.character), (refused.args, refused.character))
        noted = errors.InvalidCharacter("a1b", 2)
        noted.asked = "which"
        for again in copies(noted):
            self.assertEqual(again.asked, "which")

    def test_results_are_copied(self):
        address = segwit.decode("BC1QW508D6QEJXTDG4Y5R3ZARVARY0C5XW7KV8F3T4")
        mended = correct(Checksum.BECH32, "a12uel5q")
        results = [decode("A12UEL5L"), decode_with_checksum("A12UEL5L"), address, mended, *mended.changes]
        results += [check(Checksum.BECH32, "A12UEL5L"), Checksum.BECH32M]
        results += [codex32.parse(SECRET), codex32.share(SECRET)]
        results += near_edits(Checksum.BECH32, TWO_EDITS)
        for result in results:
            for again in copies(result):
                self.assertEqual(again, result)
                self.assertIs(type(again), type(result))

    def test_a_folder_of_sources_says_what_it_is(self):
        with tempfile.TemporaryDirectory() as folder:
            package = Path(bech32_proved.__file__).parent
            shutil.copytree(package, Path(folder) / "bech32_proved", ignore=shutil.ignore_patterns("*.so"))
            words = self.failure(folder)
            self.assertTrue(words.startswith("ImportError: libbech32_c.so is not in "), words)
            self.assertIn("install the package by `pip install ./bindings/python`", words)
            # What is no library here.
            (Path(folder) / "bech32_proved/libbech32_c.so").write_bytes(b"none")
            words = self.failure(folder)
            self.assertTrue(words.startswith("ImportError: "), words)
            self.assertIn("libbech32_c.so does not load here (", words)

    def failure(self, folder):
        """The last line that Python prints where the package of a folder is not imported."""
        ran = subprocess.run([sys.executable, "-c", "import bech32_proved"], cwd=folder, stderr=subprocess.PIPE)
        self.assertEqual(ran.returncode, 1)
        return ran.stderr.decode().strip().splitlines()[-1]

    @unittest.skipUnless(sys.platform.startswith("linux"), "it wants the signals and the library of C")
    def test_ctrl_c_ends_a_call(self):
        program = subprocess.Popen([sys.executable, "-c", INTERRUPTED], stdout=subprocess.PIPE)
        self.addCleanup(program.stdout.close)
        self.addCleanup(program.kill)
        self.assertEqual(program.stdout.readline(), b"searching\n")
        began = time.monotonic()
        program.send_signal(signal.SIGINT)
        printed, _ = program.communicate(timeout=20)
        # Within a second where the machine is free.
        self.assertLess(time.monotonic() - began, 10)
        self.assertEqual((printed, program.returncode), (b"interrupted a\n", 0))

    def test_an_interrupted_call_keeps_its_memory(self):
        # All that the call has of the memory is its description.
        memory = Lent(64).memory
        gc.collect()
        start = ctypes.addressof(memory.held)
        self.assertTrue(start <= memory.start <= memory.start + 64 <= start + len(memory.held))

    def test_calls_in_other_threads(self):
        found = []

        def search():
            found.append(nearest(Checksum.BECH32, NEAR[0][0]))

        threads = [threading.Thread(target=search) for _ in range(4)]
        for thread in threads:
            thread.start()
        for thread in threads:
            thread.join()
        self.assertEqual([[near.text for near in it] for it in found], [[NEAR[0][2]]] * 4)
        with self.assertRaises(TypeError):
            interruptible(texts._library.nearest, "no number")
        with mock.patch.object(threading.Thread, "start", side_effect=RuntimeError):
            self.assertEqual(nearest(Checksum.BECH32, NEAR[0][0])[0].text, NEAR[0][2])


@contextlib.contextmanager
def counted(name):
    """The arguments of each call of a function of the library."""
    function, asked = getattr(texts._library, name), []

    def called(*arguments):
        asked.append(arguments)
        return function(*arguments)

    with mock.patch.object(texts._library, name, called):
        yield asked


def copies(value):
    """What copy and pickle make of a value."""
    yield copy.copy(value)
    yield copy.deepcopy(value)
    for protocol in range(pickle.HIGHEST_PROTOCOL + 1):
        yield pickle.loads(pickle.dumps(value, protocol))


if __name__ == "__main__":
    unittest.main()
