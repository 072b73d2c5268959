"""Tests confidential addresses of Liquid, over the package as it is installed."""

import doctest
import unittest

from bech32_proved import errors, liquid

ADDRESS = "lq1qqf8er278e6nyvuwtgf39e6ewvdcnjupn9a86rzpx655y5lhkt0walu3djf9cklkxd3ryld97hu8h3xepw7sh2rlu7q45dcew5"

# An address of version 1, by another checksum.
VERSION_1 = "lq1p8wnk3sw45mype5gtnj3ff88n9g0lvkq49dlvm2chzwppddzkpd0tat26gzaufd46ugp3th2yaplp0xh0pdwuzek5n82fxektmhunk9jy38h86j2y9z2q"


def with_others(changes):
    text = list(ADDRESS)
    for place, other in changes:
        assert text[place] != other
        text[place] = other
    return "".join(text)


class Liquid(unittest.TestCase):
    def test_examples(self):
        tried = doctest.testmod(liquid)
        self.assertEqual(tried.failed, 0)
        self.assertGreater(tried.attempted, 0)

    def test_reads_and_writes(self):
        for text, hrp in ((ADDRESS, "lq"), (ADDRESS.upper(), "LQ")):
            address = liquid.decode(text)
            self.assertEqual((address.hrp, address.version, len(address.program)), (hrp, 0, 20))
            self.assertIn(address.key[0], (2, 3))
            self.assertEqual(liquid.encode(*address), ADDRESS)
        key, program = bytes([2]) + bytes(range(32)), bytes(range(32))
        text = liquid.encode("el", 0, bytearray(key), memoryview(program))
        self.assertEqual(liquid.decode(text), ("el", 0, key, program))

    def test_refuses(self):
        key = bytes(33)
        for version, size, error, number in (
            (-1, 20, errors.BadVersion, 4),
            (32, 20, errors.BadVersion, 4),
            (17, 20, errors.BadVersion, 52),
            (1, 32, errors.UnsupportedVersion, 70),
            (0, 1, errors.ProgramTooShort, 46),
            (0, 41, errors.ProgramTooLong, 47),
            (0, 21, errors.ProgramNotV0, 48),
        ):
            with self.assertRaises(error) as raised:
                liquid.encode("lq", version, key, bytes(size))
            self.assertEqual(raised.exception.number, number)
        for size in (0, 32, 34):
            with self.assertRaises(ValueError) as raised:
                liquid.encode("lq", 0, bytes(size), bytes(20))
            self.assertEqual(str(raised.exception), f"key must have 33 bytes, not {size}")
        for text, error in (
            (with_others([(20, "q")]), errors.WrongChecksum),
            (with_others([(3, "3")]), errors.BadVersion),
            (with_others([(20, "b")]), errors.InvalidCharacter),
            (VERSION_1, errors.UnsupportedVersion),
            ("lq1", errors.NoData),
            ("", errors.NoSeparator),
        ):
            with self.subTest(text), self.assertRaises(error) as raised:
                liquid.decode(text)
            self.assertEqual(raised.exception.text, text)
        self.assertRaises(TypeError, liquid.decode, b"lq1")
        self.assertRaises(TypeError, liquid.encode, "lq", 0, "k", bytes(20))

    def test_mends_up_to_the_bound(self):
        wrong = [(10, "q"), (50, "3"), (90, "y")]
        for count in range(4):
            text = with_others(wrong[:count])
            changes = tuple((place, other, ADDRESS[place]) for place, other in wrong[:count])
            self.assertEqual((liquid.correct(text).text, liquid.correct(text).changes), (ADDRESS, changes))
            self.assertEqual([it.text for it in liquid.nearest(text)], [ADDRESS])
            self.assertEqual(liquid.correct(text.upper()).text, ADDRESS.upper())
        places = [5, 17, 29, 41, 53, 65]
        unreadable = with_others([(place, "?") for place in places])
        mended = liquid.correct(unreadable)
        self.assertEqual(mended.text, ADDRESS)
        self.assertEqual(mended.changes, tuple((place, "?", ADDRESS[place]) for place in places))
        filled = unreadable.replace("?", "q")
        self.assertEqual(liquid.correct(filled, places).text, ADDRESS)
        self.assertEqual(liquid.correct(filled, erasures=[len(ADDRESS) - 1 - it for it in places]).text, ADDRESS)
        for text in (with_others([*((place, "?") for place in places), (90, "y")]), with_others([*wrong, (70, "q")])):
            self.assertRaises(errors.NoCorrection, liquid.correct, text)
        self.assertRaises(errors.NoCorrection, liquid.correct, ADDRESS[:-7] + "?" * 7)
        self.assertRaises(errors.InvalidCharacter, liquid.correct, "lq1qb?")
        for count in (-1, 4):
            with self.assertRaises(ValueError) as raised:
                liquid.nearest(ADDRESS, errors=count)
            self.assertEqual(str(raised.exception), f"errors must be 0, 1, 2 or 3, not {count}")

    def test_looks_for_as_many_errors_as_one_correction_has(self):
        wrong = [(10, "q"), (50, "3"), (90, "y")]
        unreadable = [(place, "?") for place in (5, 17, 29, 41, 53, 65, 77, 85)]
        for known, count in ((0, 3), (1, 2), (2, 2), (3, 1), (4, 1), (5, 0), (6, 0)):
            text = with_others([*unreadable[:known], *wrong[:count]])
            self.assertEqual([it.text for it in liquid.nearest(text)], [ADDRESS])
            if count < 3:
                self.assertEqual(liquid.nearest(with_others([*unreadable[:known], *wrong[: count + 1]])), [])
            # Twice the errors and those that are known are seven at most.
            most = (7 - known) // 2
            self.assertIn(ADDRESS, [it.text for it in liquid.nearest(text, errors=most)])
            if most < 3:
                with self.assertRaises(ValueError) as raised:
                    liquid.nearest(text, errors=most + 1)
                beside = f"beside {known} that are known to be wrong"
                self.assertEqual(str(raised.exception), f"errors must be at most {most} {beside}, not {most + 1}")
        for known in (7, 8):
            for errors_beside in (None, 0, 3):
                self.assertEqual(liquid.nearest(with_others(unreadable[:known]), errors=errors_beside), [])


if __name__ == "__main__":
    unittest.main()
