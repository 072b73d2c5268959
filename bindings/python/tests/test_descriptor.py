"""Tests descriptors (BIP-380), over the package as it is installed."""

import doctest
import unittest

from bech32_proved import descriptor, errors
from bech32_proved.descriptor import Mistake

RIGHT = "raw(deadbeef)#89f8spxm"
LONG = "wpkh(02f9308a019258c31049344f85f89d5229b531c845836f99b08601f113bce036f9)#8zl0zxma"


class Descriptors(unittest.TestCase):
    def test_examples(self):
        tried = doctest.testmod(descriptor)
        self.assertEqual(tried.failed, 0)
        self.assertGreater(tried.attempted, 0)

    def test_computes_and_tests(self):
        for text in (RIGHT, LONG):
            before, _, sum_ = text.rpartition("#")
            self.assertEqual(descriptor.checksum(before), sum_)
            self.assertEqual(descriptor.checksum(bytearray(before.encode())), sum_)
            self.assertEqual(descriptor.check(text), before)
            self.assertEqual(descriptor.check(bytearray(text.encode())), before.encode())
        self.assertEqual(len(descriptor.checksum("")), 8)
        every = "".join(map(chr, range(32, 127)))
        self.assertEqual(descriptor.check(f"{every}#{descriptor.checksum(every)}"), every)

    def test_refuses(self):
        for text, error, place in (
            ("raw(dead\x1fbeef)", errors.NotInDescriptor, 8),
            ("raw(d\xe9adbeef)", errors.NotInDescriptor, 5),
            ("\U0001f600", errors.NotInDescriptor, 0),
        ):
            for call, given in ((descriptor.checksum, text), (descriptor.check, f"{text}#89f8spxm")):
                with self.subTest(given), self.assertRaises(error) as raised:
                    call(given)
                self.assertEqual((raised.exception.place, raised.exception.text), (place, given))
        for text, error in (
            ("", errors.NoDescriptorChecksum),
            ("raw(deadbeef)", errors.NoDescriptorChecksum),
            ("raw(deadbeef)#", errors.NoDescriptorChecksum),
            ("raw(deadbeef)#89f8spx", errors.NoDescriptorChecksum),
            ("raw(deadbeef)#89f8spxmm", errors.NoDescriptorChecksum),
            ("raw(deadbeef)#89f8spxb", errors.NotInDescriptor),
            ("raw(deadbeef)#89f8spxM", errors.NotInDescriptor),
            ("raw(deadbeef)#89f8spxq", errors.WrongChecksum),
            ("raw(deedbeef)#89f8spxm", errors.WrongChecksum),
        ):
            with self.subTest(text), self.assertRaises(error) as raised:
                descriptor.check(text)
            self.assertEqual(raised.exception.text, text)
        for call in (descriptor.checksum, descriptor.check, descriptor.mend, descriptor.mend_two):
            self.assertRaises(TypeError, call, b"raw(deadbeef)#89f8spxm")
            self.assertRaises(TypeError, call, None)

    def alone(self, text, right, kind, places, from_, to, words):
        """That one text is listed, and how it is made, of a `str` and of a `bytearray`."""
        for given in (text, bytearray(text.encode())):
            found = [it for it in descriptor.mend(given) if it.text == right]
            self.assertEqual(found, [(right, kind, places, from_, to)])
            self.assertEqual(str(found[0]), words)

    def test_mends(self):
        for text in (RIGHT, LONG):
            for place in range(0, len(text), 5):
                it, front, behind = text[place], text[:place], text[place + 1 :]
                other = "x" if it != "x" else "y"
                words = f"character {place + 1}: {other} becomes {it}"
                self.alone(front + other + behind, text, Mistake.CHANGED, (place,), other, it, words)
                if it != behind[:1]:
                    self.alone(front + behind, text, Mistake.PUT_IN, (place,), "", it, f"character {place + 1}: {it} is put in")
                if other not in (it, text[place + 1 : place + 2]):
                    words = f"character {place + 2}: {other} is left out"
                    self.alone(front + it + other + behind, text, Mistake.LEFT_OUT, (place + 1,), other, "", words)
                if behind[:1] not in ("", it):
                    swapped = front + behind[0] + it + behind[1:]
                    words = f"characters {place + 1} and {place + 2}: {behind[0]} and {it} are swapped"
                    self.alone(swapped, text, Mistake.SWAPPED, (place, place + 1), behind[0] + it, it + behind[0], words)
            first, last = text[0], text[-1]
            other = ("x" if first != "x" else "y") + text[1:-1] + ("q" if last != "q" else "p")
            # Two changed characters are more than one mistake.
            self.assertEqual([it for it in descriptor.mend(other) if it.text == text], [])
        # What is not ASCII is one character that is wrong.
        self.assertEqual(descriptor.mend("raw(d\xe9adbeef)#89f8spxm")[0], (RIGHT, Mistake.CHANGED, (5,), "\xe9", "e"))
        self.assertEqual(descriptor.mend("raw(deadbeef) 89f8spxm")[0], (RIGHT, Mistake.CHANGED, (13,), " ", "#"))

    def test_lists_each_once(self):
        for text in (RIGHT, LONG, "", "#", "a", "x" * 300):
            found = descriptor.mend(text)
            self.assertEqual(len({it.text for it in found}), len(found))
            for it in found:
                self.assertNotEqual(it.text, text)
                descriptor.check(it.text)
            self.assertEqual(descriptor.mend(text, 1), found)
            self.assertEqual(descriptor.mend(text, changed=0), [it for it in found if it.kind is not Mistake.CHANGED])

    def alone_by_two(self, right, places, others):
        """That a text is the only one listed of it with other characters at two places, and how it is made."""
        (first, second), it = places, list(right)
        it[first], it[second] = others
        wrong, to = "".join(it), right[first] + right[second]
        found = descriptor.mend_two(wrong)
        self.assertEqual(found, [(right, Mistake.CHANGED, places, others, to)])
        if wrong.isascii():
            self.assertEqual(descriptor.mend_two(bytearray(wrong.encode())), found)
        both = f"{others[0]} becomes {to[0]}, {others[1]} becomes {to[1]}"
        self.assertEqual(str(found[0]), f"characters {first + 1} and {second + 1}: {both}")

    def test_mends_two(self):
        for first in range(0, len(RIGHT), 3):
            for second in range(first + 1, len(RIGHT), 5):
                others = ("y" if RIGHT[first] == "x" else "x") + ("p" if RIGHT[second] == "q" else "q")
                self.alone_by_two(RIGHT, (first, second), others)
        self.alone_by_two(LONG, (0, len(LONG) - 1), "Wq")
        self.alone_by_two(LONG, (len(LONG) - 9, len(LONG) - 1), " #")
        self.alone_by_two(RIGHT, (5, 6), "\xe9\U0001f600")
        for text in (RIGHT, "xaw(deadbeef)#89f8spxm", "", "#", "raw(deadbeef)"):
            self.assertEqual(descriptor.mend_two(text), [], text)
        self.assertEqual(descriptor.mend_two("x" * 1400), [])
        self.assertRaises(errors.DescriptorTooLong, descriptor.mend_two, "x" * 1401)
        self.assertEqual(errors.DescriptorTooLong.number, 89)

    def test_refuses_to_mend(self):
        self.assertRaises(errors.DescriptorTooLong, descriptor.mend, "x" * 7501)
        for count in (-1, 2):
            with self.assertRaises(ValueError) as raised:
                descriptor.mend(RIGHT, count)
            self.assertEqual(str(raised.exception), f"changed must be 0 or 1, not {count}")
        self.assertRaises(TypeError, descriptor.mend, RIGHT, 1.0)


if __name__ == "__main__":
    unittest.main()
