"""Tests of columns: of each row they say what the call for one text says, in each form of a column. Wants NumPy; pandas is
tested where it is there."""

import ctypes
import doctest
import gc
import random
import signal
import sys
import threading
import unittest

from bech32_proved import Checksum, Refused, check, segwit

try:
    import numpy as np

    from bech32_proved import _arrow, _library, columns
except ImportError:
    raise unittest.SkipTest("NumPy is not there") from None
try:
    import pandas as pd
except ImportError:
    pd = None

ADDRESS = "bc1qw508d6qejxtdg4y5r3zarvary0c5xw7kv8f3t4"


def expected(row, hrp):
    """The number of a row, and what is decoded, by the call for one text."""
    if row is None:
        return 1, None
    try:
        found = segwit.decode(row if isinstance(row, str) else row.decode("utf-8", "surrogateescape"))
    except Refused as refused:
        return refused.number, None
    return (0, (found.version, found.program)) if found.hrp.lower() == hrp else (49, None)


def some(count, seed=1):
    draw, rows = random.Random(seed), []
    for _ in range(count):
        version = draw.choice([0, 0, 1, 16])
        program = bytes(draw.randrange(256) for _ in range(draw.choice([20, 32])))
        text, kind = segwit.encode(draw.choice(["bc", "bc", "tb"]), version, program), draw.randrange(10)
        if kind == 0:
            rows.append(None)
            continue
        if kind == 1:
            at = draw.randrange(len(text))
            text = text[:at] + draw.choice("qpzry9x8gf2tvdw0s3jn54khce6mua7l1bB?é\ud800") + text[at + 1 :]
        if kind == 2:
            text = text.upper()
        if kind == 3:
            text = text[: draw.randrange(len(text))]
        rows.append(text)
    return rows


class Table:
    """A table as pandas has it: iterated, it gives the names of its columns."""

    ndim = 2

    def __iter__(self):
        return iter(["address"])


class Foreign:
    """An array as another library has it: with an offset, bits of which nothing is known, and a release that is counted."""

    released = 0
    # They live as long as what a reader has of them.
    all = []

    def __init__(self, rows, form, skip=3):
        Foreign.all.append(self)
        self.rows, self.form, self.skip = rows, form, skip

    def __arrow_c_array__(self, requested_schema=None):
        data = [b"junk!"] * self.skip + [b"" if it is None else it.encode("utf-8", "surrogatepass") for it in self.rows]
        offsets = np.cumsum([0] + [len(it) for it in data]).astype(np.int64 if self.form in "UZ" else np.int32)
        bits = np.packbits([1] * self.skip + [it is not None for it in self.rows], bitorder="little")
        self.kept = [bits, offsets, np.frombuffer(b"".join(data) or b"\0", np.uint8)]
        places = (ctypes.c_void_p * 3)(*[it.ctypes.data for it in self.kept])

        def release(at):
            Foreign.released += 1
            at.contents.release = type(at.contents.release)()

        self.release = _arrow._FREE_ARRAY(release)
        self.array = _arrow._Array(len(self.rows), -1, self.skip, 3, 0, places, None, None, self.release)
        self.schema = _arrow._Schema(self.form.encode(), b"", None, 2, 0, None, None, _arrow._FREE_SCHEMA(), None)
        return (
            _arrow._capsule(ctypes.addressof(self.schema), b"arrow_schema", None),
            _arrow._capsule(ctypes.addressof(self.array), b"arrow_array", None),
        )


class Views(Foreign):
    """The same with views in place of offsets: of one row they may be any."""

    def __init__(self, rows, form="vu", skip=3, view=None):
        super().__init__(rows, form, skip)
        self.view = view

    def __arrow_c_array__(self, requested_schema=None):
        said = super().__arrow_c_array__()
        blocks, views = [bytearray(b"first"), bytearray()], []
        for row in [b"junk, and more of it"] * self.skip + [_octets(it) for it in self.rows]:
            if len(row) <= 12:
                views.append(len(row).to_bytes(4, "little") + row.ljust(12, b"\0"))
                continue
            at = len(views) % 2
            views.append(np.array([len(row), 0, at, len(blocks[at])], np.int32).tobytes())
            blocks[at] += row
        if self.view:
            views[-1] = np.array(self.view, np.int32).tobytes()
        sizes = np.array([len(it) for it in blocks], np.int64)
        held = [np.frombuffer(b"".join(views) or b"\0", np.uint8), *(np.frombuffer(bytes(it) or b"\0", np.uint8) for it in blocks)]
        self.kept = [self.kept[0], *held, sizes]
        self.places = (ctypes.c_void_p * 5)(*[it.ctypes.data for it in self.kept])
        self.array.buffers, self.array.n_buffers = self.places, 5
        return said


def _octets(row):
    return b"" if row is None else row.encode("utf-8", "surrogatepass")


class Handed:
    """A column that has nothing but its array."""

    def __init__(self, it):
        self.it = it

    def __arrow_c_array__(self, requested_schema=None):
        return self.it.__arrow_c_array__()


class Columns(unittest.TestCase):
    def setUp(self):
        self.rows = some(3000)
        self.right = [expected(it, "bc") for it in self.rows]

    def same(self, found, right=None):
        right = self.right if right is None else right
        programs = found.programs.to_list()
        got = [
            (number, (version, program) if number == 0 else program)
            for number, version, program in zip(found.numbers.tolist(), found.versions.tolist(), programs)
        ]
        self.assertEqual(got, right)
        self.assertEqual([found.programs[at] for at in range(len(found.programs))], programs)

    def test_lists(self):
        for threads in (1, 3):
            self.same(columns.decode(self.rows, "bc", threads=threads))
        self.same(columns.decode(iter(self.rows), hrp="BC"))
        octets = [it if it is None else it.encode("utf-8", "surrogatepass") for it in self.rows]
        self.same(columns.decode(octets, "bc"))

    def test_examples(self):
        tried = doctest.testmod(columns, extraglobs={"columns": columns})
        self.assertEqual(tried.failed, 0)
        self.assertGreater(tried.attempted, 5)

    def test_numpy(self):
        plain = [it if it and it.isascii() else "?" for it in self.rows]
        right = [expected(it, "bc") for it in plain]
        self.same(columns.decode(np.array(plain, "S"), "bc"), right)
        self.same(columns.decode(np.array(plain, "S")[::2], "bc"), right[::2])
        self.same(columns.decode(np.array(plain), "bc"), right)
        self.same(columns.decode(np.array(self.rows, object), "bc", threads=4))

    @unittest.skipIf(pd is None, "pandas is not there")
    def test_pandas(self):
        self.same(columns.decode(pd.Series(self.rows), "bc"))
        self.same(columns.decode(pd.Series(self.rows, dtype="string"), "bc"))
        self.same(columns.decode(pd.Series(self.rows).where(pd.notna, np.nan), "bc"))
        for table in (pd.DataFrame({"address": self.rows}), pd.DataFrame({"address": self.rows, "more": self.rows})):
            self.assertRaises(TypeError, columns.decode, table)
            self.same(columns.decode(table["address"], "bc"))

    def test_arrow(self):
        Foreign.released = 0
        for form in "uUzZ":
            for threads in (1, 2):
                self.same(columns.decode(Foreign(self.rows, form), "bc", threads=threads))
        gc.collect()
        self.assertEqual(Foreign.released, 8)
        self.same(columns.decode(Foreign([], "u")), [])
        with self.assertRaises(TypeError):
            columns.decode(Foreign(self.rows, "i"))

    def test_views(self):
        """Arrow's views, of which a short row stands in the view itself, and others in any of some blocks."""
        for rows in (self.rows, [None, "a12uel5l", "", ADDRESS, "x" * 13], []):
            right = [expected(it, "bc") for it in rows]
            self.same(columns.decode(Views(rows), "bc"), right)
            self.same(columns.decode(Views(rows, form="vz", skip=1), "bc"), right)
        for wrong in ((13, 0, 9, 0), (13, 0, -2, 0), (13, 0, 0, 2**31 - 1), (13, 0, 0, -1), (-1, 0, 0, 0)):
            with self.assertRaises(ValueError):
                columns.check(Views([ADDRESS], view=wrong))

    def test_null_type(self):
        found = columns.decode(Foreign([None] * 9, "n"))
        self.assertEqual((found.numbers.tolist(), found.programs.null_count), ([1] * 9, 9))

    def test_masked(self):
        rows = np.ma.MaskedArray(np.array([ADDRESS, ADDRESS], "S"), [False, True])
        self.assertEqual(columns.check(rows).tolist(), [0, 1])

    def test_ours_by_arrow(self):
        found = columns.decode(self.rows, "bc")
        texts = columns.encode("bc", found.versions, Handed(found.programs))
        self.same(columns.decode(Handed(texts.texts), "bc"), [(0, it) if n == 0 else (1, None) for n, it in self.right])
        written = [None if it is None else segwit.encode("bc", *it) for _, it in self.right]
        self.assertEqual(texts.to_list(), written)

    def test_arrays_outlive_what_they_are_of(self):
        found = columns.decode(self.rows, "bc")
        programs, kept = found.programs.to_list(), _arrow.arrays_of(found.programs)[0]
        del found
        gc.collect()
        self.assertEqual(columns._of_arrow(kept).column.rows, len(programs))
        data = ctypes.string_at(kept.buffers[2], sum(len(it or b"") for it in programs))
        self.assertEqual(data, b"".join(it or b"" for it in programs))

    def test_capsules_that_nobody_takes(self):
        for _ in range(100):
            columns.decode(self.rows[:10], "bc").programs.__arrow_c_array__()
        gc.collect()

    def test_check(self):
        for checksum in Checksum:
            right = []
            for row in self.rows:
                try:
                    right.append(1 if row is None else check(checksum, row) and 0)
                except Refused as refused:
                    right.append(refused.number)
            self.assertEqual(columns.check(self.rows, checksum).tolist(), right)
        either = columns.check(["a12uel5l", "A1LQFN3A", "a12uel5q", "\ud800", None, ""])
        self.assertEqual(either.tolist(), [0, 0, 33, 2, 1, 23])

    def test_hrp(self):
        rows = [ADDRESS, ADDRESS.upper()]
        self.assertEqual(columns.decode(rows, hrp="tb").numbers.tolist(), [49, 49])
        self.assertEqual(columns.decode(rows).hrp_lengths.tolist(), [2, 2])
        for part, number in (("q" * 84, 12), ("b\xe9", 13), (" bc", 14), ("Bc", 15), ("\ud800", 2)):
            for given in (rows, []):
                with self.assertRaises(Refused) as caught:
                    columns.decode(given, hrp=part)
                self.assertEqual(caught.exception.number, number)

    def test_refusals(self):
        for wrong in ("text", b"bytes", [1], [["a"]], np.array([1.5]), 3):
            with self.assertRaises(TypeError):
                columns.check(wrong)
        # Each of these gives its names, its keys or its rows when it is iterated.
        for table in (Table(), {"address": [ADDRESS]}, np.array([["a", "b"]]), np.array("a"), np.array([[b"a"]])):
            for call in (columns.decode, columns.check, lambda it: columns.encode("bc", [0], it)):
                self.assertRaisesRegex(TypeError, "^one column is wanted", call, table)
        for call in (
            lambda: columns.encode("bc", [0], [b"", b""]),
            lambda: columns.decode([], hrp=""),
            lambda: columns.decode([], threads=0),
        ):
            self.assertRaises(ValueError, call)
        for call in (
            lambda: columns.encode("bc", [0.5], [bytes(20)]),
            lambda: columns.encode(b"bc", [0], [bytes(20)]),
            lambda: columns.decode([], hrp=b"bc"),
            lambda: columns.check([], "bech32"),
        ):
            self.assertRaises(TypeError, call)
        made = columns.encode("bc", [0, 1, 17, 0, 40, 300, -1], [bytes(19), bytes(32), bytes(32), None, *[bytes(20)] * 3])
        self.assertEqual(made.numbers.tolist(), [48, 0, 52, 1, 52, 52, 52])
        self.assertEqual(columns.encode("bc", [], []).to_list(), [])
        self.assertEqual(columns.encode("", [0], [bytes(20)]).numbers.tolist(), [11])
        self.assertEqual(columns.decode([]).programs.to_list(), [])
        self.assertEqual(columns.message(0), "")
        for number in np.array([1, 4, 49], np.uint8):
            self.assertNotEqual(columns.message(number), "")

    def test_progress(self):
        rows, told = [ADDRESS] * 600_000, []
        for threads in (1, 3):
            told.clear()
            numbers = columns.check(rows, threads=threads, progress=told.append)
            self.assertEqual((len(numbers), int(numbers.sum())), (600_000, 0))
            self.assertEqual((told[-1], sorted(told)), (600_000, told))
            self.assertGreater(len(told), 2)

    @unittest.skipIf(sys.platform == "win32", "signals are of POSIX")
    def test_interrupt(self):
        # A shell may have started all of this without the signal.
        self.addCleanup(signal.signal, signal.SIGINT, signal.signal(signal.SIGINT, signal.default_int_handler))
        rows = [ADDRESS] * 1_000_000
        for threads in (1, 2):
            told = []

            def stop(done):
                told.append(done)
                signal.raise_signal(signal.SIGINT)

            with self.assertRaises(KeyboardInterrupt):
                columns.check(rows, threads=threads, progress=stop)
            self.assertEqual(len(told), 1)
        self.assertEqual(threading.active_count(), 1)

    def test_wrong_offsets(self):
        """Offsets that a hostile file may have: each such row has its number, and nothing outside is read."""
        data = ADDRESS.encode()
        offsets = np.array([0, len(data), 2 * len(data), -1, 5, 2**31 - 1, 3], np.int32)
        piece = columns._laid(offsets, np.frombuffer(data, np.uint8))
        numbers = np.zeros(6, np.uint8)
        _library.check_many(0, piece.column, 0, columns._bytes(numbers), 6)
        self.assertEqual(numbers.tolist(), [0, 4, 4, 4, 4, 4])


if __name__ == "__main__":
    unittest.main()
