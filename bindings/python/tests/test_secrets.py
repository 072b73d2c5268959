"""Tests how secrets are split, recovered and wiped: the vector of BIP-93, all subsets of small sets, each refusal, and
what is left in the memory of a process."""

import itertools
import re
import secrets
import subprocess
import sys
import unittest
from unittest import mock

from bech32_proved import _library, codex32, errors
from bech32_proved._library import Buffer, Copied, copied_octets, copied_text, secretly

ALPHABET = "qpzry9x8gf2tvdw0s3jn54khce6mua7l"
INDICES = "acdefghjklmnpqrtuvwxyz023456789"

# A secret of BIP-93, and its shares.
BYTES = bytes.fromhex("ffeeddccbbaa99887766554433221100")
CASH = [
    "ms13casha320zyxwvutsrqpnmlkjhgfedca2a8d0zehn8a0t",
    "ms13cashcacdefghjklmnpqrstuvwxyz023949xq35my48dr",
    "ms13cashd0wsedstcdcts64cd7wvy4m90lm28w4ffupqs7rm",
    "ms13casheekgpemxzshcrmqhaydlp6yhms3ws7320xyxsar9",
    "ms13cashf8jh6sdrkpyrsp5ut94pj8ktehhw2hfvyrj48704",
]
OWN = "ms13cashsllhdmn9m42vcsamx24zrxgs3qqjzqud4m0d6nln"


def random_of(characters, above=0):
    """The bytes of characters, with three bits above that are left out."""
    return bytes(ALPHABET.index(it) | above << 5 for it in characters)


class Split(unittest.TestCase):
    def test_as_the_standard_does(self):
        drawn = CASH[0][9:35] + CASH[1][9:35]
        for above in range(8):
            random = random_of(drawn, above)
            self.assertEqual(codex32.split(BYTES, 3, 5, "CASH", _random=random), CASH)
        self.assertEqual(codex32.split(memoryview(BYTES), 3, 3, "cash", _random=bytearray(random)), CASH[:3])

    def test_any_shares_as_many_as_the_threshold_recover_the_secret(self):
        for threshold in range(2, 10):
            for count in range(threshold, min(threshold + 3, 10) + 1):
                secret = secrets.token_bytes(16)
                shares = codex32.split(secret, threshold, count)
                self.assertEqual("".join(text[8] for text in shares), INDICES[:count])
                self.assertEqual({text[:8] for text in shares}, {f"ms1{threshold}{shares[0][4:8]}"})
                for size in range(count + 1):
                    for chosen in itertools.combinations(shares, size):
                        if size < threshold:
                            self.assertRaises(errors.TooFewShares, codex32.recover, chosen)
                        else:
                            self.assertEqual(codex32.recover(chosen), secret)

    def test_each_size(self):
        for size in range(100):
            secret = bytes(3 * n % 256 for n in range(size))
            if size in range(16, 45) or size in (63, 64):
                shares = codex32.split(secret, 2, 31, "test")
                self.assertEqual("".join(text[8] for text in shares), INDICES)
                for n, text in enumerate(shares):
                    self.assertEqual(codex32.recover([text, shares[(n + 7) % 31]]), secret)
                self.assertEqual(codex32.recover(shares), secret)
            else:
                self.assertRaises(errors.BadSize, codex32.split, secret, 2, 31, "test")

    def test_the_drawn_characters_are_the_random_bytes(self):
        for size, threshold in [(16, 2), (20, 9), (33, 4), (44, 3), (63, 9), (64, 5)]:
            count = (8 * size + 4) // 5
            random = bytes(n * n % 251 for n in range((threshold - 1) * count))
            shares = codex32.split(bytes(size), threshold, 9, "test", _random=random)
            drawn = "".join(text[9 : 9 + count] for text in shares[: threshold - 1])
            self.assertEqual(drawn, "".join(ALPHABET[byte & 31] for byte in random))
            own = codex32.encode(threshold, "test", "s", bytes(size))
            self.assertEqual(codex32.derive(shares, "s"), own)
            self.assertEqual(codex32.recover([own, *shares[-threshold + 1 :]]), bytes(size))

    def test_draws_anew(self):
        shares = [codex32.split(BYTES, 2, 2)[0] for _ in range(50)]
        self.assertEqual(len({text[9:35] for text in shares}), 50)
        self.assertEqual(set("".join(text[9:35] for text in shares)), set(ALPHABET))
        # That two of fifty identifiers are the same has a chance of 1 in 800.
        self.assertGreater(len({text[4:8] for text in shares}), 47)

    def test_draws_as_many_bytes_as_it_takes(self):
        numbers = iter(range(1 << 20))
        with mock.patch("secrets.randbits", side_effect=lambda bits: next(numbers) % 2**bits) as drawn:
            [text, _] = codex32.split(BYTES, 2, 2, "test")
            self.assertEqual((text[9:35], drawn.call_count), (ALPHABET[:26], 26))
            self.assertEqual(drawn.call_args, mock.call(8))
            [text, _] = codex32.split(BYTES, 2, 2)
            self.assertEqual(text[4:8], "".join(ALPHABET[n % 32] for n in range(52, 56)))

    def test_without_random_bytes_there_is_no_share(self):
        for failure in (NotImplementedError, OSError):
            # The first byte fails, a later one, and one of the identifier.
            for good in (0, 10, 27):
                answers = [7] * good + [failure]
                with mock.patch("secrets.randbits", side_effect=answers), self.assertRaises(failure):
                    codex32.split(BYTES, 2, 3)

    def test_what_is_refused_draws_nothing(self):
        test = "test"
        with mock.patch("secrets.randbits", side_effect=AssertionError):
            for given, error in [
                ((BYTES, 1, 0, "bank"), errors.BadThreshold),
                ((BYTES, -1, 0, "bank"), errors.BadThreshold),
                ((BYTES, 2**32, 0, "bank"), errors.BadThreshold),
                ((BYTES, 10, 0, "bank"), errors.BadThreshold),
                ((b"", 0, 0, "bank"), errors.BadIdentifier),
                ((b"", 0, 0, "tesT"), errors.BadIdentifier),
                ((b"", 0, 0, ""), errors.BadIdentifier),
                ((b"", 0, 0, "tes\udc00"), errors.BadIdentifier),
                ((b"", 0, 0, test), errors.BadShareIndex),
                ((BYTES, 0, 1, None), errors.BadShareIndex),
                ((BYTES[1:], 2, 1, test), errors.BadSize),
                ((bytes(1 << 20), 2, 1, None), errors.BadSize),
                ((BYTES, 2, 1, test), errors.BadCount),
                ((BYTES, 9, 8, None), errors.BadCount),
                ((BYTES, 2, 32, test), errors.BadCount),
                ((BYTES, 2, -1, test), errors.BadCount),
                ((BYTES, 2, 2**70, test), errors.BadCount),
            ]:
                with self.subTest(given), self.assertRaises(error) as raised:
                    codex32.split(*given)
                self.assertEqual(raised.exception.text, None)
            for size in (0, 25, 27, 52):
                with self.assertRaises(errors.BadRandom):
                    codex32.split(BYTES, 2, 3, test, _random=bytes(size) or bytearray())

    def test_random_bytes_that_are_all_equal_are_refused(self):
        for byte in (b"\0", b"\x55", b"\xff"):
            with self.assertRaises(errors.EqualRandom):
                codex32.split(BYTES, 2, 3, "test", _random=26 * byte)
            with self.assertRaises(errors.EqualRandom):
                codex32.split(BYTES, 9, 9, "test", _random=208 * byte)
            for other in (25 * byte + b"1", b"1" + 25 * byte):
                self.assertEqual(len(codex32.split(BYTES, 2, 3, "test", _random=other)), 3)
        # The system's are no others.
        for identifier in ("test", None):
            with mock.patch("secrets.randbits", return_value=7), self.assertRaises(errors.EqualRandom):
                codex32.split(BYTES, 2, 3, identifier)

    def test_says_which_argument_is_wrong(self):
        for given, words in [
            (("x", 2, 2), "secret must be bytes, a bytearray or a memoryview, not str"),
            ((BYTES, "2", 2), "threshold must be an int, not str"),
            ((BYTES, 2, 2.0), "count must be an int, not float"),
            ((BYTES, 2, 2, b"test"), "identifier must be a str, not bytes"),
        ]:
            with self.assertRaises(TypeError) as raised:
                codex32.split(*given)
            self.assertEqual(str(raised.exception), words)


class Bytearrays(unittest.TestCase):
    def test_are_read_and_returned(self):
        shares = [bytearray(text.encode()) for text in CASH]
        secret = bytearray(BYTES)
        random = random_of(CASH[0][9:35] + CASH[1][9:35])
        for found, wanted in [
            (codex32.split(secret, 3, 5, "cash", into=bytearray, _random=random)[4], shares[4]),
            (codex32.recover(shares, into=bytearray), secret),
            (codex32.derive(shares[1:], "s", into=bytearray), OWN.encode()),
            (codex32.derive([CASH[0], *shares[2:]], "C", into=bytearray), shares[1]),
            (codex32.encode(3, "cash", "s", secret, into=bytearray), OWN.encode()),
            (codex32.encode_payload(3, "cash", "s", bytearray(OWN[9:35].upper().encode()), into=bytearray), OWN.encode()),
            (codex32.share(shares[0], into=bytearray).data, codex32.share(CASH[0]).data),
            (codex32.parse(shares[0]).payload, shares[0][9:35]),
            (codex32.propose(bytearray(CASH[0][:-2].encode() + b"??"), into=bytearray), shares[0]),
            (codex32.propose(bytearray(CASH[0][:-2].upper().encode() + b"??"), into=bytearray), shares[0].upper()),
        ]:
            self.assertIs(type(found), bytearray)
            self.assertEqual(found, wanted)
        # Without `into` they are what they are of a `str`.
        self.assertEqual(codex32.recover(shares), BYTES)
        self.assertIs(type(codex32.recover(shares)), bytes)
        self.assertEqual(codex32.derive(shares, "s"), OWN)
        self.assertEqual(codex32.share(shares[0])[:4], codex32.share(CASH[0])[:4])
        self.assertEqual(codex32.propose(shares[0]), CASH[0])
        # A text is what was given.
        self.assertIs(codex32.share(shares[0]).text, shares[0])
        self.assertEqual(codex32.parse(shares[0])[:3], (3, "cash", "a"))
        # Nothing that was given has changed, and it may be made longer again.
        self.assertEqual(shares, [text.encode() for text in CASH])
        self.assertEqual(secret, BYTES)
        for it in [secret, *shares]:
            it.append(0)

    def test_are_refused(self):
        for text, error, place, said in [
            (b"ms13casha320zyxbvutsrqpnmlkjhgfedca2a8d0zehn8a0t", errors.InvalidCharacter, 15, ": character 16, b"),
            ("ms13casha320zyx\xe9vutsrqpnmlkjhgfedca2a8d0zehn8a0t".encode(), errors.InvalidCharacter, 15, ", U+00E9"),
            ("m\xe9s13casha320zyxqvutsrqpn".encode(), errors.HrpNotAscii, 1, ": character 2, U+00E9"),
            (b"ms13casha320zyxWvutsrqpnmlkjhgfedca2a8d0zehn8a0t", errors.MixedCase, 15, ": character 16, W"),
            (b"ms13casha320zyxvvutsrqpnmlkjhgfedca2a8d0zehn8a0t", errors.WrongChecksum, None, "is wrong"),
            (b"casha32o", errors.InvalidCharacter, 7, "may not stand behind one: character 8, o"),
            (b"ms1\xff", errors.NotUnicode, None, "the text is not UTF-8"),
            (b"", errors.NoSeparator, None, "the text has no separator, '1'"),
        ]:
            given = bytearray(text)
            for call in (codex32.share, lambda it: codex32.recover([CASH[0], it]), lambda it: codex32.derive([it], "s")):
                with self.subTest(text), self.assertRaises(error) as raised:
                    call(given)
                # No copy of it is kept.
                self.assertIs(raised.exception.text, given)
                self.assertEqual(raised.exception.place, place)
                self.assertTrue(str(raised.exception).endswith(said), str(raised.exception))
        payload = bytearray(CASH[0][9:35].encode().replace(b"z", b"1"))
        with self.assertRaises(errors.InvalidCharacter) as raised:
            codex32.encode_payload(3, "cash", "a", payload)
        self.assertEqual((raised.exception.place, payload[3:4]), (3, b"1"))
        twice = [bytearray(CASH[0].encode()), bytearray(CASH[1].encode()), bytearray(CASH[0].upper().encode())]
        with self.assertRaises(errors.IndexTwice) as raised:
            codex32.recover(twice)
        self.assertIs(raised.exception.text, twice[2])
        with self.assertRaises(errors.OtherSet) as raised:
            codex32.recover([CASH[0], twice[1], bytearray(b"MS12NAMEA320ZYXWVUTSRQPNMLKJHGFEDCAXRPP870HKKQRM")])
        self.assertEqual(raised.exception.text[:9], b"MS12NAMEA")

    def test_into_is_a_type(self):
        for call, given, other in [
            (codex32.split, (BYTES, 2, 2), "str"),
            (codex32.derive, (CASH, "s"), "str"),
            (codex32.encode, (2, "test", "a", BYTES), "str"),
            (codex32.encode_payload, (2, "test", "a", "q" * 26), "str"),
            (codex32.propose, (CASH[0],), "str"),
            (codex32.propose_long, (CASH[0],), "str"),
            (codex32.recover, (CASH,), "bytes"),
            (codex32.share, (CASH[0],), "bytes"),
        ]:
            for into, shown in ((list, "list"), (None, "a value of NoneType"), ("str", "a value of str")):
                with self.assertRaises(TypeError) as raised:
                    call(*given, into=into)
                self.assertEqual(str(raised.exception), f"into must be {other} or bytearray, not {shown}")


# A program that makes each call on a secret and wipes what it holds. It says so, and waits.
PROGRAM = """
import sys
from bech32_proved import Refused, codex32

def filled(size, seed):
    made, state = bytearray(size), seed
    for place in range(size):
        state = (state * 6364136223846793005 + 1) % 2**64
        made[place] = state >> 56
    return made

size, is_wiped = int(sys.argv[1]), sys.argv[2] == "wiped"
secret, random = filled(size, 1), filled(2 * ((8 * size + 4) // 5), 2)
shares = codex32.split(secret, 3, 5, "test", into=bytearray, _random=random)
recovered = codex32.recover(shares[1:], into=bytearray)
own = codex32.derive(shares[:3], "s", into=bytearray)
encoded = codex32.encode(3, "test", "s", secret, into=bytearray)
read = codex32.share(own, into=bytearray)
payload = own[9 : -13 if len(own) < 94 else -15]
again = codex32.encode_payload(3, "test", "s", payload, into=bytearray)
held = [secret, random, *shares, recovered, own, encoded, read.data, payload, again]
assert recovered == secret == read.data and own == encoded == again
damaged, refused = own[:], own[:]
damaged[20:22] = b"??"
propose = codex32.propose if len(own) < 94 else codex32.propose_long
held += [propose(damaged, into=bytearray), damaged, refused]
if len(own) < 94:
    held.append(codex32.parse(own).payload)
for wrong in (b"b", b"B", b"\\xff", b"q" if own[30:31] == b"p" else b"p"):
    refused[30:31] = wrong
    for call in (codex32.share, lambda it: codex32.recover([*shares, it], into=bytearray)):
        try:
            call(refused)
        except Refused:
            pass
drawn = codex32.split(secret, 3, 5, into=bytearray)
held += [*drawn, codex32.recover(drawn[:3], into=bytearray)]
kept = None if is_wiped else codex32.recover(shares)
for it in held:
    it[:] = bytes(len(it))
print("done", flush=True)
sys.stdin.read()
"""


def filled(size, seed):
    made, state = bytearray(size), seed
    for place in range(size):
        state = (state * 6364136223846793005 + 1) % 2**64
        made[place] = state >> 56
    return bytes(made)


def has_run(memory, whole, run=8):
    """Whether a memory has `run` of these bytes in a row."""
    for start in range(0, len(whole) - 3, run - 3):
        # Any eight in a row hold four that begin here.
        at = memory.find(whole[start : start + 4])
        while at >= 0:
            first, last = 0, 4
            while first < start and memory[at - first - 1 : at - first] == whole[start - first - 1 : start - first]:
                first += 1
            while start + last < len(whole) and memory[at + last : at + last + 1] == whole[start + last : start + last + 1]:
                last += 1
            if first + last >= run:
                return True
            at = memory.find(whole[start : start + 4], at + 1)
    return False


def memory_of(process):
    """What a process may write to, its stack too."""
    with open(f"/proc/{process}/maps") as maps, open(f"/proc/{process}/mem", "rb", 0) as memory:
        for line in maps:
            start, end, rights = re.match(r"([0-9a-f]+)-([0-9a-f]+) (\S+)", line).groups()
            if rights.startswith("rw"):
                memory.seek(int(start, 16))
                yield memory.read(int(end, 16) - int(start, 16))


class Left(unittest.TestCase):
    def found(self, size, how):
        """The names of the parts of a secret that the memory of the program has."""
        count = (8 * size + 4) // 5
        secret, random = filled(size, 1), filled(2 * count, 2)
        shares = codex32.split(secret, 3, 5, "test", _random=random)
        wholes = {"secret": secret, "random": random}
        for text in [*shares, codex32.derive(shares, "s")]:
            name, behind = text[8], text[9:]
            wholes[name], wholes[f"{name} in upper case"] = behind.encode(), behind.upper().encode()
            wholes[f"elements of {name}"] = random_of(behind)
        program = subprocess.Popen(
            [sys.executable, "-c", PROGRAM, str(size), how], stdin=subprocess.PIPE, stdout=subprocess.PIPE
        )
        try:
            self.assertEqual(program.stdout.readline(), b"done\n")
            memory = list(memory_of(program.pid))
        except PermissionError:
            self.skipTest("the memory of another process cannot be read here")
        finally:
            program.communicate(b"")
        self.assertGreater(sum(map(len, memory)), 1 << 20)
        return {name for name, whole in wholes.items() if any(has_run(it, whole) for it in memory)}

    @unittest.skipUnless(sys.platform == "linux", "it reads the memory of a process as Linux shows it")
    def test_nothing_but_what_is_held(self):
        for size in (16, 33, 64):
            self.assertEqual(self.found(size, "wiped"), set())
        # What is not wiped is seen.
        self.assertIn("secret", self.found(16, "kept"))

    def test_runs_are_found(self):
        whole = bytes(range(100, 160))
        for start in range(53):
            for size in range(1, 20):
                memory = b"\0" * 7 + whole[start : start + size] + b"\0"
                self.assertEqual(has_run(memory, whole), min(size, 60 - start) >= 8)

    def test_each_call_wipes_the_stack(self):
        done = []
        functions = [it for it in vars(_library) if it.startswith("codex32_")]
        self.assertEqual(len(functions), 9)
        with Noted(functions, done):
            codex32.split(BYTES, 2, 2)
            codex32.recover(CASH)
            codex32.derive(CASH, "d")
            codex32.encode(2, "test", "a", BYTES)
            codex32.encode_payload(2, "test", "a", "q" * 26)
            codex32.share(OWN)
            codex32.parse(OWN)
            codex32.propose(OWN)
            self.assertRaises(errors.BadLength, codex32.propose_long, OWN)
            self.assertRaises(errors.MixedCase, codex32.share, OWN.replace("q", "Q"))
        self.assertEqual(set(done), {*functions, "fault", "wipe_stack"})
        behind = {(name, then) for name, then in zip(done, [*done[1:], "nothing"]) if name != "wipe_stack"}
        self.assertEqual({then for _, then in behind}, {"wipe_stack"})

    def test_what_is_ours_is_wiped(self):
        copied = Copied(bytearray(b"secret"))
        self.assertEqual(copied.given[0].raw, b"secret")
        copied.wipe()
        self.assertEqual((copied.octets, copied.given), (bytes(6), (b"", 0)))
        self.assertEqual(Copied(bytearray()).given, (b"", 0))
        held = bytearray(b"held")
        for mine in (copied_text(held, "text"), copied_octets(held, "data")):
            mine.wipe()
            self.assertEqual((mine.octets, mine.given), (b"held", (b"", 0)))
        for data in (b"held", memoryview(held)):
            ours = copied_octets(data, "data")
            ours.wipe()
            self.assertEqual((ours.octets, bytes(data)), (bytes(4), b"held"))
        buffer = Buffer(4)
        self.assertEqual(secretly(lambda: 7), 7)
        buffer.wipe()
        self.assertEqual(buffer.out[0].raw, bytes(4))


class Noted:
    """Each call of functions of the library is noted, of `fault` and `wipe_stack` too."""

    def __init__(self, names, done):
        noted = [*names, "fault", "wipe_stack"]
        self._patches = [mock.patch.object(_library, name, self._noting(name, done)) for name in noted]

    @staticmethod
    def _noting(name, done):
        function = getattr(_library, name)

        def called(*given):
            done.append(name)
            return function(*given)

        return called

    def __enter__(self):
        for it in self._patches:
            it.start()

    def __exit__(self, *_):
        for it in self._patches:
            it.stop()


if __name__ == "__main__":
    unittest.main()
