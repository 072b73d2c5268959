"""Compares the package with the stored runs of the programs b32, c32, mend and vector_rows, whose replies reference
models gave as well: in the folder that B32_LINES names, files b32-lines, b32-replies and so on; without it,
those of this repository. Of vector_rows, the rows of long texts and of texts that one edit makes are read."""

import os
import re
import subprocess
import sys
import unittest
from pathlib import Path

from bech32_proved import Checksum, EditKind, Refused, check, codex32, correct, decode, encode, errors, near_edits
from bech32_proved import __main__, _lines, segwit

TOP = Path(__file__).resolve().parent.parent.parent.parent
STORED = {"lines": "stdin", "replies": "stdout"}

PROPOSALS = {"propose": codex32.propose, "propose-long": codex32.propose_long}
CHECKSUMS = {"bech32": Checksum.BECH32, "bech32m": Checksum.BECH32M}


def stored(program, kind):
    folder = os.environ.get("B32_LINES")
    if folder is None:
        return TOP / "crates" / program / STORED[kind]
    return Path(folder) / f"{program}-{kind}"


def rows(program):
    """Each line that is UTF-8, in words, with its reply."""
    lines = stored(program, "lines").read_bytes().split(b"\n")
    replies = stored(program, "replies").read_text("ascii").split("\n")
    for line, reply in zip(lines, replies):
        try:
            yield line.decode("utf-8").split(" "), reply
        except UnicodeDecodeError:
            continue


def vector_rows(name):
    """The words of each row of vector_rows that begins with a name, with its reply."""
    lines, replies = (stored("vector_rows", kind).read_text("utf-8").split("\n") for kind in ("lines", "replies"))
    return [(line.split("|")[1:], reply) for line, reply in zip(lines, replies) if line.startswith(f"{name}|")]


# How a row names the kinds of edits.
MARKS = {EditKind.SWAPPED: "x", EditKind.LEFT_OUT: "-", EditKind.PUT_IN: "+"}


def edit_row(near, length):
    """A text with its edit as the rows have it: locations count from the end."""
    kind, place, characters = near.edit
    behind = length - place - (len(characters) if kind is not EditKind.PUT_IN else 0)
    return f"{near.text.lower()},{MARKS[kind]}{behind}:{characters.lower()}"


def hexadecimal(data):
    return data.hex() or "-"


def data_of(word):
    return b"" if word == "-" else bytes.fromhex(word)


def b32(words):
    """The reply to a line of b32, or None to one that is no call of the package."""
    command, rest = words[0], words[1:]
    if command == "decode" and len(rest) == 1:
        hrp, data = decode(rest[0])
        return f"ok {hrp.lower()} {hexadecimal(data)}"
    if command == "segwit-decode" and len(rest) == 1:
        hrp, version, program = segwit.decode(rest[0])
        return f"ok {hrp.lower()} {version} {program.hex()}"
    if command == "encode" and len(rest) == 3 and rest[0] in CHECKSUMS:
        return f"ok {encode(CHECKSUMS[rest[0]], rest[1], data_of(rest[2]))}"
    if command == "segwit-encode" and len(rest) == 3 and rest[1].isdigit():
        return f"ok {segwit.encode(rest[0], int(rest[1]), data_of(rest[2]))}"
    if command == "correct" and len(rest) in (2, 3) and rest[0] in CHECKSUMS:
        if "?" in rest[1]:
            return None
        erasures = [int(word) for word in rest[2].split(",")] if len(rest) == 3 else []
        return mended(*correct(CHECKSUMS[rest[0]], rest[1], erasures=erasures))
    return None


def mended(text, listed):
    alphabet = "qpzry9x8gf2tvdw0s3jn54khce6mua7l"
    items = "".join(f"{location}:{alphabet[value]} " for location, value in listed)
    # The program's texts are in lower case, the package's in the case of what was typed.
    return f"ok {items}{text.lower()}" if listed else "fine"


def c32(words):
    command, rest = words[0], words[1:]
    if command == "parse" and len(rest) == 1:
        share = codex32.parse(rest[0])
        return "ok " + " ".join(str(part) for part in share)
    if command in PROPOSALS and len(rest) == 1:
        nearest = PROPOSALS[command](rest[0])
        return "none" if nearest is None else f"some {nearest.lower()}"
    if command == "share" and len(rest) == 1:
        threshold, identifier, share_index, data, text = codex32.share(rest[0])
        assert text == rest[0]
        return f"ok {threshold} {identifier} {share_index} {data.hex()}"
    if command == "encode" and len(rest) == 4:
        # No digit is a threshold of two characters.
        threshold = int(rest[0]) if len(rest[0]) == 1 and rest[0].isdigit() else 10
        return f"ok {codex32.encode(threshold, *rest[1:3], data_of(rest[3]))}"
    if command == "split" and len(rest) == 5:
        threshold = int(rest[0]) if len(rest[0]) == 1 and rest[0].isdigit() else 10
        secret, random = data_of(rest[3]), data_of(rest[4])
        return "ok " + " ".join(codex32.split(secret, threshold, int(rest[1]), rest[2], _random=random))
    if command == "derive" and len(rest) > 1:
        return f"ok {codex32.derive(rest[1:], rest[0])}"
    if command == "recover" and rest:
        return recovered(rest)
    return None


def recovered(texts):
    """The secret's string, whose bytes `recover` gives."""
    text = codex32.derive(texts, "s")
    try:
        wanted = codex32.share(text).data
    except errors.BitsLeftOver:
        wanted = None
    try:
        assert codex32.recover(texts) == wanted
    except errors.BitsLeftOver:
        assert wanted is None
    return f"ok {text}"


class Lines(unittest.TestCase):
    def compare(self, program, answer):
        compared = 0
        for words, reply in rows(program):
            if "" in words or reply in ("err 1", "err 2", "err 3", "err 4", "err 5"):
                continue
            try:
                found = answer(words)
            except errors.NoCorrection:
                found = "none"
            except Refused as refused:
                found = type(refused)
                number = int(reply.split(" ")[1]) if reply.startswith("err ") else 0
                self.assertEqual(found, errors.BY_NUMBER.get(number), words)
                self.assertEqual(refused.number, number, words)
                compared += 1
                continue
            if found is not None:
                self.assertEqual(found, reply, words)
                compared += 1
        return compared

    def test_b32(self):
        self.assertGreater(self.compare("b32", b32), 2000)

    def test_c32(self):
        self.assertGreater(self.compare("c32", c32), 2700)

    def test_replies(self):
        """`python -m bech32_proved` replies to each stored line what the program replies."""
        for program in _lines.PROGRAMS:
            given = stored(program, "lines").read_bytes()
            wanted = stored(program, "replies").read_bytes()
            command = [sys.executable, "-m", "bech32_proved", *([] if program == "b32" else [program])]
            printed = subprocess.run(command, input=given, stdout=subprocess.PIPE, check=True).stdout
            for line, reply, found in zip(given.split(b"\n"), wanted.split(b"\n"), printed.split(b"\n")):
                self.assertEqual(found, reply, line)
            self.assertEqual(printed, wanted)

    def test_replies_of_the_help(self):
        command = [sys.executable, "-m", "bech32_proved", "--help"]
        printed = subprocess.run(command, stdout=subprocess.PIPE, check=True).stdout.decode("ascii")
        self.assertEqual(printed.strip(), __main__.__doc__.strip())
        parts = re.split(r"^Lines to (\w+)", printed, flags=re.M)
        shown = {}
        for program, part in zip(parts[1::2], parts[2::2]):
            pairs = re.findall(r"^    (\S.*)\n        (.*)$", part, re.M)
            for line, reply in pairs:
                self.assertEqual(_lines.reply(program, line.encode()), reply, line)
            shown[program] = {line.split(" ")[0] for line, _ in pairs}
        self.assertEqual(shown, {program: set(commands) for program, commands in _lines.PROGRAMS.items()})

    def test_lines_at_their_ends(self):
        def printed(given, *words):
            command = [sys.executable, "-m", "bech32_proved", *words]
            ran = subprocess.run(command, input=given, stdout=subprocess.PIPE, stderr=subprocess.PIPE)
            return ran.returncode, ran.stdout, ran.stderr

        self.assertEqual(printed(b""), (0, b"", b""))
        self.assertEqual(printed(b"\n"), (0, b"err 3\n", b""))
        self.assertEqual(printed(b"decode a12uel5l", "b32"), (0, b"ok a -\n", b""))
        self.assertEqual(printed(b"decode a12uel5l\r\n"), (0, b"err 21\n", b""))
        for program, limit, front, fine in (("b32", 4096, b"decode ", b"err 23\n"), ("mend", 16_384, b"checksum ", b"err 23\n")):
            long = front + b"q" * 200_000
            for length, reply in ((limit - 1, fine), (limit, fine), (limit + 1, b"err 1\n"), (len(long), b"err 1\n")):
                line = long[:length]
                self.assertEqual(printed(line, program), (0, reply, b""))
                self.assertEqual(printed(line + b"\n", program), (0, reply, b""))
                self.assertEqual(printed(line + b"\n" + line, program), (0, 2 * reply, b""))
        self.assertEqual(printed(b"checksum \xff\n", "mend"), (0, b"err 2\n", b""))
        for words in (("b33",), ("b32", "mend")):
            status, out, said = printed(b"", *words)
            self.assertEqual((status, out, said[:6]), (2, b"", b"usage:"))

    @unittest.skipUnless(os.path.exists("/dev/full"), "it wants a device that is full")
    def test_a_full_disk_is_told(self):
        with open("/dev/full", "wb") as full:
            ran = subprocess.run(
                [sys.executable, "-m", "bech32_proved"], input=b"decode a12uel5l\n", stdout=full, stderr=subprocess.PIPE
            )
        self.assertEqual((ran.returncode, ran.stderr), (1, b"b32: writing failed\n"))

    def test_a_line_is_answered_before_the_next(self):
        program = subprocess.Popen([sys.executable, "-m", "bech32_proved"], stdin=subprocess.PIPE, stdout=subprocess.PIPE)
        self.addCleanup(program.stdout.close)
        for line, reply in ((b"decode a12uel5l\n", b"ok a -\n"), (b"decode a\n", b"err 23\n")):
            program.stdin.write(line)
            program.stdin.flush()
            self.assertEqual(program.stdout.readline(), reply)
        program.stdin.close()
        self.assertEqual(program.wait(), 0)

    def test_long_texts(self):
        wanted = vector_rows("long")
        for (name, *words), reply in wanted:
            try:
                answer = _lines.PROGRAMS["b32"][name].answer(*words)
            except Refused as refused:
                answer = f"err {refused.number}"
            self.assertEqual(answer, reply, (name, words[0], words[-1][:60]))
        self.assertEqual(len(wanted), 20)

    def test_edits(self):
        wanted = vector_rows("edits")
        for (name, text), reply in wanted:
            checksum = Checksum[name.upper()]
            found = near_edits(checksum, text)
            for near in found:
                check(checksum, near.text)
            self.assertEqual(" ".join(edit_row(near, len(text)) for near in found) or "none", reply, text)
        self.assertEqual(len(wanted), 300)


if __name__ == "__main__":
    unittest.main()
