"""Tests how the wheel is built: its tag, and what is said. Where the files of the build are not beside these, they are left out."""

import contextlib
import importlib.machinery
import importlib.util
import io
import sys
import tempfile
import unittest
import zipfile
from pathlib import Path
from unittest import mock

HERE = Path(__file__).resolve().parent.parent
if not (HERE / "build").is_file():
    raise unittest.SkipTest("the files of the build are not there")
# At the end: the package that is installed is tested, not the sources beside this file.
sys.path.append(str(HERE))
import backend  # noqa: E402

LOADER = importlib.machinery.SourceFileLoader("build", str(HERE / "build"))
build = importlib.util.module_from_spec(importlib.util.spec_from_loader("build", LOADER))
LOADER.exec_module(build)
# The script puts its folder first.
sys.path.remove(str(HERE))

# What objdump says of a shared library, and readelf of its notes.
LINKED = """
Dynamic Section:
  NEEDED               libc.so.6
  INIT                 0x0000000000001000

Version References:
  required from libc.so.6:
    0x09691a75 0x00 03 GLIBC_2.2.5
    0x06969194 0x00 02 GLIBC_2.14
"""
NOTES = "    Properties: x86 feature: IBT, SHSTK\n\tx86 ISA needed: x86-64-baseline\n"


class Tags(unittest.TestCase):
    def why(self, linked=LINKED, notes=NOTES):
        with mock.patch.object(build, "told", lambda program, *_: linked if program == "objdump" else notes):
            return build.why_not_many(Path("libbech32_c.so"))

    def test_what_manylinux_allows(self):
        self.assertIsNone(self.why())
        self.assertIsNone(self.why(LINKED.replace("2.14", "2.17"), ""))
        self.assertIsNone(self.why(LINKED.replace("libc.so.6\n", "libc.so.6\n  NEEDED  libgcc_s.so.1\n", 1)))

    def test_what_it_does_not(self):
        for linked, notes, reason in (
            (LINKED.replace("2.14", "2.18"), NOTES, "libbech32_c.so needs GLIBC_2.18"),
            (LINKED.replace("2.14", "3.0"), NOTES, "libbech32_c.so needs GLIBC_3.0"),
            (LINKED.replace("GLIBC_2.14", "GLIBC_ABI_DT_2.1"), NOTES, "libbech32_c.so needs GLIBC_ABI_DT_2.1"),
            (LINKED.replace("libc.so.6\n", "libc.so.6\n  NEEDED  libssl.so.3\n", 1), NOTES, "libbech32_c.so links libssl.so.3"),
            (LINKED, NOTES.replace("baseline", "baseline, x86-64-v2"), "libbech32_c.so asks for a processor with x86-64-v2"),
        ):
            self.assertEqual(self.why(linked, notes), reason)

    def test_without_binutils(self):
        missing = FileNotFoundError(2, "", "objdump")
        with mock.patch.object(build, "told", mock.Mock(side_effect=missing)):
            self.assertRegex(build.why_not_many(Path("a.so")), "^objdump is not there")

    def test_the_wheel_has_the_tags_of_its_name(self):
        with tempfile.TemporaryDirectory() as folder:
            for tag, said in (
                (build.MANY_TAG, ["py3-none-manylinux_2_17_x86_64", "py3-none-manylinux2014_x86_64"]),
                (build.TAG, ["py3-none-linux_x86_64"]),
            ):
                name = backend.write_wheel(folder, tag, lambda _: b"", b"")
                self.assertTrue(name.endswith(f"-{tag}.whl"))
                with zipfile.ZipFile(Path(folder) / name) as wheel:
                    [entry] = [it for it in wheel.namelist() if it.endswith("/WHEEL")]
                    lines = wheel.read(entry).decode().splitlines()
                self.assertEqual([it.partition(": ")[2] for it in lines if it.startswith("Tag: ")], said)


class Compiling(unittest.TestCase):
    def test_it_says_what_it_compiles(self):
        said, ran = io.StringIO(), []
        with mock.patch.object(backend, "_run", ran.append), contextlib.redirect_stderr(said):
            backend._compiled("bech32", Path("libbech32_c.so"))
        self.assertEqual(len(ran), 1)
        self.assertEqual(said.getvalue(), "bech32_proved: compiling bech32.c, which takes about a minute\n")


if __name__ == "__main__":
    unittest.main()
