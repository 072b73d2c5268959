"""Calls the C library through ctypes: it decodes a segwit address, writes that of its program on the test network,
refuses a text, and encodes and decodes bytes.

    examples/python/example.py LIBRARY

LIBRARY is bech32_c as a shared library. Where the toolchain is installed, `rt lib` in crates/bech32_c builds the static
one, crates/bech32_c/out/libbech32_c.a; the package for C has it in its folder lib. Link it:

    cc -shared -o libbech32_c.so -Wl,--whole-archive libbech32_c.a -Wl,--no-whole-archive

Or compile the C file of that package:

    cc -shared -fPIC -O2 -I include -o libbech32_c.so src/bech32.c

The package for Python (bindings/python) has the library in it, and needs none of this."""

import ctypes
import os
import sys

if sys.argv[1:] == ["--help"]:
    sys.exit(print(__doc__))
if len(sys.argv) != 2 or not os.path.isfile(sys.argv[1]):
    print("examples/python/example.py: name the shared library to call; --help says how to make it", file=sys.stderr)
    sys.exit(2)
try:
    LIBRARY = ctypes.CDLL(os.path.abspath(sys.argv[1]))
except OSError as e:
    print(f"examples/python/example.py: {sys.argv[1]} is no shared library for this system ({e})", file=sys.stderr)
    sys.exit(2)
BECH32, BECH32M = ctypes.c_uint32(1), ctypes.c_uint32(2)
MAX_TEXT, MAX_HRP, MAX_BYTES, MAX_SEGWIT_PROGRAM = 1023, 83, 634, 40


class Buffer:
    """Room for what a call writes."""

    def __init__(self, room):
        self.bytes, self.length = ctypes.create_string_buffer(room), ctypes.c_size_t()
        self.out = (self.bytes, ctypes.c_size_t(room), ctypes.byref(self.length))

    def written(self):
        return self.bytes.raw[: self.length.value]


def given(data):
    """Bytes as the library takes them: a pointer, which is never null, and a length."""
    return ctypes.c_char_p(data), ctypes.c_size_t(len(data))


def call(name, *arguments):
    """Calls a function of include/bech32.h; a refusal is an error."""
    function = getattr(LIBRARY, name)
    function.restype = ctypes.c_uint32
    number = function(*arguments)
    if number != 0:
        raise ValueError(f"{name}: refusal {number}")


hrp, program, text = Buffer(MAX_HRP), Buffer(MAX_SEGWIT_PROGRAM), Buffer(MAX_TEXT)
version, data_length = ctypes.c_uint32(), ctypes.c_size_t()
address = b"BC1QW508D6QEJXTDG4Y5R3ZARVARY0C5XW7KV8F3T4"
call("bech32_segwit_decode", *given(address), *hrp.out, ctypes.byref(version), *program.out)
print(hrp.written().decode(), "version", version.value, program.written().hex())
call("bech32_segwit_encode", *given(b"tb"), version, *given(program.written()), *text.out)
print(text.written().decode())
try:
    lengths = ctypes.byref(hrp.length), ctypes.byref(data_length)
    call("bech32_check", BECH32, *given(b"a12uel5m"), *lengths)
except ValueError as refusal:
    print(refusal)
call("bech32_encode", BECH32M, *given(b"abc"), *given(bytes([0xAB] * 20)), *text.out)
print(text.written().decode())
found = Buffer(MAX_BYTES)
call("bech32_decode", *given(text.written()), *hrp.out, *found.out)
print(hrp.written().decode(), found.written().hex())
