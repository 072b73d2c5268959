"""Builds the wheel: pip calls build_wheel, in a clone of the repository and in the source package alike.

The package loads shared libraries. In the source package a C compiler (cc, or $CC) makes them from bech32.c and codex32.c in
the folder c. In a clone they are linked from the static libraries for Linux on x86-64 where the toolchain has built them
(crates/bech32_c/out), or where BECH32_C_FOLDER and CODEX32_C_FOLDER name folders that have them; else compiled from the C
files in dist/. Needs nothing but a C compiler and Python's own library, and no network.
"""

import base64
import hashlib
import os
import platform
import re
import shlex
import subprocess
import sys
import sysconfig
import tarfile
import tempfile
import zipfile
from pathlib import Path

HERE = Path(__file__).resolve().parent
TOP = HERE.parent.parent
NAME = "bech32_proved"
# The libraries, with what is compiled beside each: the functions of its header that the package calls, and memory of columns.
LIBRARIES = {"bech32": ["arrow"], "codex32": ["wipe"]}
# How long it takes to compile each, in processor time: pip says nothing of it but with -v.
DURATIONS = {"bech32": "about a minute", "codex32": "some 10 seconds"}
LINUX = "Classifier: Operating System :: POSIX :: Linux\n"
# The project has no address on the network, so no Project-URL stands here.
METADATA = f"""Metadata-Version: 2.1
Name: bech32-proved
Version: {{version}}
Summary: Bech32, Bech32m, segwit addresses and codex32 over proved static libraries
Author: the Wulgenacs authors
License: MIT
License-File: LICENSE
Requires-Python: >=3.8
Classifier: License :: OSI Approved :: MIT License
{LINUX}Classifier: Programming Language :: Python :: 3
Classifier: Typing :: Typed
Description-Content-Type: text/markdown

{{readme}}"""


def version():
    return re.search(r'^version = "(.*)"$', (HERE / "pyproject.toml").read_text(), re.M).group(1)


def metadata(of_linux=False):
    held = METADATA if of_linux else METADATA.replace(LINUX, "")
    return held.format(version=version(), readme=(HERE / "README.md").read_text()).encode()


def _is_package():
    """Whether this is the source package, and no clone."""
    return (HERE / "c").is_dir()


def licence():
    return (HERE if _is_package() else TOP).joinpath("LICENSE").read_bytes()


def _say(sentence):
    print(f"{NAME}: {sentence}", file=sys.stderr, flush=True)


def _run(words):
    try:
        subprocess.run(words, check=True)
    except FileNotFoundError:
        sys.exit(f"There is no C compiler {words[0]}, which this package needs: install one, or name one by CC.")


def _compiler():
    return shlex.split(os.environ.get("CC", "cc"))


def archive(name):
    """Where the static library of a clone is, or would be."""
    folder = os.environ.get(f"{name.upper()}_C_FOLDER") or TOP / "crates" / f"{name}_c" / "out"
    return Path(folder) / f"lib{name}_c.a"


def linked(name, made):
    """Links a static library to a shared one, with what stands beside it."""
    whole = ["-Wl,--whole-archive", str(archive(name)), "-Wl,--no-whole-archive"]
    beside = [str(HERE / f"{it}.c") for it in LIBRARIES[name]]
    if beside:
        beside = ["-O2", "-fPIC", "-I", str(TOP / "include"), *beside]
    options = ["-shared", "-s", "-Wl,-Bsymbolic", "-Wl,--build-id=none"]
    _run([*_compiler(), *options, "-o", str(made), *beside, *whole])


def _compiled(name, made):
    """Compiles a C file to a shared library."""
    source = HERE / "c" if _is_package() else TOP / "dist"
    if not (source / f"{name}.c").is_file():
        sys.exit(f"There is no {name}.c in {source}. A pip before 21.3 builds in a copy of this folder: take a newer one, "
                 "or the source package that bindings/python/source writes.")
    options = ["-dynamiclib"] if sys.platform == "darwin" else ["-shared"]
    options += [] if sys.platform == "win32" else ["-fPIC"]
    beside = HERE / "c" if _is_package() else HERE
    sources = [str(source / f"{name}.c"), *(str(beside / f"{it}.c") for it in LIBRARIES[name])]
    _say(f"compiling {name}.c, which takes {DURATIONS[name]}")
    _run([*_compiler(), "-std=c99", "-O2", *options, "-I", str(source), "-o", str(made), *sources])


def _has_archive(name):
    of_linux = sys.platform.startswith("linux") and platform.machine() == "x86_64" and sys.maxsize > 2**32
    if not of_linux or _is_package():
        return False
    if os.environ.get(f"{name.upper()}_C_FOLDER") and not archive(name).is_file():
        sys.exit(f"{archive(name)} is not there, where {name.upper()}_C_FOLDER says.")
    return archive(name).is_file()


def _shared(name, work):
    """The shared library."""
    made = Path(work) / f"lib{name}_c.so"
    (linked if _has_archive(name) else _compiled)(name, made)
    return made.read_bytes()


def _digest(data):
    return "sha256=" + base64.urlsafe_b64encode(hashlib.sha256(data).digest()).rstrip(b"=").decode()


def sources():
    """The Python files of the package."""
    return [*sorted((HERE / NAME).glob("*.py")), HERE / NAME / "py.typed"]


def tags(tag):
    """The tags that one of a file's name stands for: it may name several platforms, with a dot between two."""
    python, abi, platforms = tag.split("-")
    return [f"{python}-{abi}-{it}" for it in platforms.split(".")]


def write_wheel(folder, tag, shared, about):
    """Writes a wheel that has the libraries that `shared` gives by their names, and returns the name of its file."""
    info = f"{NAME}-{version()}.dist-info"
    held = {f"{NAME}/{file.name}": file.read_bytes() for file in sources()}
    for name in LIBRARIES:
        held[f"{NAME}/lib{name}_c.so"] = shared(name)
    held[f"{info}/METADATA"] = about
    held[f"{info}/WHEEL"] = f"Wheel-Version: 1.0\nGenerator: {NAME}\nRoot-Is-Purelib: false\n".encode()
    held[f"{info}/WHEEL"] += "".join(f"Tag: {it}\n" for it in tags(tag)).encode()
    held[f"{info}/LICENSE"] = licence()
    rows = [f"{path},{_digest(data)},{len(data)}\n" for path, data in held.items()]
    held[f"{info}/RECORD"] = "".join([*rows, f"{info}/RECORD,,\n"]).encode()
    wheel = f"{NAME}-{version()}-{tag}.whl"
    with zipfile.ZipFile(Path(folder) / wheel, "w", zipfile.ZIP_DEFLATED) as packed:
        for path, data in held.items():
            entry = zipfile.ZipInfo(path, (1980, 1, 1, 0, 0, 0))
            entry.compress_type = zipfile.ZIP_DEFLATED
            entry.external_attr = 0o644 << 16
            packed.writestr(entry, data)
    return wheel


def build_wheel(wheel_directory, config_settings=None, metadata_directory=None):
    tag = "py3-none-" + re.sub(r"[-.]", "_", sysconfig.get_platform())
    with tempfile.TemporaryDirectory() as work:
        return write_wheel(wheel_directory, tag, lambda name: _shared(name, work), metadata())


def prepare_metadata_for_build_wheel(metadata_directory, config_settings=None):
    """What the wheel says of itself, before anything is compiled."""
    info = f"{NAME}-{version()}.dist-info"
    (Path(metadata_directory) / info).mkdir()
    (Path(metadata_directory) / info / "METADATA").write_bytes(metadata())
    return info


def build_sdist(sdist_directory, config_settings=None):
    """The package again."""
    if not _is_package():
        sys.exit("In a clone bindings/python/source writes the source package.")
    name = f"{NAME}-{version()}"
    with tarfile.open(Path(sdist_directory) / f"{name}.tar.gz", "w:gz") as packed:
        packed.add(HERE, name, filter=lambda it: None if "__pycache__" in it.name else it)
    return f"{name}.tar.gz"
