"""Reads wrong bodies: those of wrong-bodies/NAME.edits, and an edit that has a file of its own."""
from pathlib import Path
from typing import NamedTuple

TOP = Path(__file__).resolve().parent.parent
BODIES = TOP / "wrong-bodies"


class Body(NamedTuple):
    """An edit of a crate: where it is written, its name, and its lines as rt reads them in must-fail/."""

    place: str
    crate: str
    name: str
    text: str


def bodies(crate):
    """The wrong bodies of a crate outside the gate. Empty lines, and lines that begin with #, say nothing."""
    file, found = BODIES / f"{crate}.edits", []
    for line in file.read_text().split("\n") if file.exists() else []:
        if line.startswith("body:") or line and line[0] != "#" and not found:
            found.append([line.removeprefix("body:").strip()])
        elif line and line[0] != "#":
            found[-1].append("new: " if line == "new:" else line)
    return [Body(f"wrong-bodies/{crate}.edits: {name}", crate, name, "".join(f"{line}\n" for line in lines)) for name, *lines in found]


def alone(file):
    """The edit of crates/NAME/must-fail/BODY.edit, or of a tool's planted/NAME/BODY.edit."""
    crate = file.parts[-3] if file.parent.name == "must-fail" else file.parent.name
    return Body(str(file.relative_to(TOP)), crate, file.stem, file.read_text())
