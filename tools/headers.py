"""The declarations of the C headers in include/: functions, structures and constants."""
import re
from collections import namedtuple
from pathlib import Path

TOP = Path(__file__).resolve().parent.parent
HEADERS = ["bech32", "codex32"]
# A parameter or a field: its name, and its type as C has it without the name.
Parameter = namedtuple("Parameter", "name type")
# A macro of one parameter without a division, which languages read differently; it may call others.
Formula = namedtuple("Formula", "parameter text")
NUMBER = re.compile(r"(0x[0-9a-f]+|\d+)u?")


def without_comments(text):
    return re.sub(r"/\*.*?\*/|//[^\n]*", lambda comment: re.sub(r"[^\n]", " ", comment[0]), text, flags=re.S)


def parameter(text):
    """A parameter of C; an array is a pointer, and each header has its own name for lent memory and for a column."""
    text = re.sub(r"^((?:const )?\w+) (\w+)\[\w*\]$", r"\1 *\2", " ".join(text.split()))
    kind, name = re.fullmatch(r"(.*?)(\w+)", text).groups()
    return Parameter(name, re.sub(r"\b(?:bech32|codex32)_(memory|column)\b", r"\1", kind.strip()))


def functions_of(header):
    """The functions that a header declares, and their parameters."""
    found = {}
    for match in re.finditer(r"^\w+ (\w+)\(([^)]*)\);", without_comments(header), re.M):
        found[match[1]] = [] if match[2].strip() == "void" else [parameter(it) for it in match[2].split(",")]
    return found


def structures_of(header):
    """The structures that a header defines, by their names without that of the header, and their fields."""
    found = {}
    for match in re.finditer(r"typedef struct {\n([^}]*)} \w+?_(\w+);", without_comments(header)):
        # What is `void` is read as bytes.
        fields = [it.strip().replace("const void *", "const uint8_t *") for it in match[1].split(";") if it.strip()]
        found[match[2].capitalize()] = [parameter(it) for it in fields]
    return found


def constants_of(header):
    """The numbers, texts and formulas that a header defines, by their names."""
    found = {}
    text = without_comments(header).replace("\\\n", " ")
    for name, given, value in re.findall(r"^#define (\w+?)(?:\((\w+)\))? +(\S.*?) *$", text, re.M):
        number, letter = NUMBER.fullmatch(value), re.fullmatch(r"\(\(uint32_t\)'(.)'\)", value)
        if given:
            plain = NUMBER.sub(r"\1", " ".join(value.replace(f"({given})", given).split()))
            others = "".join(f"|{other}" for other, formula in found.items() if isinstance(formula, Formula))
            plain = re.sub(rf"\b(\w+){given}\b", rf"\1({given})", plain) if others else plain
            if re.fullmatch(rf"\((?:\d+|{given}{others}|[-+*?:<>() ])+\)", plain):
                found[name] = Formula(given, plain[1:-1])
        elif number or letter:
            found[name] = int(number[1], 0) if number else ord(letter[1])
        elif value.startswith('"'):
            found[name] = value.strip('"')
    return found


def read(top=TOP):
    """The text of each header."""
    return {name: (top / f"include/{name}.h").read_text() for name in HEADERS}
