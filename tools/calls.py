"""What a call of the library is given and what it writes, as the headers' prototypes say it: for the scripts that write calls."""
import re
from typing import NamedTuple

import headers

# What is read to its end. Of other bytes 2^28 at most are handed over: no answer depends on more.
WHOLE = {"text", "texts", "hrp", "elements", "payload"}
# With which answers a number is given to the caller, where it is not 0 alone.
PLACE_OF_ERROR = "answer == BECH32_NOT_IN_DESCRIPTOR"
GIVEN_WITH = {
    ("bech32_fault", "place"): "answer != BECH32_OK && answer != BECH32_NOT_UTF8 && answer != BECH32_BAD_NUMBER",
    ("bech32_encode_elements", "place"): "answer == BECH32_BAD_ELEMENT",
    ("bech32_descriptor_checksum", "place"): PLACE_OF_ERROR,
    ("bech32_descriptor_check", "place"): PLACE_OF_ERROR,
    **{(f"bech32_segwit_{it}_many", "done"): "answer == BECH32_OK || answer == BECH32_NO_ROOM" for it in ("decode", "encode")},
}
# The kind of a parameter that stands alone, by its type.
ALONE = {"uint32_t": "plain", "size_t": "plain", "uint32_t *": "32", "size_t *": "64", "memory *": "memory", "const column *": "column"}
# Of a buffer and the number of its items: the kind.
BUFFERS = {"uint8_t *": "written", "size_t *": "places", "int32_t *": "offsets"}


class Item(NamedTuple):
    """A parameter, or a pointer with its length."""

    kind: str
    name: str
    size: str = ""


def items_of(parameters, arrays):
    """The items of a function, in their order."""
    items, left = [], list(parameters)
    while left:
        it = left.pop(0)
        second = left[0].name if left else ""
        if it.name in arrays:
            items.append(Item("read" if it.type.startswith("const") else "written", it.name, arrays[it.name]))
        elif it.type == "const uint8_t *" and second == f"{it.name}_length":
            items.append(Item("read", it.name, left.pop(0).name))
        elif it.type in BUFFERS and second in (f"{it.name}_room", "count"):
            items.append(Item(BUFFERS[it.type], it.name, left.pop(0).name))
        elif it.type in ("const size_t *", "const uint8_t *"):
            items.append(Item("numbers" if it.type == "const size_t *" else "read", it.name, left.pop(0).name))
        else:
            items.append(Item(ALONE[it.type], it.name))
    return items


def condition_of(library, name, it, has_memory):
    """With which answers a number is given to the caller, in the words of C, Rust, Go and Java."""
    usual = f"answer == {library}_OK"
    usual += f" || answer == {library}_NO_ROOM" if it.name == "count" and has_memory else ""
    return GIVEN_WITH.get((name, it.name), usual)


def declared(text):
    """The functions of a header: the name, the text of the parameters, and the items."""
    given = {name: " ".join(it.split()) for name, it in re.findall(r"^uint32_t (\w+)\(([^)]*)\);", headers.without_comments(text), re.M)}
    for name, parameters in headers.functions_of(text).items():
        yield name, given[name], items_of(parameters, dict(re.findall(r"(\w+)\[(\w+)\]", given[name])))
