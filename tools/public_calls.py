"""The public calls of the libraries, read from the sources: functions, methods of types, and members of traits.

`Public(top, libraries).calls` has each of them that the root of a library hands out (`pub use`, `pub mod`), with the
paths that lead to it. Words of functions without a body are their heads and their contracts.
"""
import importlib.machinery
import re
import sys
import types
from collections import namedtuple
from pathlib import Path

FUNCTION = re.compile(r"(?<!\w)(ghost )?(pub )?(?:(?:final|const|unsafe|extern \S+) )*fn (\w+)")
# What has a name in a module; the text of a function is its head and its contract, that of others their body.
Item = namedtuple("Item", "crate kind name text")
# A name in a module: whether it is public, and what it is, a module, an item, or the path of what is used.
Named = namedtuple("Named", "public what")
# A public call: its head and contract, and its paths.
Call = namedtuple("Call", "text paths")

sys.dont_write_bytecode = True
reading = types.ModuleType("reading")
reading.__file__ = str(Path(__file__).resolve().parent / "names")
importlib.machinery.SourceFileLoader("reading", reading.__file__).exec_module(reading)


def named_by_users(top):
    """The crates that users name, as docs/MAP.md has them."""
    said = re.search(r"^Users name ([^.]*)\.", (top / "docs/MAP.md").read_text(), re.M)
    if not said:
        sys.exit("docs/MAP.md: no sentence says which crates users name")
    return re.findall(r"`(\w+)`", said[1])


def without_attributes(head):
    return re.sub(r"#!?\[[^\]]*\]", "", head).strip()


def functions(crate, body):
    """The functions of a body by name."""
    found = []
    # The length of an array would end a head.
    for head, said in reading.blocks(re.sub(r"(\[[^][;]*);([^][;]*\])", r"\1 \2", body)):
        head = without_attributes(head)
        # A clause without a name may be a record of facts, which is its first word.
        head += " { " + said.split()[0] if head.endswith("ensures") else ""
        match = FUNCTION.search(head)
        if match and not match[1]:
            found.append([bool(match[2]), match[3], head])
        elif found and re.match(r"ensures|requires", head):
            found[-1][2] += "\n" + head
    return {name: Named(public, Item(crate, "fn", name, text)) for public, name, text in found}


def used(tree, path=()):
    """The paths that a tree of `use` names, by the name that each gets."""
    head, brace, rest = tree.strip().partition("{")
    path += tuple(re.findall(r"\w+(?: as \w+)?", head))
    if not brace:
        name, _, other = path[-1].partition(" as ")
        yield (path[-2], path[:-1]) if name == "self" else (other or name, (*path[:-1], name))
        return
    depth, part = 0, ""
    for letter in rest.rstrip()[:-1] + ",":
        depth += (letter == "{") - (letter == "}")
        if letter != "," or depth:
            part += letter
        elif part.strip():
            yield from used(part, path)
            part = ""


class Module:
    """The names of a module."""

    def __init__(self, crate, text, folder):
        self.crate, self.names = crate, {}
        for use in re.finditer(r"(?<!ghost )\b(pub )?use ([^;]+);", text):
            if text[: use.start()].count("{") == text[: use.start()].count("}"):
                self.names.update((name, Named(bool(use[1]), path)) for name, path in used(use[2]))
        for head, body in reading.blocks(text):
            head = without_attributes(head)
            module, item = re.search(r"(pub )?mod (\w+);?$", head), reading.ITEM.search(head)
            if module:
                file = folder / f"{module[2]}.rt"
                inner = body or (reading.bare(file.read_text()) if file.exists() else "")
                self.names[module[2]] = Named(bool(module[1]), Module(crate, inner, folder / module[2]))
            elif item and not reading.IMPL.match(head):
                self.names[item[2]] = Named(True, Item(crate, *item.groups(), body or ""))
        self.names.update(functions(crate, text))


class Public:
    """The public calls of libraries, by crate, type or trait, and name."""

    def __init__(self, top, libraries):
        self.crates = {it.parent.parent.name: it.parent for it in sorted(top.glob("crates/*/src/lib.rt"))}
        self.roots, self.methods, self.calls = {}, {}, {}
        for name, folder in self.crates.items():
            self.roots[name] = Module(name, reading.bare((folder / "lib.rt").read_text()), folder)
        for library in libraries:
            self.walk(self.roots[library], (library,))

    def at(self, module, path):
        """What a path leads to from a module: a module or an item, or None."""
        here = {"crate": self.roots[module.crate], "self": module}.get(path[0])
        if here is None:
            own = module.names.get(path[0], Named(False, None)).what
            here = own if isinstance(own, (Module, Item)) else self.roots.get(path[0])
        for name in path[1:]:
            here = self.meant(here, here.names[name].what) if isinstance(here, Module) and name in here.names else None
        return here

    def meant(self, module, what):
        """What a name of a module means, where it may be the path of what is used."""
        return what if isinstance(what, (Module, Item)) else self.at(module, what)

    def methods_of(self, crate):
        """The public methods of a crate's types, each with the name of the type."""
        for file in sorted(self.crates[crate].rglob("*.rt")):
            for head, body in reading.blocks(reading.bare(file.read_text())):
                head = without_attributes(head)
                own = re.match(r"impl\b\s*(?:<.*?>\s(?=\w))?((?:(?! for ).)*)$", head, re.S)
                if own and body:
                    methods = functions(crate, body).values()
                    yield from ((reading.without_arguments(own[1]), it.what) for it in methods if it.public)

    def walk(self, module, path):
        """Takes in all that a module hands out."""
        for name, (public, what) in module.names.items():
            what = self.meant(module, what) if public else None
            if isinstance(what, Module):
                self.walk(what, (*path, name))
            elif what and what.kind == "fn":
                self.put(what, "", (*path, name))
            elif what and what.kind == "trait":
                for member in functions(what.crate, what.text).values():
                    self.put(member.what, what.name, (*path, name, member.what.name))
            elif what and what.kind in ("struct", "enum"):
                if what.crate not in self.methods:
                    self.methods[what.crate] = list(self.methods_of(what.crate))
                for method in (it for own, it in self.methods[what.crate] if own == what.name):
                    self.put(method, what.name, (*path, name, method.name))

    def put(self, item, of, path):
        self.calls.setdefault((item.crate, of, item.name), Call(item.text, [])).paths.append(path)

    def named(self, names):
        """The calls that are named, each by the end of a path: of `bech32` or of no other path first, else of one call alone."""
        found = set()
        for end in names:
            ended = {call for call, it in self.calls.items() if any(path[-len(end):] == end for path in it.paths)}
            first = {call for call in ended if {end, ("bech32", *end)} & set(self.calls[call].paths)}
            found |= first or (ended if len(ended) == 1 else set())
        return found
