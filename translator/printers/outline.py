"""Cuts what is too long for one method of Java into methods of its own: HotSpot never compiles one of more than 8,000 bytes.

Lines of whole statements become a method that is given what they read. What they set, and a number that says how they end, comes
back in the array `s`, unless it is one value.
"""
import os
import re

from wasm import Unknown

# The most characters of a method's text. A character is 0.45 bytes of bytecode at most. Tests cut shorter.
LIMIT = int(os.environ.get("METHOD_LIMIT", "14000"))
# The most parameters of a method, of which a long one is two.
PARAMETERS = 250
NAME = re.compile(r"\b(?:[ltb]\d+|g)\b")
SET = re.compile(r"(?:^|[ {;])(?:(?:int|long) )?([ltb]\d+|g) = ", re.M)
DEFINED = re.compile(r"^(int|long) ([tb]\d+) = ")
LEAVES = re.compile(r"\b(break|continue) (at\d+);|\breturn(?: ([^;]*))?;")
LABEL = re.compile(r"\b(at\d+): ")


def statements(lines):
    """Lines as whole statements: each ends where all braces are closed."""
    found, depth = [[]], 0
    for line in lines:
        found[-1].append(line)
        depth += line.count("{") - line.count("}")
        if depth == 0:
            found.append([])
    return found[:-1]


def groups(lines, limit):
    """Statements one after another, as many as are not too long together."""
    found, size = [[]], 0
    for statement in statements(lines):
        more = sum(map(len, statement))
        if found[-1] and size + more > limit:
            found.append([])
            size = 0
        found[-1] += statement
        size += more
    return found


class Outline:
    """The methods that a function's lines are cut into."""

    def __init__(self, name, kinds, result):
        # The function's name, the kinds of its locals, and the type of its result.
        self.name, self.kinds, self.result = name, dict(kinds), result
        self.methods, self.most = [], 0

    def shorten(self, lines, goes_on):
        """Lines of a block, with methods in the place of some where they are too many."""
        if sum(map(len, lines)) <= LIMIT:
            return lines
        parts, made = groups(lines, LIMIT), []
        for at, part in enumerate(parts):
            rest = {name for other in parts[at + 1 :] for line in other for name in NAME.findall(line)}
            made += self.method(part, rest, goes_on or at + 1 < len(parts))
        return made

    def method(self, part, rest, goes_on):
        text = "\n".join(part)
        own = {found[2]: found[1] for found in map(DEFINED.match, self.outer(part)) if found}
        inner = {name for line in part for name in re.findall(r"\b(?:int|long) ([tb]\d+) = ", line)}
        self.kinds.update({found[1]: found[0] for line in part for found in re.findall(r"\b(int|long) ([tb]\d+) = ", line)})
        used = set(NAME.findall(text))
        given = sorted(used - inner, key=self.order)
        kept = sorted((set(SET.findall(text)) - inner) | ({*own} & rest), key=self.order)
        labels = set(LABEL.findall(text))
        exits = self.merged(sorted({found[0] for found in LEAVES.finditer(text) if found[2] not in labels}))
        if sum(2 if self.kind(it) == "long" else 1 for it in given) > PARAMETERS:
            raise Unknown(f"more locals than a method of Java has parameters, in {self.name}")
        self.most = max(self.most, len(kept) + 1)
        self.methods.append(self.text(part, given, kept, exits, goes_on, labels))
        return self.call(own, given, kept, exits, goes_on)

    def outer(self, part):
        """The first line of each statement."""
        return [it[0] for it in statements(part)]

    @staticmethod
    def order(name):
        return name[0], int(name[1:] or 0)

    @staticmethod
    def merged(exits):
        """The ways of leaving; every return is one."""
        left = [it for it in exits if not it.startswith("return")]
        return left + ["return"] * (len(left) < len(exits))

    def kind(self, name):
        return "long" if name == "g" else self.kinds[name]

    def back(self, kept, number):
        """What is done where a method ends with a number."""
        return "".join(f"s[{at}] = {name}; " for at, name in enumerate(kept)) + f"return {number};"

    def text(self, part, given, kept, exits, goes_on, labels):
        def leave(found):
            if found[2] and found[2] in labels:
                return found[0]
            if found[2]:
                return f"{{ {self.back(kept, exits.index(found[0]) + 1)} }}"
            held = f"s[{len(kept)}] = {found[3]}; " if found[3] else ""
            return f"{{ {held}{self.back(kept, exits.index('return') + 1)} }}"

        lines = [LEAVES.sub(leave, line) for line in part]
        parameters = "".join(f", {self.kind(it)} {it}" for it in given)
        head = f"private static int {self.name}_{len(self.methods) + 1}(byte[] m{parameters}, long[] s) {{\n"
        last = [self.back(kept, 0)] if goes_on else []
        return head + "\n".join([*lines, *last]) + "\n}\n"

    def call(self, own, given, kept, exits, goes_on):
        number = len(self.methods)
        call = f"{self.name}_{number}({', '.join(['m', *given, 's'])})"
        lines = [f"int e{number} = {call};" if exits else f"{call};"]
        for at, name in enumerate(kept):
            kind = self.kind(name)
            value = f"s[{at}];" if kind == "long" else f"(int) s[{at}];"
            lines.append(f"{kind + ' ' if name in own else ''}{name} = {value}")
        for at, way in enumerate(exits):
            told = way
            if way == "return":
                told = f"return {'(int) ' if self.result == 'int' else ''}s[{len(kept)}];" if self.result != "void" else "return;"
            is_last = not goes_on and at + 1 == len(exits)
            lines.append(told if is_last else f"if (e{number} == {at + 1}) {{ {told} }}")
        if not goes_on and not exits:
            lines.append("throw trap();")
        return lines
