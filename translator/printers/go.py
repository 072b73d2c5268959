"""Writes the functions of a library as Go, over the machine of machine.go."""
import re

from front import BITS
from printers.rust import COMPARED, names_in
from printers.values import CONSTANT, STACK, Jumping, Value
from wasm import I32, I64

TYPES = {I32: "uint32", I64: "uint64"}
SIGNS = {"add": "+", "sub": "-", "mul": "*", "and": "&", "or": "|", "xor": "^", "div_u": "/", "rem_u": "%"}
COUNTS = {"clz": "LeadingZeros", "ctz": "TrailingZeros", "popcnt": "OnesCount"}
HELPERS = {"__multi3": "multiply128", "__lshrti3": "shiftRight128"}


class Go:
    """The texts of the language."""

    def number(self, number, kind):
        return f"{number:#x}" if number > 65535 else str(number)

    def typed(self, value):
        return f"{TYPES[value.kind]}({value.text})" if value.number is not None else value.text

    def binary(self, what, first, second, kind):
        return f"({first} {SIGNS[what]} {second})"

    def shift(self, what, first, second, kind, by):
        bits = BITS[kind]
        masked = by if by is not None else f"({second} & {bits - 1})"
        if what in ("rotl", "rotr"):
            by = masked if by is not None else f"int{masked}"
            return f"bits.RotateLeft{bits}({first}, {'' if what == 'rotl' else '-'}{by})"
        if what == "shr_s":
            return f"uint{bits}(int{bits}({first}) >> {masked})"
        return f"({first} {'<<' if what == 'shl' else '>>'} {masked})"

    def signed(self, text, bits):
        """A number with a sign: a constant cannot be converted where it is too large."""
        found = re.fullmatch(r"uint\d+\((\w+)\)", text)
        if not found or not found[1][0].isdigit():
            return f"int{bits}({text})"
        number = int(found[1], 0)
        return f"int{bits}({number - (1 << bits) if number >> (bits - 1) else number})"

    def compare(self, what, first, second, kind):
        if what.endswith("_s"):
            first, second = self.signed(first, BITS[kind]), self.signed(second, BITS[kind])
        return f"({first} {COMPARED[what[:2]]} {second})"

    def no(self, condition):
        return f"!{condition}"

    def of_condition(self, condition):
        return f"number({condition})"

    def select(self, condition, first, second):
        """One of two numbers, without a branch."""
        return f"select{BITS[first.kind]}({condition}, {first.text}, {second.text})"

    def one(self, what, text, kind):
        bits = BITS[kind]
        if what in COUNTS:
            return f"uint{bits}(bits.{COUNTS[what]}{bits}({text}))"
        return f"uint{bits}(int{bits}(int{re.search(r'[0-9]+', what)[0]}({text})))"

    def converted(self, what, text):
        return {"wrap_i64": f"uint32({text})", "extend_i32_u": f"uint64({text})", "extend_i32_s": f"uint64(int64(int32({text})))"}[what]

    def load(self, kind, bits, signed, address, points):
        where = {STACK: "OfStack", CONSTANT: "OfConstants"}.get(points, "")
        text = f"load{bits}{where}(m, {address})"
        if bits == BITS[kind]:
            return text
        return f"uint{BITS[kind]}(int{BITS[kind]}(int{bits}({text})))" if signed else f"uint{BITS[kind]}({text})"

    def store(self, kind, bits, address, value):
        return f"store{bits}(m, {address}, {value.text if bits == BITS[kind] or value.number is not None else f'uint{bits}({value.text})'})"

    def copy(self, to, at, size):
        return f"move(m, {to}, {at}, {size})"

    def fill(self, to, byte, size):
        return f"fill(m, {to}, {byte.number & 255 if byte.number is not None else f'byte({byte.text})'}, {size})"

    def assign(self, name, text):
        return f"{name} = {text}"

    def trap(self):
        return "trap()"

    def unreachable(self, has_result):
        return ["trap()", "return 0" if has_result else "return"]

    def call(self, name, given):
        return f"{name}({', '.join(['m', 'g', *given])})"

    def helper(self, name, given):
        return f"{HELPERS[name]}({', '.join(['m', *given])})"

    def statement(self, text):
        return text

    def leave(self, text):
        return f"return {text}" if text else "return"

    def again(self, number):
        return f"goto L{number}"

    def out_of(self, number, label="L"):
        return f"goto {label}{number}"

    def when(self, condition, lines):
        return f"if {condition} {{ {'; '.join(lines)} }}"

    def table(self, text, cases, default):
        rows = [line for places, lines in cases for line in (f"case {', '.join(map(str, places))}:", *lines)]
        return [f"switch {text} {{", *rows, "default:", *default, "}"]


class Writer(Jumping):
    """Where nothing is secret, a select is a branch, which is faster."""

    def select(self, condition, first, second):
        if self.language.is_secret:
            super().select(condition, first, second)
            return
        name = self.named(first.kind, second.text)
        self.emit(self.language.when(self.condition(condition), [self.language.assign(name, first.text)]))
        self.stack.append(Value(name, first.kind))


def function_of(function, language):
    """The text of a function. Names that nothing uses are left out, and those that nothing reads are read: Go wants both."""
    writer = Writer(function, language)
    code = "\n".join(writer.lines)
    named = names_in(code, r"\b[ltwb]\d+\b")
    used = names_in(code, r"\b[ltwb]\d+\b(?! = )")
    head = []
    for kind in (I32, I64):
        names = [f"l{at}" for at, it in enumerate(function.locals) if it == kind and at >= len(function.parameters)]
        names = [it for it in [*names, *writer.declared[kind]] if it in named]
        head += [f"var {', '.join(names)} {TYPES[kind]}"] if names else []
        head += [f"_ = {it}" for it in names if it not in used]
    tail = []
    if function.results and (writer.reachable or not re.match("goto|return", code.rpartition("\n")[2])):
        tail = ["panic(unreached)"] if not code.rpartition("\n")[2].startswith("return") else []
    elif code.endswith(":"):
        tail = ["return"]
    given = "".join(f", l{at} {TYPES[kind]}" for at, kind in enumerate(function.parameters))
    result = f" {TYPES[function.results[0]]}" if function.results else ""
    return f"// {function.name()}\nfunc {function.module.name_of(function.index)}(m []byte, g uint64{given}){result} {{\n" + "\n".join([*head, code, *tail]) + "\n}\n"


def told(name, digest):
    return (f"// Code generated by translator/translate; DO NOT EDIT.\n\n// The functions of {name}.h in Go, made of the proved library's object for\n"
            f"// WebAssembly (sha256 {digest}).\n")


def calls_of(text, wanted):
    """The calls, without those of functions that are not wanted."""
    names = {it.title().replace("_", "") for it in wanted or ()}

    def kept(found):
        return found[0] if not wanted or found[1] in names else ""

    return re.sub(r"^func ([A-Z]\w+)\(.*?^}\n\n?", kept, text, flags=re.M | re.S)


def constants_of(data):
    lines = ("".join(f"\\x{it:02x}" for it in data[at : at + 32]) for at in range(0, len(data), 32))
    return f"const constants = \"\" +\n" + " +\n".join(f'\t"{it}"' for it in lines) + "\n"


def text_of(module, name, made):
    """The whole file, of the package that has the library's name."""
    language = Go()
    language.is_secret = name == "codex32"
    stacks = "".join(f"const stack{it.title().replace('_', '')} = {size}\n" for it, size in sorted(made.stacks.items()))
    functions = "\n".join(function_of(it, language) for it in module.functions.values())
    calls = calls_of(made.calls, set(module.wanted.values()) if made.is_part else None)
    machine = made.machine.replace("package machine", f"package {name}")
    return told(name, made.digest) + machine + "\n" + constants_of(module.constants) + "\n" + stacks + "\n" + calls + "\n" + functions
