"""Writes the functions of a library as a class of Java, over the machine of machine.java."""
import re

from front import BITS
from printers.outline import Outline
from printers.rust import COMPARED, names_in
from printers.values import CONSTANT, STACK, Structured
from wasm import I32, I64

TYPES = {I32: "int", I64: "long"}
BOXES = {I32: "Integer", I64: "Long"}
SIGNS = {"add": "+", "sub": "-", "mul": "*", "and": "&", "or": "|", "xor": "^"}
CALLED = {"div_u": "divideUnsigned", "rem_u": "remainderUnsigned", "rotl": "rotateLeft", "rotr": "rotateRight"}
COUNTS = {"clz": "numberOfLeadingZeros", "ctz": "numberOfTrailingZeros", "popcnt": "bitCount"}
NARROW = {8: "byte", 16: "short", 32: "int"}
HELPERS = {"__multi3": "multiply128", "__lshrti3": "shiftRight128"}
# The longest literal that a class file can have, in bytes of it, of which a byte may take two.
LITERAL = 16000


class Java:
    """The texts of the language, whose numbers all have a sign."""

    def number(self, number, kind):
        number = number - (1 << BITS[kind]) if number >> (BITS[kind] - 1) else number
        text = f"{number}{'' if kind == I32 else 'L'}"
        return f"({text})" if number < 0 else text

    def typed(self, value):
        return value.text

    def binary(self, what, first, second, kind):
        if what in SIGNS:
            return f"({first} {SIGNS[what]} {second})"
        return f"{BOXES[kind]}.{CALLED[what]}({first}, {second})"

    def shift(self, what, first, second, kind, by):
        by = by if by is not None else second if kind == I32 else f"(int) {second}"
        if what in CALLED:
            return f"{BOXES[kind]}.{CALLED[what]}({first}, {by})"
        return f"({first} { {'shl': '<<', 'shr_u': '>>>', 'shr_s': '>>'}[what]} {by})"

    def compare(self, what, first, second, kind):
        if what.endswith("_u"):
            return f"({BOXES[kind]}.compareUnsigned({first}, {second}) {COMPARED[what[:2]]} 0)"
        return f"({first} {COMPARED[what[:2]]} {second})"

    def no(self, condition):
        return f"!{condition}"

    def of_condition(self, condition):
        return f"({condition} ? 1 : 0)"

    def select(self, condition, first, second):
        return f"({condition} ? {first.text} : {second.text})"

    def one(self, what, text, kind):
        if what in COUNTS:
            return f"{'(long) ' if kind == I64 else ''}{BOXES[kind]}.{COUNTS[what]}({text})"
        return f"(({TYPES[kind]}) ({NARROW[int(re.search(r'[0-9]+', what)[0])]}) {text})"

    def converted(self, what, text):
        return {"wrap_i64": f"((int) {text})", "extend_i32_u": f"({text} & 0xffffffffL)", "extend_i32_s": f"((long) {text})"}[what]

    def load(self, kind, bits, signed, address, points):
        text = f"load{bits}{ {STACK: 'OfStack', CONSTANT: 'OfConstants'}.get(points, '')}(m, {address})"
        if bits == BITS[kind]:
            return text
        if signed:
            return f"(({TYPES[kind]}) {'' if bits == 32 else f'({NARROW[bits]}) '}{text})"
        if bits == 32:
            return f"({text} & 0xffffffffL)"
        return text if kind == I32 else f"((long) {text})"

    def store(self, kind, bits, address, value):
        return f"store{bits}(m, {address}, {value.text if kind == I32 or bits == 64 else f'(int) {value.text}'});"

    def copy(self, to, at, size):
        return f"move(m, {to}, {at}, {size});"

    def fill(self, to, byte, size):
        return f"fill(m, {to}, {byte.text}, {size});"

    def assign(self, name, text):
        return f"{name} = {text};"

    def let(self, name, kind, text):
        return f"{TYPES[kind]} {name} = {text};"

    def declare(self, name, kind):
        return f"{TYPES[kind]} {name} = 0;"

    def trap(self):
        return "trap();"

    def unreachable(self, has_result):
        return ["throw trap();"]

    def call(self, name, given):
        return f"{name}({', '.join(['m', 'g', *given])})"

    def helper(self, name, given):
        return f"{HELPERS[name]}({', '.join(['m', *given])})"

    def statement(self, text):
        return f"{text};"

    def leave(self, text):
        return f"return {text};" if text else "return;"

    def label(self, number):
        return f"at{number}: "

    def loop(self, number):
        return f"at{number}: while (true) {{"

    def again(self, number):
        return f"continue at{number};"

    def out_of(self, number):
        return f"break at{number};"

    def when(self, condition, lines):
        return f"if ({condition}) {{ {' '.join(lines)} }}"

    def begin_if(self, condition):
        return f"if ({condition}) {{"

    def table(self, text, cases, default):
        rows = [" ".join([*(f"case {it}:" for it in places), *lines]) for places, lines in cases]
        return [f"switch ({text}) {{", *rows, "default: " + " ".join(default), "}"]


class Writer(Structured):
    """A function of which no method is too long."""

    def __init__(self, function):
        kinds = {f"l{at}": TYPES[kind] for at, kind in enumerate(function.locals)}
        result = TYPES[function.results[0]] if function.results else "void"
        self.outline = Outline(function.module.name_of(function.index), kinds, result)
        super().__init__(function, Java())
        self.lines = self.outline.shorten(self.lines, self.reachable and not function.results)

    def shortened(self, lines):
        return self.outline.shorten(lines, self.reachable)


def function_of(function):
    """The text of a function, after the methods that it is cut into. Locals that nothing names are left out."""
    writer = Writer(function)
    code = "\n".join(writer.lines)
    named = names_in(code, r"\bl\d+\b")
    own = [f"{TYPES[kind]} l{at} = 0;" for at, kind in enumerate(function.locals) if at >= len(function.parameters) and f"l{at}" in named]
    own += [f"long[] s = new long[{writer.outline.most}];"] if writer.outline.methods else []
    given = "".join(f", {TYPES[kind]} l{at}" for at, kind in enumerate(function.parameters))
    result = TYPES[function.results[0]] if function.results else "void"
    head = f"// {function.name()}\nprivate static {result} {function.module.name_of(function.index)}(byte[] m, long g{given}) {{\n"
    return "\n".join([*writer.outline.methods, head + "\n".join([*own, code]) + "\n}\n"])


def calls_of(text, wanted):
    """The calls, without those of functions that are not wanted."""
    def camel(name):
        return name[0] + name.title().replace("_", "")[1:]

    names = {camel(it) for it in wanted or ()}

    def kept(found):
        return found[0] if not wanted or found[1] in names else ""

    return re.sub(r"^    static int (\w+)\(.*?^    }\n\n?", kept, text, flags=re.M | re.S)


def quoted(data):
    """Bytes as a literal, each as a character."""
    return '"' + "".join(chr(it) if 32 <= it < 127 and it not in (34, 92) else f"\\{it:03o}" for it in data) + '"'


def constants_of(data):
    parts = "".join(f"        put({quoted(data[at : at + LITERAL])}, {at});\n" for at in range(0, len(data), LITERAL))
    return f"    private static final byte[] CONSTANTS = new byte[{len(data)}];\n\n    static {{\n{parts}    }}\n"


def text_of(module, name, made):
    """The whole file: a class that the package's classes alone can see."""
    head = (f"// The functions of {name}.h in Java, made of the proved library's object for WebAssembly (sha256\n"
            f"// {made.digest}) by translator/translate; do not edit.\n")
    stacks = "".join(f"    private static final long STACK_{it.upper()} = {size};\n" for it, size in sorted(made.stacks.items()))
    functions = "\n".join(function_of(it) for it in module.functions.values())
    calls = calls_of(made.calls, set(module.wanted.values()) if made.is_part else None)
    machine = made.machine.replace("class Machine", f"class {made.file.partition('.')[0]}").replace("private Machine()", f"private {made.file.partition('.')[0]}()")
    body = machine.rstrip().removesuffix("}")
    return head + body + "\n" + constants_of(module.constants) + "\n" + stacks + "\n" + calls + "\n" + functions + "}\n"
