"""Writes the functions of a library as Rust without unsafe code, over the machine of machine.rs."""
import re

from front import BITS
from printers.values import Structured
from wasm import I32, I64

TYPES = {I32: "u32", I64: "u64"}
WRAPPING = {"add": "wrapping_add", "sub": "wrapping_sub", "mul": "wrapping_mul"}
SIGNS = {"and": "&", "or": "|", "xor": "^", "div_u": "/", "rem_u": "%"}
COMPARED = {"eq": "==", "ne": "!=", "lt": "<", "gt": ">", "le": "<=", "ge": ">="}
COUNTS = {"clz": "leading_zeros", "ctz": "trailing_zeros", "popcnt": "count_ones"}
HELPERS = {"__multi3": "multiply_128", "__lshrti3": "shift_right_128"}


class Rust:
    """The texts of the language."""

    def number(self, number, kind):
        return (f"{number:#x}" if number > 65535 else str(number)) + TYPES[kind]

    def typed(self, value):
        return value.text

    def binary(self, what, first, second, kind):
        if what in WRAPPING:
            return f"{first}.{WRAPPING[what]}({second})"
        return f"({first} {SIGNS[what]} {second})"

    def shift(self, what, first, second, kind, by):
        bits = BITS[kind]
        masked = by if by is not None else f"({second} & {bits - 1})"
        if what in ("rotl", "rotr"):
            return f"{first}.rotate_{'left' if what == 'rotl' else 'right'}({masked if by is not None else f'{masked} as u32'})"
        if what == "shr_s":
            return f"((({first} as i{bits}) >> {masked}) as u{bits})"
        return f"({first} {'<<' if what == 'shl' else '>>'} {masked})"

    def compare(self, what, first, second, kind):
        if what.endswith("_s"):
            first, second = f"({first} as i{BITS[kind]})", f"({second} as i{BITS[kind]})"
        return f"({first} {COMPARED[what[:2]]} {second})"

    def no(self, condition):
        return f"!{condition}"

    def of_condition(self, condition):
        return f"({condition} as u32)"

    def select(self, condition, first, second):
        return f"(if {condition} {{ {first.text} }} else {{ {second.text} }})"

    def one(self, what, text, kind):
        if what in COUNTS:
            return f"({text}.{COUNTS[what]}(){'' if kind == I32 else ' as u64'})"
        bits = re.search(r"\d+", what)[0]
        return f"({text} as i{bits} as i{BITS[kind]} as u{BITS[kind]})"

    def converted(self, what, text):
        return {"wrap_i64": f"({text} as u32)", "extend_i32_u": f"({text} as u64)", "extend_i32_s": f"({text} as i32 as i64 as u64)"}[what]

    def load(self, kind, bits, signed, address, points):
        text = f"load_{bits}{'_constant' if points == 'constant' else ''}(m, {address})"
        if bits == BITS[kind]:
            return text
        return f"({text} as i{bits} as i{BITS[kind]} as u{BITS[kind]})" if signed else f"({text} as u{BITS[kind]})"

    def store(self, kind, bits, address, value):
        return f"store_{bits}(m, {address}, {value.text}{'' if bits == BITS[kind] else f' as u{bits}'});"

    def copy(self, to, at, size):
        return f"copy(m, {to}, {at}, {size});"

    def fill(self, to, byte, size):
        return f"fill(m, {to}, {byte.text} as u8, {size});"

    def assign(self, name, text):
        return f"{name} = {text};"

    def let(self, name, kind, text):
        return f"let {name} = {text};"

    def declare(self, name, kind):
        return f"let mut {name}: {TYPES[kind]} = 0;"

    def trap(self):
        return "trap();"

    def unreachable(self, has_result):
        return ["trap();"]

    def call(self, name, given):
        return f"{name}({', '.join(['m', 'g', *given])})"

    def helper(self, name, given):
        return f"{HELPERS[name]}({', '.join(['m', *given])})"

    def statement(self, text):
        return f"{text};"

    def leave(self, text):
        return f"return {text};" if text else "return;"

    def label(self, number):
        return f"'b{number}: "

    def loop(self, number):
        return f"'b{number}: loop {{"

    def again(self, number):
        return f"continue 'b{number};"

    def out_of(self, number):
        return f"break 'b{number};"

    def when(self, condition, lines):
        return f"if {condition} {{ {' '.join(lines)} }}"

    def begin_if(self, condition):
        return f"if {condition} {{"

    def table(self, text, cases, default):
        rows = [f"{' | '.join(map(str, places))} => {{ {' '.join(lines)} }}" for places, lines in cases]
        return [f"match {text} {{", *rows, f"_ => {{ {' '.join(default)} }}", "}"]


def names_in(text, pattern):
    return set(re.findall(pattern, text))


def function_of(function, condition):
    """The text of a function. Locals that nothing names are left out."""
    writer = Structured(function, Rust())
    code = "\n".join(writer.lines)
    named = names_in(code, r"\bl\d+\b")
    given = "".join(f", mut l{at}: {TYPES[kind]}" for at, kind in enumerate(function.parameters))
    result = f" -> {TYPES[function.results[0]]}" if function.results else ""
    own = [f"let mut l{at}: {TYPES[kind]} = 0;" for at, kind in enumerate(function.locals) if at >= len(function.parameters) and f"l{at}" in named]
    head = f"// {function.name()}\n{condition}fn {function.module.name_of(function.index)}(m: &mut [u8], mut g: u64{given}){result} {{\n"
    return head + "\n".join([*own, code]) + "\n}\n"


def features_of(module, calls):
    """With which features each function is there: those of the calls that need it. None is always there."""
    of_calls = dict((name, condition) for condition, name in re.findall(r"^(#\[cfg\(.*\)\]\n)?pub fn (\w+)", calls, re.M))
    needed = {}
    for index, name in module.wanted.items():
        for it in {index} | module.called_below(index):
            needed.setdefault(it, set()).add(of_calls.get(name, "")[len("#[cfg(") : -len(")]\n")])
    return {it: "" if "" in features else condition_of(features) for it, features in needed.items()}


def condition_of(features):
    either = sorted(features)
    return f"#[cfg({either[0] if len(either) == 1 else 'any(' + ', '.join(either) + ')'})]\n"


def lay_out(module, features):
    """Puts constants that are always there first, then those of each condition. Returns where each of these ends."""
    needed = {}
    for index in module.functions:
        for segment in module.segments_of([index]):
            needed.setdefault(segment, set()).add(features[index][len("#[cfg(") : -len(")]\n")])
    ends, order = [], []
    conditions = {it: "" if "" in of else condition_of(of)[len("#[cfg(") : -len(")]\n")] for it, of in needed.items()}
    for condition in sorted({"", *conditions.values()}):
        order += [it for it in sorted(conditions) if conditions[it] == condition]
        module.lay_out(order)
        ends.append((condition, len(module.constants)))
    return ends


def constants_of(module, ends):
    """The constants, of which a program has those of its features, and those before them."""
    data, size = module.constants, ""
    for condition, end in ends[:0:-1]:
        size += f"if cfg!({condition}) {{\n    {end}\n}} else "
    size += f"{{\n    {ends[0][1]}\n}}" if size else str(ends[0][1])
    lines = ("".join(f"\\x{it:02x}" for it in data[at : at + 32]) for at in range(0, len(data), 32))
    literal = 'b"\\\n' + "".join(f"    {line}\\\n" for line in lines) + '    "'
    return (f"const CONSTANTS_SIZE: usize = {size};\nstatic CONSTANTS: [u8; CONSTANTS_SIZE] = first_of(ALL_CONSTANTS);\n"
            f"const ALL_CONSTANTS: &[u8; {len(data)}] = {literal};\n")


def told(name, digest):
    return (f"//! The functions of {name}.h in Rust without unsafe code, made of the proved library's object for WebAssembly (sha256\n"
            f"//! {digest}) by translator/translate; do not edit.\n"
            "#![allow(unused, clippy::all, clippy::pedantic, clippy::nursery, clippy::restriction)]\n\n")


def calls_of(text, wanted):
    """The calls, without those of functions that are not wanted."""
    def kept(found):
        return found[0] if not wanted or found[2] in wanted else ""

    return re.sub(r"^(#\[cfg\(.*\)\]\n)?pub fn (\w+)\(.*?^}\n\n?", kept, text, flags=re.M | re.S)


def text_of(module, name, made):
    """The whole file, for a module of a crate."""
    features = features_of(module, made.calls)
    constants = constants_of(module, lay_out(module, features))
    stacks = "".join(f"const STACK_{it.upper()}: usize = {size};\n" for it, size in sorted(made.stacks.items()))
    functions = "\n".join(function_of(it, features[index]) for index, it in module.functions.items())
    calls = calls_of(made.calls, set(module.wanted.values()) if made.is_part else None)
    return told(name, made.digest) + made.machine + "\n" + constants + "\n" + stacks + "\n" + calls + "\n" + functions
