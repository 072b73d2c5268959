"""Writes the functions of a library as C99: a text with the constants, machine.h, each function, and the calls."""
import re

from front import BITS, COMPARE, COMPARE_SIGNED, INFIX, LOADS, OF_ONE, SHIFTS, STORES
from wasm import EMPTY, I32, I64, Unknown

TYPES = {I32: "u32", I64: "u64"}
# What stands in machine.h for the functions that a link would add.
HELPERS = {"__rattle_enter": "ENTER", "__rattle_leave": "LEAVE", "__rattle_trap": "TRAP", "__multi3": "MULTIPLY_128",
           "__lshrti3": "SHIFT_RIGHT_128"}


class Writer:
    """The C of a function of the library."""

    def __init__(self, function):
        self.function, self.module = function, function.module
        self.parameters, self.results, self.locals, self.body = function.parameters, function.results, function.locals, function.body
        self.lines, self.stack, self.blocks = [], [], []
        self.free, self.declared, self.count = {I32: [], I64: []}, {I32: [], I64: []}, 0
        self.at = 0
        self.translate()

    def name(self):
        return self.function.name()

    # ---- values

    def emit(self, text):
        self.lines.append("    " + text)

    def fresh(self, kind):
        """A name for a value, which is free again when the value is taken from the stack."""
        if not self.free[kind]:
            self.declared[kind].append(f"{'w' if kind == I32 else 't'}{len(self.declared[kind])}")
            return self.declared[kind][-1]
        return self.free[kind].pop()

    def put(self, kind, value):
        """Works a value out now, and puts it on the stack."""
        name = self.fresh(kind)
        self.emit(f"{name} = {value};")
        self.stack.append((name, kind))

    def pop(self):
        if len(self.stack) == (self.blocks[-1]["height"] if self.blocks else 0):
            raise Unknown(f"a value that is not there, in {self.name()}")
        name, kind = self.stack.pop()
        if name[0] in "tw":
            self.free[kind].append(name)
            self.free[kind].sort(key=lambda it: -int(it[1:]))
        return name

    def keep(self, local, height):
        """Gives a name of its own to what stands for a local, which may change, among the lowest values of the stack."""
        for at, (value, kind) in enumerate(self.stack[:height]):
            if value == local:
                name = self.fresh(kind)
                self.emit(f"{name} = {value};")
                self.stack[at] = name, kind

    def place(self, relocation):
        """The address of a constant."""
        place = self.module.constant(relocation)
        return f"PLACE({place}{'u' if place >= 0 else ''})"

    def address(self, instruction):
        """Where a load or a store goes: the address on the stack, and what is added to it."""
        of = self.pop()
        if instruction.relocation:
            return f"{of} + {self.place(instruction.relocation)}"
        return f"{of} + {instruction.value}u" if instruction.value else of

    # ---- control

    def begin(self, instruction):
        result, name, number = instruction.value, None, self.count
        if result not in (EMPTY, I32, I64):
            raise Unknown(f"a block of several results, in {self.name()}")
        # What waits for a local, below the condition of an `if`, is read now: where the block sets the local, it may or may
        # not be reached.
        waiting = len(self.stack) - (instruction.name == "if")
        for local in sorted({value for value, _ in self.stack[:waiting] if value[0] == "l"}):
            self.keep(local, waiting)
        condition = self.pop() if instruction.name == "if" else None
        self.count += 1
        if result != EMPTY:
            name = f"b{number}"
            self.declared[result].append(name)
        self.blocks.append({"kind": instruction.name, "label": f"L{number}", "result": result, "name": name,
                            "height": len(self.stack), "used": False, "else": False})
        if instruction.name == "loop":
            self.emit(f"L{number}:;")
        if condition:
            self.emit(f"if (!{condition}) goto E{number};")

    def jump(self, depth):
        """A branch to a block."""
        if depth == len(self.blocks):
            return f"return {self.stack[-1][0]};" if self.results else "return;"
        block = self.blocks[-1 - depth]
        block["used"] = True
        if block["kind"] != "loop" and block["name"]:
            return f"{{ {block['name']} = {self.stack[-1][0]}; goto {block['label']}; }}"
        return f"goto {block['label']};"

    def give(self, block):
        """Hands the result of a block on, where its end is reached, and takes what it left from the stack."""
        if len(self.stack) > block["height"] and block["name"]:
            self.emit(f"{block['name']} = {self.stack[-1][0]};")
        while len(self.stack) > block["height"]:
            self.pop()

    def turn(self):
        """The else of a block."""
        block = self.blocks[-1]
        self.give(block)
        self.emit(f"goto {block['label']};")
        self.emit(f"E{block['label'][1:]}:;")
        block["used"] = block["else"] = True

    def end(self):
        block = self.blocks[-1]
        self.give(block)
        self.blocks.pop()
        if block["kind"] == "if" and not block["else"]:
            self.emit(f"E{block['label'][1:]}:;")
        if block["kind"] != "loop" and block["used"]:
            self.emit(f"{block['label']}:;")
        if block["name"]:
            self.stack.append((block["name"], block["result"]))

    def leave(self):
        """Takes from the stack what the block left there, which nothing reads."""
        while len(self.stack) > (self.blocks[-1]["height"] if self.blocks else 0):
            self.pop()

    # ---- instructions

    def translate(self):
        if self.function.frame:
            self.emit(f"FRAME(m, {self.function.frame}u);")
        while self.at < len(self.body):
            instruction = self.body[self.at]
            self.at += 1
            if instruction.name == "end" and not self.blocks:
                if self.results and self.stack:
                    self.emit(f"return {self.pop()};")
                break
            self.step(instruction)
        if self.at != len(self.body) or self.blocks or self.stack:
            raise Unknown(f"values that nothing takes, in {self.name()}")

    def step(self, instruction):
        name = instruction.name
        if name in ("block", "loop", "if"):
            self.begin(instruction)
        elif name == "else":
            self.turn()
        elif name == "end":
            self.end()
        elif name in ("br", "br_if", "br_table", "return", "unreachable"):
            self.branch(instruction)
        elif name == "call":
            self.call(instruction.value)
        elif name.startswith(("local.", "global.")):
            self.variable(instruction)
        elif name.endswith(".const"):
            self.constant(instruction)
        elif name in ("select", "select_typed"):
            condition, second = self.pop(), self.pop()
            kind = self.stack[-1][1]
            self.put(kind, f"{condition} ? {self.pop()} : {second}")
        elif name == "drop":
            self.emit(f"(void){self.pop()};")
        elif name in ("memory.copy", "memory.fill"):
            size, second, to = self.pop(), self.pop(), self.pop()
            self.emit(f"{name.replace('.', '_').upper()}(m, {to}, {second}, {size});")
        elif name != "nop":
            self.number(instruction)

    def branch(self, instruction):
        if instruction.name == "br_if":
            condition = self.pop()
            self.emit(f"if ({condition}) {self.jump(instruction.value)}")
            return
        if instruction.name == "br":
            self.emit(self.jump(instruction.value))
        elif instruction.name == "br_table":
            depths, default = instruction.value
            self.emit(f"switch ({self.pop()}) {{")
            for at, depth in enumerate(depths):
                self.emit(f"case {at}: {self.jump(depth)}")
            self.emit(f"default: {self.jump(default)}")
            self.emit("}")
        else:
            if instruction.name == "unreachable":
                self.emit("TRAP(m);")
            none = "0" if instruction.name == "unreachable" else self.stack[-1][0] if self.results else ""
            self.emit(f"return {none};" if self.results else "return;")
        self.leave()

    def call(self, index):
        of = self.module.object
        parameters, results = of.types[of.functions[index]]
        given = [self.pop() for _ in parameters][::-1]
        if index < len(of.imports):
            name = HELPERS[of.imports[index]]
        else:
            name = self.module.name_of(index)
        text = f"{name}({', '.join(['m', *given])})"
        if results:
            self.put(results[0], text)
        else:
            self.emit(text + ";")

    def variable(self, instruction):
        kind, how = instruction.name.split(".")
        local = f"l{instruction.value}" if kind == "local" else "m->stack_pointer"
        of = self.locals[instruction.value] if kind == "local" else I64
        if instruction.name == "global.get":
            self.put(I64, local)
            return
        if how in ("set", "tee"):
            self.keep(local, len(self.stack) - 1)
            value = self.pop()
            if value != local:
                self.emit(f"{local} = {value};")
        if how in ("get", "tee"):
            self.stack.append((local, of))

    def constant(self, instruction):
        if instruction.name == "i32.const":
            self.stack.append((f"{instruction.value & 0xFFFFFFFF}u", I32))
        elif instruction.name == "i64.const" and instruction.relocation:
            self.stack.append((self.place(instruction.relocation), I64))
        else:
            self.stack.append((f"{instruction.value & 0xFFFFFFFFFFFFFFFF}ull", I64))

    def number(self, instruction):
        """An instruction on numbers, or on memory."""
        of, _, what = instruction.name.partition(".")
        kind = I32 if of == "i32" else I64
        call = instruction.name.replace(".", "_").upper()
        bits = BITS[kind]
        if what in LOADS:
            self.put(kind, f"{call}(m, {self.address(instruction)})")
        elif what in STORES:
            value = self.pop()
            self.emit(f"{call}(m, {self.address(instruction)}, {value});")
        elif what == "eqz":
            self.put(I32, f"{self.pop()} == 0")
        elif what == "wrap_i64" or what == "extend_i32_u":
            self.put(kind, f"({TYPES[kind]}){self.pop()}")
        elif what in OF_ONE:
            self.put(kind, f"{call}({self.pop()})")
        else:
            second, first = self.pop(), self.pop()
            if what in INFIX or instruction.name == "i64.mul":
                self.put(kind, f"{first} {INFIX.get(what, '*')} {second}")
            elif what in COMPARE:
                self.put(I32, f"{first} {COMPARE[what]} {second}")
            elif what in COMPARE_SIGNED:
                self.put(I32, f"SIGNED_{bits}({first}) {COMPARE_SIGNED[what]} SIGNED_{bits}({second})")
            elif what in SHIFTS:
                by = re.fullmatch(r"(\d+)u(?:ll)?", second)
                by = f"{int(by[1]) % bits}" if by else f"({second} & {bits - 1})"
                self.put(kind, f"{first} {SHIFTS[what]} {by}")
            else:
                self.put(kind, f"{call}({first}, {second})")

    # ---- the text

    def head(self):
        result = TYPES[self.results[0]] if self.results else "void"
        given = "".join(f", {TYPES[kind]} l{at}" for at, kind in enumerate(self.parameters))
        return f"static {result} {self.module.name_of(self.function.index)}(Machine *m{given})"

    def text(self):
        """The function. What it has and does not read is named, for a compiler's warnings."""
        code = "\n".join(self.lines)
        read = set(re.findall(r"\b[ltwb]\d+\b(?! = )", code))
        lines = []
        for kind in (I32, I64):
            names = [f"l{at} = 0" for at, it in enumerate(self.locals) if it == kind and at >= len(self.parameters)
                     and re.search(rf"\bl{at}\b", code)]
            names += self.declared[kind]
            lines += [f"    {TYPES[kind]} {', '.join(names[i : i + 16])};" for i in range(0, len(names), 16)]
        unread = [f"l{at}" for at, _ in enumerate(self.locals) if f"l{at}" not in read
                  and (at < len(self.parameters) or re.search(rf"\bl{at}\b", code))]
        unread += [it for kind in (I32, I64) for it in self.declared[kind] if it not in read]
        own = "" if re.search(r"\bm\b", code) else "    (void)m;\n"
        head = "".join(line + "\n" for line in lines) + own
        tail = "".join(f"    (void){it};\n" for it in unread if it.startswith("l"))
        told = self.name().replace("*/", "* /")
        return f"/* {told} */\n{self.head()} {{\n{head}{tail}{code}\n}}\n"


def calls_of(text, wanted):
    """The text of the calls without the functions that are not wanted."""
    def kept(found):
        return found[0] if not wanted or found[1] in wanted else ""

    return re.sub(r"^uint32_t (\w+)\([^;{]*\{\n.*?^\}\n\n?", kept, text, flags=re.M | re.S)


def rows(data):
    lines = (", ".join(map(str, data[i : i + 24])) for i in range(0, len(data), 24))
    return "".join(f"    {line},\n" for line in lines)


def told(name, file, digest, stacks):
    """The comment at the head of the file."""
    widest = max(map(len, stacks))
    return (f"/*\n * {name}.h in C99: the functions of the proved library, made of its object for WebAssembly (sha256\n"
            f" * {digest}) by translator/translate. Do not edit.\n *\n"
            f" *     cc -std=c99 -O2 -c {file}\n *\n"
            " * It takes no memory, keeps nothing between calls, and has no data that changes. It calls memmove and memset\n"
            " * alone, and abort where the library does what it never should, unless MACHINE_TRAP() is defined. With\n"
            " * MACHINE_IS_TESTED defined, each access is tested to be within the stack, the constants, or what the caller\n"
            " * handed over. The bytes of the library's stack that a call takes, on the stack of C:\n *\n"
            + "".join(f" *     {it:<{widest}}  {size}\n" for it, size in sorted(stacks.items()))
            + f" *\n * SPDX-License-Identifier: MIT\n */\n#include \"{name}.h\"\n\n")


def text_of(module, name, made):
    """The whole file. `made` has its name, the sha256 of the object, the stack of each function, the machine and the calls."""
    writers = [Writer(it) for it in module.functions.values()]
    stacks = sorted(made.stacks.items())
    return (
        told(name, made.file, made.digest, made.stacks)
        + "".join(f"#ifndef stack_{it}\n#define stack_{it} {size}u\n#endif\n" for it, size in stacks)
        + f"#define CONSTANTS_SIZE {len(module.constants)}u\n#define MACHINE_ALIGN {module.align}\n\n"
        + made.machine.replace("@CONSTANTS@\n", rows(module.constants))
        + "\n/* The functions of the library. */\n\n"
        + "".join(it.head() + ";\n" for it in writers) + "\n"
        + "\n".join(it.text() for it in writers) + "\n"
        + calls_of(made.calls, module.wanted.values() if made.is_part else [])
    )
