"""Reads an object for WebAssembly that is not linked: functions, instructions, symbols, constants, relocations.

Whatever is not read here ends the reading with its name (Unknown).
"""

I32, I64, EMPTY = 0x7F, 0x7E, 0x40
TYPE_NAMES = {0x7F: "i32", 0x7E: "i64", 0x7D: "f32", 0x7C: "f64", 0x7B: "v128", 0x70: "funcref", 0x6F: "externref"}
TYPE, IMPORT, FUNCTION, TABLE, MEMORY, GLOBAL, EXPORT, START, ELEMENT, CODE, DATA, DATA_COUNT, TAG = range(1, 14)
SECTIONS = ("custom type import function table memory global export start element code data data-count tag").split()
KNOWN_SECTIONS = {0, TYPE, IMPORT, FUNCTION, EXPORT, CODE, DATA, DATA_COUNT}

RELOCATIONS = """FUNCTION_INDEX_LEB TABLE_INDEX_SLEB TABLE_INDEX_I32 MEMORY_ADDR_LEB MEMORY_ADDR_SLEB MEMORY_ADDR_I32
    TYPE_INDEX_LEB GLOBAL_INDEX_LEB FUNCTION_OFFSET_I32 SECTION_OFFSET_I32 TAG_INDEX_LEB MEMORY_ADDR_REL_SLEB
    TABLE_INDEX_REL_SLEB GLOBAL_INDEX_I32 MEMORY_ADDR_LEB64 MEMORY_ADDR_SLEB64 MEMORY_ADDR_I64 MEMORY_ADDR_REL_SLEB64
    TABLE_INDEX_SLEB64 TABLE_INDEX_I64 TABLE_NUMBER_LEB MEMORY_ADDR_TLS_SLEB FUNCTION_OFFSET_I64
    MEMORY_ADDR_LOCREL_I32 TABLE_INDEX_REL_SLEB64 MEMORY_ADDR_TLS_SLEB64 FUNCTION_INDEX_I32""".split()
FUNCTION_INDEX, GLOBAL_INDEX = 0, 7
MEMORY_PLACES = {14, 15}  # MEMORY_ADDR_LEB64 and MEMORY_ADDR_SLEB64

# The kinds of symbols, and of their flags.
OF_FUNCTION, OF_DATA, OF_GLOBAL, OF_SECTION, OF_TAG, OF_TABLE = range(6)
UNDEFINED, EXPLICIT_NAME = 0x10, 0x40
SEGMENTS, INITIALIZERS, SYMBOLS = 5, 6, 8


def instruction_names():
    """The name of each opcode of one byte."""
    names = {0: "unreachable", 1: "nop", 2: "block", 3: "loop", 4: "if", 5: "else", 11: "end", 12: "br", 13: "br_if",
             14: "br_table", 15: "return", 16: "call", 17: "call_indirect", 18: "return_call", 19: "return_call_indirect",
             0x1A: "drop", 0x1B: "select", 0x1C: "select_typed", 0x20: "local.get", 0x21: "local.set", 0x22: "local.tee",
             0x23: "global.get", 0x24: "global.set", 0x25: "table.get", 0x26: "table.set", 0x3F: "memory.size",
             0x40: "memory.grow", 0x41: "i32.const", 0x42: "i64.const", 0x43: "f32.const", 0x44: "f64.const",
             0xD0: "ref.null", 0xD1: "ref.is_null", 0xD2: "ref.func"}

    def put(first, text, of=""):
        for at, word in enumerate(text.split(), first):
            names[at] = of + word

    put(0x28, "i32.load i64.load f32.load f64.load i32.load8_s i32.load8_u i32.load16_s i32.load16_u i64.load8_s "
        "i64.load8_u i64.load16_s i64.load16_u i64.load32_s i64.load32_u i32.store i64.store f32.store f64.store "
        "i32.store8 i32.store16 i64.store8 i64.store16 i64.store32")
    compare = "eqz eq ne lt_s lt_u gt_s gt_u le_s le_u ge_s ge_u"
    put(0x45, compare, "i32.")
    put(0x50, compare, "i64.")
    put(0x5B, "eq ne lt gt le ge", "f32.")
    put(0x61, "eq ne lt gt le ge", "f64.")
    numbers = "clz ctz popcnt add sub mul div_s div_u rem_s rem_u and or xor shl shr_s shr_u rotl rotr"
    put(0x67, numbers, "i32.")
    put(0x79, numbers, "i64.")
    floats = "abs neg ceil floor trunc nearest sqrt add sub mul div min max copysign"
    put(0x8B, floats, "f32.")
    put(0x99, floats, "f64.")
    put(0xA7, "i32.wrap_i64 i32.trunc_f32_s i32.trunc_f32_u i32.trunc_f64_s i32.trunc_f64_u i64.extend_i32_s "
        "i64.extend_i32_u i64.trunc_f32_s i64.trunc_f32_u i64.trunc_f64_s i64.trunc_f64_u f32.convert_i32_s "
        "f32.convert_i32_u f32.convert_i64_s f32.convert_i64_u f32.demote_f64 f64.convert_i32_s f64.convert_i32_u "
        "f64.convert_i64_s f64.convert_i64_u f64.promote_f32 i32.reinterpret_f32 i64.reinterpret_f64 "
        "f32.reinterpret_i32 f64.reinterpret_i64 i32.extend8_s i32.extend16_s i64.extend8_s i64.extend16_s i64.extend32_s")
    return names


NAMES = instruction_names()
MORE_NAMES = dict(enumerate("""i32.trunc_sat_f32_s i32.trunc_sat_f32_u i32.trunc_sat_f64_s i32.trunc_sat_f64_u
    i64.trunc_sat_f32_s i64.trunc_sat_f32_u i64.trunc_sat_f64_s i64.trunc_sat_f64_u memory.init data.drop memory.copy
    memory.fill table.init elem.drop table.copy table.grow table.size table.fill""".split()))


class Unknown(Exception):
    """What an object has, and what is not known here."""


class Reader:
    """Reads numbers and vectors as they stand in an object."""

    def __init__(self, data, at=0, end=None):
        self.data, self.at, self.end = data, at, len(data) if end is None else end

    def byte(self):
        if self.at >= self.end:
            raise Unknown("the object ends within a part of it")
        self.at += 1
        return self.data[self.at - 1]

    def unsigned(self):
        value = shift = 0
        while True:
            byte = self.byte()
            value |= (byte & 127) << shift
            shift += 7
            if byte < 128:
                return value

    def signed(self):
        value = shift = 0
        while True:
            byte = self.byte()
            value |= (byte & 127) << shift
            shift += 7
            if byte < 128:
                return value - (1 << shift) if byte & 64 else value

    def take(self, size):
        if size > self.end - self.at:
            raise Unknown("the object ends within a part of it")
        self.at += size
        return self.data[self.at - size : self.at]

    def text(self):
        return self.take(self.unsigned()).decode()

    def vector(self, item):
        return [item() for _ in range(self.unsigned())]


def object_of(data):
    """The one object of an archive."""
    if data[:8] != b"!<arch>\n":
        return data
    at, found = 8, []
    while at + 60 <= len(data):
        name, size = data[at : at + 16].decode().strip(), int(data[at + 48 : at + 58])
        if name not in ("/", "//", "/SYM64/"):
            found.append(data[at + 60 : at + 60 + size])
        at += 60 + size + size % 2
    if len(found) != 1:
        raise Unknown(f"the archive has {len(found)} objects, not one")
    return found[0]


class Instruction:
    """An instruction: its name, its number (or numbers), and the relocation of that number, if it has one."""

    __slots__ = ("name", "value", "relocation")

    def __init__(self, name, value, relocation):
        self.name, self.value, self.relocation = name, value, relocation

    def __repr__(self):
        return self.name if self.value is None else f"{self.name} {self.value}"


class Object:
    """An object for wasm64 that is not linked."""

    def __init__(self, data):
        if data[:8] != b"\0asm\1\0\0\0":
            raise Unknown("this is no object for WebAssembly")
        self.sections, self.custom, self.order = {}, {}, []
        reader = Reader(data, 8)
        while reader.at < len(data):
            self.section(reader)
        self.read_types()
        self.read_imports()
        self.functions += self.part(FUNCTION, "unsigned")
        self.exports = {}
        at = self.reader(EXPORT)
        for _ in range(at.unsigned()):
            name, kind, index = at.text(), at.byte(), at.unsigned()
            if kind != 0:
                raise Unknown(f"the export {name}, which is no function")
            self.exports[index] = name
        self.read_segments()
        self.segments, self.symbols, self.names = [], [], {}
        self.read_linking()
        self.relocations = self.read_relocations()
        self.read_bodies()

    def section(self, reader):
        kind = reader.byte()
        held = reader.take(reader.unsigned())
        self.order.append(kind)
        if kind == 0:
            at = Reader(held)
            name = at.text()
            self.custom[name] = held[at.at :]
        elif kind in KNOWN_SECTIONS:
            self.sections[kind] = held
        else:
            raise Unknown(f"a section {SECTIONS[kind] if kind < len(SECTIONS) else kind}")

    def reader(self, kind):
        return Reader(self.sections.get(kind, b"\0"))

    def part(self, kind, item):
        at = self.reader(kind)
        return at.vector(getattr(at, item))

    def read_types(self):
        at = self.reader(TYPE)
        self.types = []
        for _ in range(at.unsigned()):
            if at.byte() != 0x60:
                raise Unknown("a type that is no function's")
            parameters, results = at.vector(at.byte), at.vector(at.byte)
            for it in {*parameters, *results} - {I32, I64}:
                raise Unknown(f"the type {TYPE_NAMES.get(it, hex(it))}")
            if len(results) > 1:
                raise Unknown("a function of several results")
            self.types.append((parameters, results))

    def read_imports(self):
        """The imported functions, and that the memory has addresses of 64 bits and the one global is the stack pointer."""
        at = self.reader(IMPORT)
        self.imports, self.functions, self.globals = [], [], []
        for _ in range(at.unsigned()):
            at.text()
            name, kind = at.text(), at.byte()
            if kind == 0:
                self.imports.append(name)
                self.functions.append(at.unsigned())
            elif kind == 1 and name == "__indirect_function_table":
                at.byte()
                if at.byte() & 1:
                    at.unsigned()
                at.unsigned()
            elif kind == 2:
                flags = at.byte()
                at.unsigned()
                if flags & ~1 != 4:
                    raise Unknown(f"the import {name}, a memory whose addresses have not 64 bits")
                if flags & 1:
                    at.unsigned()
            elif kind == 3 and name == "__stack_pointer" and at.byte() == I64 and at.byte() == 1:
                self.globals.append(name)
            else:
                raise Unknown(f"the import {name}")

    def read_segments(self):
        """The bytes of each segment of data, and its place in the object."""
        at = self.reader(DATA)
        self.held = []
        for _ in range(at.unsigned()):
            if at.unsigned() != 0 or at.byte() != 0x42:
                raise Unknown("a segment of data without a place of 64 bits")
            place = at.signed()
            if at.byte() != 0x0B:
                raise Unknown("a segment of data whose place is worked out")
            self.held.append((place, at.take(at.unsigned())))

    def read_linking(self):
        if "linking" not in self.custom:
            raise Unknown("an object that is linked")
        at = Reader(self.custom["linking"])
        if at.unsigned() != 2:
            raise Unknown("another version of the section linking")
        while at.at < at.end:
            kind, size = at.byte(), at.unsigned()
            part = Reader(at.data, at.at, at.at + size)
            at.at += size
            if kind == SEGMENTS:
                self.segments = part.vector(lambda: self.segment(part))
            elif kind == SYMBOLS:
                self.symbols = part.vector(lambda: self.symbol(part))
            elif kind == INITIALIZERS and part.unsigned() > 0:
                raise Unknown("a function that runs at the start")
            elif kind != INITIALIZERS:
                raise Unknown(f"the part {kind} of the section linking")
        if len(self.segments) != len(self.held):
            raise Unknown("a segment of data without a name")

    @staticmethod
    def segment(at):
        """A segment's alignment. Only constants have one: nothing that is written to."""
        name, alignment, flags = at.text(), at.unsigned(), at.unsigned()
        if not name.startswith(".rodata") or flags & ~1:
            raise Unknown(f"the segment {name}, which is not of constants")
        return 1 << alignment

    def symbol(self, at):
        """The kind of a symbol, its index or segment, the place in that, and its name."""
        kind, flags = at.byte(), at.unsigned()
        if kind == OF_DATA:
            name = at.text()
            if flags & UNDEFINED:
                raise Unknown(f"the symbol {name}, which is not in the object")
            index, place, _ = at.unsigned(), at.unsigned(), at.unsigned()
            return kind, index, place, name
        index = at.unsigned()
        if kind == OF_SECTION:
            return kind, index, 0, ""
        if kind not in (OF_FUNCTION, OF_GLOBAL, OF_TAG, OF_TABLE):
            raise Unknown(f"a symbol of the kind {kind}")
        name = at.text() if not flags & UNDEFINED or flags & EXPLICIT_NAME else ""
        if kind == OF_FUNCTION:
            self.names[index] = name
        return kind, index, 0, name

    def read_relocations(self):
        """What is to be put at each place of the code."""
        if "reloc.DATA" in self.custom:
            raise Unknown("addresses in its data")
        at = Reader(self.custom.get("reloc.CODE", bytes([self.order.index(CODE), 0])))
        if self.order[at.unsigned()] != CODE:
            raise Unknown("relocations of the code that are another section's")
        found = {}
        for _ in range(at.unsigned()):
            kind, place, symbol = at.byte(), at.unsigned(), at.unsigned()
            if kind not in (FUNCTION_INDEX, GLOBAL_INDEX, *MEMORY_PLACES):
                name = f"R_WASM_{RELOCATIONS[kind]}" if kind < len(RELOCATIONS) else f"of the kind {kind}"
                raise Unknown(f"the relocation {name}")
            found[place] = kind, symbol, at.signed() if kind in MEMORY_PLACES else 0
        return found

    def read_bodies(self):
        """The locals and the instructions of each function. Each relocation is that of an instruction."""
        at = self.reader(CODE)
        self.bodies, self.left = [], set(self.relocations)
        for _ in range(at.unsigned()):
            size = at.unsigned()
            body = Reader(at.data, at.at, at.at + size)
            at.at += size
            kinds = []
            for _ in range(body.unsigned()):
                count, kind = body.unsigned(), body.byte()
                if kind not in (I32, I64):
                    raise Unknown(f"a local of the type {TYPE_NAMES.get(kind, hex(kind))}")
                kinds += [kind] * count
            found = []
            while body.at < body.end:
                found.append(self.instruction(body))
            self.bodies.append((kinds, found))
        if self.left:
            raise Unknown(f"a relocation at {min(self.left)} of the code, where no number of a known instruction stands")

    def instruction(self, at):
        op = at.byte()
        more = at.unsigned() if op in (0xFC, 0xFD, 0xFE) else None
        name = NAMES.get(op) if more is None else MORE_NAMES.get(more) if op == 0xFC else None
        value = relocation = None
        if name is None:
            raise Unknown(f"the instruction {op:02x}" + ("" if more is None else f" {more}"))
        if name in ("block", "loop", "if"):
            value = at.byte()
        elif name in ("br", "br_if", "local.get", "local.set", "local.tee"):
            value = at.unsigned()
        elif name == "br_table":
            value = at.vector(at.unsigned), at.unsigned()
        elif name in ("call", "global.get", "global.set"):
            relocation = self.at_place(at)
            value = at.unsigned()
            self.test_index(name, value, relocation)
        elif name == "i32.const":
            value = at.signed()
        elif name == "i64.const":
            relocation = self.at_place(at)
            value = at.signed()
            self.test_place(value, relocation)
        elif 0x28 <= op <= 0x3E:
            at.unsigned()
            relocation = self.at_place(at)
            value = at.unsigned()
            self.test_place(value, relocation)
        elif name == "select_typed":
            at.vector(at.byte)
        elif name in ("memory.copy", "memory.fill"):
            if at.take(2 if name == "memory.copy" else 1).strip(b"\0"):
                raise Unknown(f"{name} of another memory")
        elif name in ("nop", "unreachable", "else", "end", "return", "drop", "select") or 0x45 <= op <= 0xC4:
            pass
        else:
            raise Unknown(f"the instruction {name}")
        return Instruction(name, value, relocation)

    def at_place(self, at):
        self.left.discard(at.at)
        return self.relocations.get(at.at)

    def test_index(self, name, value, relocation):
        """An index is that of the function or the global whose symbol the relocation names."""
        if relocation is None:
            raise Unknown(f"{name} {value} without a relocation")
        kind, symbol, _ = relocation
        wanted = (FUNCTION_INDEX, OF_FUNCTION) if name == "call" else (GLOBAL_INDEX, OF_GLOBAL)
        if (kind, self.symbols[symbol][0]) != wanted or self.symbols[symbol][1] != value:
            raise Unknown(f"{name} {value} with another relocation")

    def test_place(self, value, relocation):
        """What stands in the code is the place in the object that the relocation names."""
        if relocation is None:
            return
        kind, symbol, more = relocation
        what, index, place, name = self.symbols[symbol]
        if kind not in MEMORY_PLACES or what != OF_DATA:
            raise Unknown(f"a number with the relocation R_WASM_{RELOCATIONS[kind]}")
        if value != self.held[index][0] + place + more:
            raise Unknown(f"an address of {name} that is not where the object has it")
