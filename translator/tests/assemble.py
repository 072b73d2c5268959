"""Writes an object for wasm64 by hand, with a function for each instruction and for ways of control: operations().

A function takes two numbers of 64 bits, a and b, and answers one. Its instructions stand in a text: a name, and behind a
colon what it wants, as `br:1` or `i64.load:8`; `place:NAME+4` is an address of a constant, and `i64.load@NAME+4` is a load
from there. Locals 0 and 1 are a and b, 2 to 5 have 64 bits more, and 6 to 9 have 32.
"""
import sys
from pathlib import Path

sys.path.insert(0, str(Path(__file__).resolve().parent.parent))
import wasm  # noqa: E402

OPCODES = {name: bytes([op]) for op, name in wasm.NAMES.items()}
OPCODES.update({name: b"\xfc" + bytes([op]) for op, name in wasm.MORE_NAMES.items()})
IMPORTS = {"__rattle_enter": 1, "__rattle_leave": 2, "__rattle_trap": 2, "__multi3": 3, "__lshrti3": 4}
I64, I32, NONE = b"\x7e", b"\x7f", b"\x40"
TYPES = [(I64 * 2, I64), (b"", I32), (b"", b""), (I64 * 5, b""), (I64 * 3 + I32, b"")]
CONSTANTS = {"TABLE": b"".join((0x0123456789ABCDEF * n % (1 << 64)).to_bytes(8, "little") for n in range(1, 9)),
             "ODD": bytes(range(200, 231)), "WORDS": bytes(range(64, 96))}


def leb(value, size=0):
    """A number without a sign, in at least this many bytes."""
    out = []
    while True:
        byte, value = value & 127, value >> 7
        more = value or len(out) + 1 < size
        out.append(byte | (128 if more else 0))
        if not more:
            return bytes(out)


def sleb(value, size=0):
    """A number with a sign."""
    out = []
    while True:
        byte, value = value & 127, value >> 7
        done = value in (0, -1) and bool(byte & 64) == (value == -1) and len(out) + 1 >= size
        out.append(byte | (0 if done else 128))
        if done:
            return bytes(out)


def vector(items):
    return leb(len(items)) + b"".join(items)


def text(word):
    return leb(len(word)) + word.encode()


def section(kind, held):
    return bytes([kind]) + leb(len(held)) + held


class Assembler:
    """Functions, and what stands for them in an object."""

    def __init__(self, functions, imports=None, extra=b""):
        self.functions = functions
        self.imports = imports or IMPORTS
        self.extra = extra
        self.index = {name: at for at, name in enumerate([*self.imports, *functions])}
        self.places, at = {}, 16
        for name, held in CONSTANTS.items():
            at = -(-at // 8) * 8
            self.places[name] = at
            at += len(held)
        self.symbols = [*self.index, "__stack_pointer", *CONSTANTS]
        self.relocations, self.kind = [], None

    def symbol(self, name):
        return self.symbols.index(name)

    def relocated(self, out, kind, name, value, more=0):
        """A number with a relocation, in as many bytes as a link wants."""
        self.relocations.append((kind, len(out), self.symbol(name), more))
        out += sleb(value, 10) if kind == 15 else leb(value, 10 if kind == 14 else 5)

    def place(self, word):
        name, _, more = word.partition("+")
        return name, int(more or 0)

    def instruction(self, out, word):
        name, _, at = word.partition("@")
        name, _, of = name.partition(":")
        if name == "place":
            out += OPCODES["i64.const"]
            constant, more = self.place(of)
            self.relocated(out, 15, constant, self.places[constant] + more, more)
            return
        out += OPCODES[name]
        if name in ("block", "loop", "if"):
            out += {"i64": I64, "i32": I32, "": NONE}[of]
        elif name in ("call", "return_call"):
            self.relocated(out, 0, of, self.index[of])
        elif name.startswith("global."):
            self.relocated(out, 7, "__stack_pointer", 0)
        elif name.endswith(".const"):
            out += {"f32": bytes(4), "f64": bytes(8)}.get(name[:3]) or sleb(int(of))
        elif name == "br_table":
            depths = [int(it) for it in of.split(",")]
            out += vector([leb(it) for it in depths[:-1]]) + leb(depths[-1])
        elif ".load" in name or ".store" in name:
            out += leb(0)
            if at:
                constant, more = self.place(at)
                self.relocated(out, 14, constant, self.places[constant] + more, more)
            else:
                out += leb(int(of or 0))
        elif name == "memory.copy":
            out += bytes(2)
        elif name in ("memory.fill", "memory.size", "memory.grow"):
            out += bytes(1)
        elif name == "call_indirect":
            out += bytes(2)
        elif of:
            out += leb(int(of))

    def code(self):
        out = bytearray(leb(len(self.functions)))
        for words in self.functions.values():
            body = bytearray(leb(2) + leb(4) + I64 + leb(4) + I32)
            first = len(self.relocations)
            for word in words.split():
                self.instruction(body, word)
            body += OPCODES["end"]
            out += leb(len(body), 5)
            self.relocations[first:] = [(k, p + len(out), s, m) for k, p, s, m in self.relocations[first:]]
            out += body
        return bytes(out)

    def linking(self):
        segments = vector([text(f".rodata.{name}") + leb(3) + leb(0) for name in CONSTANTS])
        symbols = []
        for name in self.symbols:
            if name in self.imports or name == "__stack_pointer":
                symbols.append(bytes([2 if name == "__stack_pointer" else 0]) + leb(0x10)
                               + leb(self.index.get(name, 0)))
            elif name in self.functions:
                symbols.append(b"\0" + leb(2) + leb(self.index[name]) + text(name))
            else:
                at = list(CONSTANTS).index(name)
                symbols.append(b"\1" + leb(2) + text(name) + leb(at) + leb(0) + leb(len(CONSTANTS[name])))
        return leb(2) + b"\5" + leb(len(segments)) + segments + b"\x08" + leb(len(vector(symbols))) + vector(symbols)

    def relocs(self):
        rows = [bytes([self.kind or kind]) + leb(place) + leb(symbol) + (sleb(more) if kind in (3, 4, 5, 14, 15) else b"")
                for kind, place, symbol, more in self.relocations]
        return text("reloc.CODE") + leb(4 + bool(self.extra)) + vector(rows)

    def object(self):
        code = self.code()
        imports = [text("env") + text("__linear_memory") + b"\2\4" + leb(1),
                   text("env") + text("__stack_pointer") + b"\3" + I64 + b"\1"]
        imports += [text("env") + text(name) + b"\0" + leb(kind) for name, kind in self.imports.items()]
        data = [leb(0) + OPCODES["i64.const"] + sleb(self.places[name]) + OPCODES["end"] + leb(len(held)) + held
                for name, held in CONSTANTS.items()]
        return b"".join([
            b"\0asm\1\0\0\0",
            section(1, vector([b"\x60" + vector([bytes([it]) for it in given]) + vector([bytes([it]) for it in result])
                               for given, result in TYPES])),
            section(2, vector(imports)),
            section(3, vector([leb(0) for _ in self.functions])),
            section(7, vector([text(name) + b"\0" + leb(self.index[name]) for name in self.functions])),
            self.extra,
            section(10, code),
            section(11, vector(data)),
            section(0, text("linking") + self.linking()),
            section(0, self.relocs()),
        ])


BOTH = "local.get:0 local.get:1"
BOTH_32 = "local.get:0 i32.wrap_i64 local.get:1 i32.wrap_i64"


def frame(size, words):
    """Instructions over this many bytes of the stack, which local 2 points to, and what they leave as the answer."""
    return (f"global.get:0 i64.const:{size} i64.sub local.tee:2 global.set:0 {words} "
            f"local.get:2 i64.const:{size} i64.add global.set:0")


# What ends in a trap where the stack pointer, which was put there before, is below 16.
LIMIT = "i64.const:16 i64.lt_s br_if:0"


def of_limits():
    """Functions that test for the end of the stack, in each way that a compiler writes it."""
    moved = "global.get:0 i64.const:32 i64.sub local.tee:2 global.set:0 block block"
    used = "local.get:{0} local.get:0 i64.store:8 local.get:1 local.get:0 call:memory_fill local.get:{0} i64.load:8 i64.add"
    back = "local.get:{0} i64.const:32 i64.add global.set:0 local.get:5 return end unreachable end i64.const:0"
    return {
        "limit": f"{moved} local.get:2 local.tee:2 {LIMIT} {used.format(2)} local.set:5 {back.format(2)}",
        "limit_copied": f"{moved} local.get:2 local.tee:4 {LIMIT} local.get:0 local.set:2 {used.format(4)} local.get:2 i64.xor "
                        f"local.set:5 {back.format(4)}",
        "limit_below": f"block block global.get:0 i64.const:32 i64.sub local.tee:2 {LIMIT} local.get:2 local.get:0 i64.store:8 "
                       "local.get:2 i64.load:8 local.get:1 i64.add return end unreachable end i64.const:0",
        "limit_unmoved": f"block block global.get:0 local.tee:2 {LIMIT} local.get:0 local.get:1 call:i64_sub local.set:5 "
                         "local.get:2 global.set:0 local.get:5 return end unreachable end i64.const:0",
        "limit_alone": f"block block global.get:0 {LIMIT} local.get:0 local.get:1 i64.xor return end unreachable end i64.const:0",
    }


def of_numbers():
    found = {}
    for op in range(0x45, 0xC5):
        name = wasm.NAMES[op]
        kind, _, what = name.partition(".")
        if kind not in ("i32", "i64") or "f32" in what or "f64" in what or what in ("div_s", "rem_s"):
            continue
        alone = what in ("eqz", "clz", "ctz", "popcnt") or what.startswith(("extend", "wrap"))
        narrow = kind == "i32" and what != "wrap_i64" or what.startswith("extend_i32")
        given = (BOTH_32 if narrow else BOTH) if not alone else "local.get:0" + (" i32.wrap_i64" if narrow else "")
        is_test = what == "eqz" or what[:2] in ("eq", "ne", "lt", "gt", "le", "ge")
        wide = " i64.extend_i32_u" if kind == "i32" or is_test else ""
        found[name.replace(".", "_")] = f"{given} {name}{wide}"
    return found


def of_memory():
    found = {}
    held = "local.get:2 local.get:0 i64.store:16 local.get:2 local.get:1 i64.store:24 local.get:2 i64.const:-7 i64.store:32"
    where = "local.get:2 local.get:1 i64.const:7 i64.and i64.add"
    after = ("local.get:2 i64.load:16 i64.const:3 i64.mul local.get:2 i64.load:24 i64.const:5 i64.mul i64.xor "
             "local.get:2 i64.load:32 i64.xor")
    for op in range(0x28, 0x3F):
        name = wasm.NAMES[op]
        if name[0] == "f":
            continue
        short = name.replace(".", "_")
        if "load" in name:
            wide = " i64.extend_i32_u" if name[:3] == "i32" else ""
            found[short] = frame(48, f"{held} {where} {name}:16{wide}")
            found[short + "_constant"] = (f"local.get:1 i64.const:15 i64.and {name}@ODD+2{wide} place:WORDS+16 local.get:0 "
                                          f"i64.const:15 i64.and i64.sub {name}:8{wide} i64.const:3 i64.mul i64.xor")
        else:
            wrap = " i32.wrap_i64" if name[:3] == "i32" else ""
            found[short] = frame(48, f"{held} {where} local.get:0 local.get:1 i64.xor{wrap} {name}:16 {after}")
    found["constant_below"] = ("place:TABLE+-8 local.get:0 i64.const:3 i64.and i64.const:8 i64.mul i64.add i64.load:8 "
                               "place:ODD+0 local.get:1 i64.const:15 i64.and i64.add i64.load8_u:0 i64.add")
    total = ("i64.const:0 local.set:3 i64.const:0 local.set:4 loop local.get:4 i64.const:31 i64.mul local.get:2 local.get:3 "
             "i64.add i64.load8_u:0 i64.add local.set:4 local.get:3 i64.const:1 i64.add local.tee:3 i64.const:96 i64.lt_u "
             "br_if:0 end local.get:4")
    spread = ("i64.const:0 local.set:3 loop local.get:2 local.get:3 i64.add local.get:0 local.get:3 i64.shr_u "
              "local.get:3 i64.xor i64.store8:0 local.get:3 i64.const:1 i64.add local.tee:3 i64.const:96 i64.lt_u br_if:0 end")
    fill = ("local.get:2 local.get:1 i64.const:15 i64.and i64.add local.get:0 i64.const:5 i64.shr_u i32.wrap_i64 local.get:1 "
            "i64.const:8 i64.shr_u i64.const:31 i64.and memory.fill")
    copy = ("local.get:2 local.get:{0} i64.const:15 i64.and i64.add local.get:2 local.get:{1} i64.const:4 i64.shr_u "
            "i64.const:15 i64.and i64.add local.get:0 i64.const:31 i64.and memory.copy")
    found["memory_copy_constants"] = frame(96, f"{spread} local.get:2 local.get:0 i64.const:15 i64.and i64.add place:WORDS+4 local.get:1 "
                                               f"i64.const:15 i64.and i64.add i64.const:9 memory.copy {total}")
    found["memory_fill"] = frame(96, f"{spread} {fill} {total}")
    found["memory_copy"] = frame(96, f"{spread} {copy.format(0, 1)} {total}")
    found["memory_copy_back"] = frame(96, f"{spread} {copy.format(1, 0)} {total}")
    return found


def of_control():
    """Blocks, branches, locals, calls and what a link adds."""
    low = "local.get:0 i32.wrap_i64 i32.const:1 i32.and"
    table = "local.get:0 i32.wrap_i64 i32.const:7 i32.and br_table:0,1,2,1,3,2"
    return {
        "branch": f"block {low} br_if:0 local.get:1 return end local.get:0 i64.const:3 i64.mul",
        "branch_value": f"block:i64 local.get:1 {low} br_if:0 drop local.get:0 i64.const:5 i64.add end",
        "branch_out": f"block:i64 block:i64 local.get:0 local.get:1 i32.wrap_i64 i32.const:2 i32.and br_if:1 {low} br_if:0 "
                      "i64.const:7 i64.add br:1 end i64.const:9 i64.xor end i64.const:1 i64.add",
        "if_else": f"{low} if:i64 local.get:0 i64.const:3 i64.mul else local.get:1 i64.const:1 i64.sub end",
        "if_alone": f"local.get:0 local.set:3 {low} if local.get:1 local.set:3 end local.get:3",
        "if_nested": f"{low} if:i64 local.get:1 i32.wrap_i64 i32.const:1 i32.and if:i64 local.get:0 else local.get:1 br:1 "
                     "end i64.const:11 i64.add else i64.const:13 local.get:1 i32.wrap_i64 br_if:0 i64.const:2 i64.mul end",
        "if_return": f"local.get:1 {low} if:i64 local.get:0 return else local.get:1 i64.const:4 i64.add end i64.add",
        "table": f"block block block block {table} end local.get:1 i64.const:11 i64.add return end local.get:1 local.get:0 "
                 "i64.xor local.set:1 end local.get:1 i64.const:7 i64.mul return end local.get:1 i64.const:-1 i64.xor",
        "table_value": "block:i64 block:i64 local.get:0 local.get:1 i32.wrap_i64 i32.const:3 i32.and br_table:0,1,0,1 end "
                       "i64.const:3 i64.add end",
        "loop": "i64.const:0 local.set:3 loop local.get:1 i64.const:1 i64.shl local.get:1 i64.const:63 i64.shr_u i64.or "
                "local.get:3 i64.xor local.set:1 local.get:3 i64.const:1 i64.add local.tee:3 local.get:0 i64.const:31 "
                "i64.and i64.le_u br_if:0 end local.get:1",
        "loop_out": "block loop local.get:1 i64.const:5 i64.mul i64.const:1 i64.add local.tee:1 i64.const:15 i64.and "
                    "i64.const:3 i64.eq br_if:1 local.get:3 i64.const:1 i64.add local.tee:3 i64.const:40 i64.eq br_if:1 "
                    "local.get:1 i64.const:64 i64.and i64.eqz br_if:0 local.get:1 local.get:0 i64.add local.set:1 br:0 end "
                    "end local.get:1 local.get:3 i64.add",
        "loop_value": "loop:i64 local.get:0 i64.const:1 i64.shr_u local.tee:0 i64.const:99 i64.gt_u br_if:0 local.get:0 end",
        "swap": "local.get:0 local.get:1 local.set:0 local.set:1 local.get:0 i64.const:3 i64.mul local.get:1 i64.add",
        "kept": "local.get:0 local.get:0 i64.const:1 i64.add local.tee:0 local.get:0 local.get:1 local.set:0 i64.mul "
                "i64.xor local.get:0 i64.add",
        "kept_long": f"local.get:0 {low} if local.get:1 local.set:0 end local.get:0 i64.const:3 i64.mul i64.sub",
        "kept_below": f"local.get:0 i32.wrap_i64 local.set:6 local.get:6 {low} if local.get:1 i32.wrap_i64 local.set:6 end "
                      "local.get:6 i32.const:3 i32.mul i32.sub i64.extend_i32_u",
        "select": f"local.get:0 i64.const:3 i64.add local.get:1 {low} select",
        "select_32": "local.get:0 i32.wrap_i64 i32.const:-5 local.get:1 i32.wrap_i64 select i64.extend_i32_u",
        "dropped": "local.get:0 i64.const:1 i64.add drop nop local.get:1",
        "numbers": "local.get:0 i64.const:-9223372036854775808 i64.xor local.get:1 i64.const:4294967296 i64.add i64.add "
                   "i32.const:-2147483648 i64.extend_i32_u i64.add i32.const:-1 i64.extend_i32_s i64.xor",
        "numbers_alone": "i64.const:3 i64.const:127 i64.shl i64.const:-5 i64.const:7 i64.mul i64.add local.get:0 i64.xor i32.const:-1 "
                         "i32.const:2147483647 i32.sub i64.extend_i32_s i64.add i64.const:65535 i64.extend16_s local.get:1 i64.and i64.xor",
        "numbers_compared": "local.get:0 i64.const:-5 i64.lt_s local.get:1 i32.wrap_i64 i32.const:-7 i32.gt_s i32.const:2 i32.mul i32.add "
                            "i64.extend_i32_u",
        "unreachable": f"{low} if unreachable end local.get:1",
        "behind": "block:i64 local.get:1 br:0 i64.const:3 i64.mul block br:0 end i32.wrap_i64 if unreachable else nop end i64.const:2 end",
        "call": "local.get:1 i64.const:3 i64.mul local.get:0 call:i64_sub local.get:0 call:loop",
        "call_frame": frame(32, "local.get:2 local.get:0 i64.store:8 local.get:2 local.get:1 i64.store:16 local.get:1 "
                                "local.get:0 call:memory_fill local.get:2 i64.load:8 i64.xor local.get:2 i64.load:16 i64.add"),
        "below": "global.get:0 i64.const:32 i64.sub local.set:2 local.get:2 local.get:0 i64.store:8 local.get:2 local.get:1 "
                 "i64.store:16 local.get:2 local.get:1 i64.const:7 i64.and i64.add i64.load:8",
        "product": frame(16, "local.get:2 local.get:0 local.get:1 local.get:1 local.get:0 i64.const:3 i64.add call:__multi3 "
                             "local.get:2 i64.load:0 i64.const:3 i64.mul local.get:2 i64.load:8 i64.xor"),
        "product_high": frame(16, "local.get:2 local.get:0 i64.const:0 local.get:1 i64.const:0 call:__multi3 "
                                  "local.get:2 i64.load:8"),
        "shift": frame(16, "local.get:2 local.get:0 local.get:1 local.get:0 i64.const:3 i64.mul local.get:1 i64.xor i64.const:127 "
                           "i64.and i32.wrap_i64 call:__lshrti3 local.get:2 i64.load:0 i64.const:3 i64.mul local.get:2 "
                           "i64.load:8 i64.xor"),
        "shift_by": frame(16, "local.get:2 i64.const:81985529216486895 local.get:0 local.get:1 i64.const:127 i64.and i32.wrap_i64 "
                              "call:__lshrti3 local.get:2 i64.load:0 local.get:2 i64.load:8 i64.const:5 i64.mul i64.xor"),
        "enter": "call:__rattle_enter i64.extend_i32_u local.get:0 i64.add call:__rattle_leave",
        "trap": f"{low} if call:__rattle_trap end local.get:1",
    }


def accesses():
    """Accesses that are tested with MACHINE_IS_TESTED: each has to end in a trap."""
    top = "global.get:0 i64.const:32 i64.sub local.set:2 local.get:2"
    return {
        "read_nothing": "i64.const:0 i64.load8_u:0",
        "read_beyond_stack": f"{top} i64.load:25",
        "read_below_stack": f"{top} i64.const:-4088 i64.add i64.load:17",
        "read_beyond_constants": "place:WORDS+25 i64.load:0",
        "read_no_part": "i64.const:4294967296000 i64.load8_u:0",
        "write_constants": "place:WORDS+0 local.get:0 i64.store8:0 local.get:1",
        "write_beyond_stack": f"{top} local.get:0 i64.store:25 local.get:1",
        "copy_beyond_stack": f"{top} place:WORDS+0 i64.const:33 memory.copy local.get:1",
        "copy_beyond_constants": f"{top} place:WORDS+8 i64.const:25 memory.copy local.get:1",
        "fill_constants": "place:TABLE+0 i32.const:0 i64.const:1 memory.fill local.get:1",
        "frame_too_large": frame(4112, "local.get:0"),
    }


def operations():
    return {**of_numbers(), **of_memory(), **of_control(), **of_limits()}
