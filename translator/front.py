"""What a static library for wasm64 holds, as printers write it: functions without dead instructions, stacks and constants.

A printer, a module of the folder printers, writes functions in a language. What is found here is the same for each: which
functions are called, the frame of each, the place of each constant. It ends with the name of any instruction, import or
way of moving the stack pointer that is not known (wasm.Unknown).
"""
import wasm
from wasm import I32, I64, Instruction, Unknown

BITS = {I32: 32, I64: 64}
# The functions that a link would add.
HELPERS = {"__rattle_enter", "__rattle_leave", "__rattle_trap", "__multi3", "__lshrti3"}

INFIX = {"add": "+", "sub": "-", "and": "&", "or": "|", "xor": "^"}
COMPARE = {"eq": "==", "ne": "!=", "lt_u": "<", "gt_u": ">", "le_u": "<=", "ge_u": ">="}
COMPARE_SIGNED = {"lt_s": "<", "gt_s": ">", "le_s": "<=", "ge_s": ">="}
SHIFTS = {"shl": "<<", "shr_u": ">>"}
OF_TWO = {"div_u", "rem_u", "rotl", "rotr", "shr_s"}
OF_ONE = {"clz", "ctz", "popcnt", "extend8_s", "extend16_s", "extend32_s", "extend_i32_s"}
LOADS = {"load", "load8_s", "load8_u", "load16_s", "load16_u", "load32_s", "load32_u"}
STORES = {"store", "store8", "store16", "store32"}
FOR_BOTH = {*INFIX, *COMPARE, *COMPARE_SIGNED, *SHIFTS, *OF_TWO, *OF_ONE, *LOADS, *STORES, "mul", "eqz", "const"}
KNOWN = {*(f"{kind}.{it}" for kind in ("i32", "i64") for it in FOR_BOTH), "i32.wrap_i64", "i64.extend_i32_u", "block", "loop",
         "if", "else", "end", "br", "br_if", "br_table", "return", "unreachable", "call", "local.get", "local.set", "local.tee",
         "global.get", "global.set", "select", "select_typed", "drop", "nop", "memory.copy", "memory.fill"}
# A block that traps where the stack pointer is below 16, the end of a module's stack, and does nothing else.
LIMIT_ALONE = [("block", 64), ("global.get", 0), ("i64.const", 15), ("i64.gt_s", None), ("br_if", 0), ("unreachable", None),
               ("end", None)]


# Behind these, up to the end or the else of the block, nothing is reached.
LEAVING = {"br", "br_table", "return", "unreachable"}


def living(body):
    """The instructions but those that nothing reaches."""
    left, at = [], 0
    while at < len(body):
        left.append(body[at])
        at += 1
        if left[-1].name in LEAVING:
            at = end_of_dead(body, at)
    return left


def end_of_dead(body, at):
    """Where the block ends whose other instructions nothing reaches, or its else stands."""
    depth = 0
    while depth or body[at].name not in ("end", "else"):
        depth += (body[at].name in ("block", "loop", "if")) - (body[at].name == "end")
        at += 1
    return at


def start_of(body):
    """Where a function does more than to begin blocks and to set locals to numbers."""
    at = 0
    while at < len(body):
        if body[at].name == "block":
            at += 1
        elif body[at].name.endswith(".const") and [it.name for it in body[at + 1 : at + 2]] == ["local.set"]:
            at += 2
        else:
            return at
    return 0


def base_of(body):
    """The local that holds the stack pointer from the start on, where what is taken of the stack is subtracted first."""
    start = start_of(body)
    first = [it.name for it in body[start : start + 4]]
    moved = first[:3] == ["global.get", "i64.const", "i64.sub"] and first[3:] in (["local.tee"], ["local.set"])
    return body[start + 3].value if moved else None


def is_first(local, before):
    """Whether a local still has its first value, wherever control came from."""
    sets = [it for it in before[:-1] if it.name in ("local.set", "local.tee") and it.value == local]
    return len(sets) == 1 and all(it.name != "loop" for it in before)


class Function:
    """A function of the library, without what is dead, and without the tests for the end of a module's stack."""

    def __init__(self, module, index):
        self.module, self.index = module, index
        self.parameters, self.results = module.object.types[module.object.functions[index]]
        kinds, self.body = module.object.bodies[index - len(module.object.imports)]
        self.locals = [*self.parameters, *kinds]
        for it in self.body:
            if it.name not in KNOWN:
                raise Unknown(f"the instruction {it.name}, in {self.name()}")
        # The local that was tested for the end of the stack, and the one that has it from then on.
        self.tested, self.held = None, None
        # The local that has the stack pointer of a function which takes nothing of the stack.
        self.unmoved = None
        self.body = self.without_limits()
        self.frame = self.frame_of()
        self.body = living(self.body)
        self.calls = {it.value for it in self.body if it.name == "call" and it.value >= len(module.object.imports)}

    def without_limits(self):
        """The instructions but those that end in a trap where the stack pointer is below 16, the end of a module's stack, and
        those that set the local which holds the stack pointer to what it has.

        Here each call makes a stack of which it is known how much the functions take.
        """
        left, at = [], 0
        while at < len(self.body):
            if self.is_limit_alone(at):
                at += len(LIMIT_ALONE)
                continue
            it = self.body[at]
            if it.name == "local.tee" and (left[-1].name, left[-1].value) == ("local.get", it.value) and it.value == base_of(left):
                at += 1
                continue
            test = [(it.name, it.value) for it in self.body[at : at + 2]] == [("i64.const", 16), ("i64.lt_s", None)]
            if test and self.is_to_trap(at + 2) and self.leaves_stack_pointer(left):
                at += 3
            else:
                left.append(self.body[at])
                at += 1
        return left

    def is_limit_alone(self, at):
        """Whether a block stands here that tests the stack pointer and does nothing else: of a function without a frame."""
        return [(it.name, it.value) for it in self.body[at : at + len(LIMIT_ALONE)]] == LIMIT_ALONE

    def leaves_stack_pointer(self, left):
        """Takes back what put the stack pointer there to be tested: itself, a local that holds it, or its first value."""
        names = [it.name for it in left[-4:]]
        if names[-1:] == ["global.get"] or names[-1:] == ["local.get"] and left[-1].value == base_of(left):
            left.pop()
        elif names[-2:] == ["global.get", "local.tee"] and self.unmoved is None:
            self.unmoved = left.pop().value
            left.pop()
        elif names == ["global.get", "i64.const", "i64.sub", "local.tee"]:
            left[-1] = Instruction("local.set", left[-1].value, None)
        elif names[-3:] == ["global.get", "i64.const", "i64.sub"]:
            # Room that the function asks for and does not take.
            del left[-3:]
        elif names[-2:] == ["local.get", "local.tee"] and self.tested is None and is_first(left[-2].value, left):
            self.held = left.pop().value
            self.tested = left[-1].value
            if self.tested == self.held:
                left.pop()
            else:
                left.append(Instruction("local.set", self.held, None))
        else:
            return False
        return True

    def is_to_trap(self, at):
        """Whether a branch on a condition stands here, to where nothing but a trap stands."""
        if at >= len(self.body) or self.body[at].name != "br_if":
            return False
        around = self.body[at].value
        for place in range(at + 1, len(self.body) - 1):
            name = self.body[place].name
            if name == "end" and around == 0:
                return self.body[place + 1].name == "unreachable"
            around += (name in ("block", "loop", "if")) - (name == "end")
        return False

    def without_setting_back(self):
        """The instructions but those that set the stack pointer back, which was not moved."""
        left = []
        for it in self.body:
            if it.name == "global.set" and left and (left[-1].name, left[-1].value) == ("local.get", self.unmoved):
                left.pop()
            else:
                left.append(it)
        if any(it.name.startswith("local.") and it.value == self.unmoved for it in left):
            raise Unknown(f"a way of moving the stack pointer in {self.name()}")
        return left

    def is_free_behind(self, last, holder):
        """Whether a local that holds the stack pointer holds something else only behind a place that no loop goes around, at
        which the stack pointer is set back, and behind which no function of the library is called."""
        loops = []
        for it in self.body[:last]:
            if it.name in ("block", "loop", "if"):
                loops.append(it.name == "loop")
            elif it.name == "end" and loops:
                loops.pop()
        sets = [at for at, it in enumerate(self.body) if it.name in ("local.set", "local.tee") and it.value == holder]
        calls = [at for at, it in enumerate(self.body) if it.name == "call" and it.value >= len(self.module.object.imports)]
        return not any(loops) and all(at > last for at in sets[1:]) and all(at < last for at in calls)

    def frame_of(self):
        """The bytes of the stack that the function takes, of which each way of moving the stack pointer is known.

        It is read once, at the start, and a multiple of 16 is subtracted from it, which a local holds from then on. That
        local is the stack pointer while the function runs, and it is set back from it, behind which the local may hold
        something else; or the function calls none, and the local may hold something else in the end.
        """
        if self.unmoved is not None:
            self.body = self.without_setting_back()
        places = [at for at, it in enumerate(self.body) if it.name in ("global.get", "global.set")]
        if not places and self.tested is None:
            return 0
        body = self.body[start_of(self.body) :]
        names = [it.name for it in body] + [""] * 6
        at = 5 if names[3] == "local.set" else 4
        known = names[:3] == ["global.get", "i64.const", "i64.sub"] and names[3] in ("local.set", "local.tee")
        base, size = (body[3].value, body[1].value) if known else (None, 0)
        if known and names[3] == "local.set" and names[4:6] == ["local.get", "global.set"]:
            known = body[4].value == base
        moves = known and names[at] == "global.set"
        holder = base if self.tested is None else self.held
        known = known and self.tested in (None, base)
        for place in places[1 + moves :]:
            before = [(it.name, it.value) for it in self.body[max(0, place - 3) : place]]
            back = [("local.get", holder), ("i64.const", size), ("i64.add", None)]
            known = known and moves and self.body[place].name == "global.set" and before == back
        sets = sum(it.name in ("local.set", "local.tee") and it.value == holder for it in self.body)
        calls = any(it.name == "call" and it.value >= len(self.module.object.imports) for it in self.body)
        is_kept = sets == 1 or (sets > 1 and not calls and not moves and self.tested is None)
        is_kept = is_kept or (moves and len(places) == 3 and self.is_free_behind(places[-1], holder))
        if not known or size <= 0 or size % 16 or not is_kept or (calls and not moves):
            raise Unknown(f"a way of moving the stack pointer in {self.name()}")
        return size

    def name(self):
        return self.module.object.names.get(self.index) or f"function {self.index}"


class Module:
    """The functions of an object that are wanted, and what they need."""

    def __init__(self, of, wanted):
        self.object = of
        for name in of.imports:
            if name not in HELPERS:
                raise Unknown(f"the import {name}")
        by_name = {name: index for index, name in of.exports.items()}
        for name in wanted:
            if name not in by_name:
                raise Unknown(f"the function {name}, which the library does not have")
        self.wanted = {by_name[name]: name for name in wanted or sorted(by_name)}
        # Places are known before the text, which names them.
        self.functions = {}
        self.lay_out(self.segments_of(self.reached()))
        for index in sorted(self.reached()):
            self.functions[index] = Function(self, index)

    def reached(self):
        """The functions that are called, by way of others or not."""
        of, found, left = self.object, set(), sorted(self.wanted)
        while left:
            index = left.pop()
            if index not in found:
                found.add(index)
                body = of.bodies[index - len(of.imports)][1]
                left += [it.value for it in body if it.name == "call" and it.value >= len(of.imports)]
        return found

    def segments_of(self, functions):
        of = self.object
        found = {of.symbols[it.relocation[1]][1] for index in functions for it in of.bodies[index - len(of.imports)][1]
                 if it.relocation and it.relocation[0] in wasm.MEMORY_PLACES}
        return sorted(found)

    def lay_out(self, segments):
        """Puts constants one after another, in this order."""
        self.places, self.constants, self.align = {}, bytearray(), 1
        for segment in segments:
            align, held = self.object.segments[segment], self.object.held[segment][1]
            self.constants += bytes(-len(self.constants) % align)
            self.places[segment] = len(self.constants)
            self.constants += held
            self.align = max(self.align, align)
        if self.align > 16:
            raise Unknown(f"constants that are aligned to {self.align} bytes")
        self.constants = self.constants or bytearray(1)

    def constant(self, relocation):
        """The place of what a relocation names among the constants."""
        _, symbol, more = relocation
        _, segment, place, _ = self.object.symbols[symbol]
        return self.places[segment] + place + more

    def name_of(self, index):
        """The function's name in the text that is written."""
        return f"of_{self.object.exports[index]}" if index in self.object.exports else f"f{index}"

    def called_below(self, index):
        """The functions that are called by way of this one."""
        found, left = set(), [index]
        while left:
            more = self.functions[left.pop()].calls - found
            found |= more
            left += more
        return found

    def stacks(self, depth):
        """The most bytes of the stack that each function takes, with those that it calls. Of functions that call one
        another, each is there at most this many times."""
        most = {}

        def of(index):
            if index not in most:
                reached = self.called_below(index)
                ring = {index} | {it for it in reached if index in self.called_below(it)}
                frames = sum(self.functions[it].frame for it in ring) * (depth if index in reached else 1)
                others = set().union(*(self.functions[it].calls for it in ring)) - ring
                below = max((of(it) for it in sorted(others)), default=0)
                most.update(dict.fromkeys(ring, frames + below))
            return most[index]

        return {name: max(of(index), 16) for index, name in self.wanted.items()}
