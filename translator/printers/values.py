"""Writes functions in a language whose expressions can be nested: what waits on the stack is an expression, not yet worked out.

A value is worked out, into a name of its own, before a local that it reads is set, before memory that it reads is written, and
before a block begins. What differs between languages are the texts (a class such as rust.Rust), and whether blocks are those
of the language (Structured) or jumps (Jumping).
"""
import re

from front import BITS, COMPARE, COMPARE_SIGNED, LOADS, OF_ONE, STORES, end_of_dead
from wasm import EMPTY, I32, I64, Unknown

# The address of the first constant. Below it are those of a call's memory, which is never as long.
CONSTANTS = 1 << 32
STACK, CONSTANT = "stack", "constant"
# An expression of more parts than this is worked out.
LONG = 40
# A shift or a rotation by a number of bits.
SHIFTS = {"shl", "shr_u", "shr_s", "rotl", "rotr"}
CONVERSIONS = {"wrap_i64", "extend_i32_u", "extend_i32_s"}
NAMED = re.compile(r"[twb]\d+")


# What is worked out here where all numbers are known: a language may refuse a constant that is too large.
FOLDED = {"add": lambda a, b: a + b, "sub": lambda a, b: a - b, "mul": lambda a, b: a * b, "and": lambda a, b: a & b,
          "or": lambda a, b: a | b, "xor": lambda a, b: a ^ b, "shl": lambda a, b: a << b, "wrap_i64": lambda a: a,
          "extend_i32_u": lambda a: a, **{f"extend{it}_s": lambda a, it=it: with_sign(a, it) for it in (8, 16, 32)},
          "extend_i32_s": lambda a: with_sign(a, 32)}


def with_sign(number, bits):
    """The low bits of a number, read with a sign."""
    number &= (1 << bits) - 1
    return number - (1 << bits) if number >> (bits - 1) else number


class Value:
    """A value on the stack: its expression, and what has to be known of it."""

    __slots__ = ("text", "kind", "reads", "memory", "points", "condition", "number", "size")

    def __init__(self, text, kind, of=(), memory=False, reads=(), points=None, condition=None, number=None, more=1):
        self.text, self.kind = text, kind
        # The locals that it reads, and whether it reads memory.
        self.reads = frozenset(reads).union(*(it.reads for it in of))
        self.memory = memory or any(it.memory for it in of)
        # Where it points to, if it is an address of which that is known.
        self.points = points
        # It as a condition of the language, and the number that it is.
        self.condition, self.number = condition, number
        self.size = more + sum(it.size for it in of)


def bits_of(what, kind):
    """The bits of memory that a load or a store is of."""
    found = re.search(r"\d+", what)
    return int(found[0]) if found else BITS[kind]


class Writer:
    """The lines of a function. A subclass writes its blocks."""

    def __init__(self, function, language):
        self.function, self.module, self.language = function, function.module, language
        self.results = function.results
        self.lines, self.stack, self.blocks, self.count = [], [], [], 0
        self.on_stack = self.stack_pointers()
        self.reachable = True
        self.at = 0
        self.write()

    # ---- values

    def emit(self, line):
        self.lines.append(line)

    def push(self, value):
        self.stack.append(value)
        if value.size > LONG:
            self.work_out(len(self.stack) - 1)

    def pop(self):
        if len(self.stack) <= (self.blocks[-1].height if self.blocks else 0):
            raise Unknown(f"a value that is not there, in {self.function.name()}")
        return self.stack.pop()

    def work_out(self, at):
        """Gives a value of the stack a name."""
        value = self.stack[at]
        if value.number is None and not NAMED.fullmatch(value.text):
            self.stack[at] = Value(self.named(value.kind, value.text), value.kind, points=value.points)

    def work_out_where(self, is_so):
        for at, value in enumerate(self.stack):
            if is_so(value):
                self.work_out(at)

    def work_out_memory(self):
        self.work_out_where(lambda it: it.memory)

    def worked_out(self, value):
        """The value, as what may stand where memory is lent to be written."""
        if not value.memory:
            return value
        self.stack.append(value)
        self.work_out(len(self.stack) - 1)
        return self.stack.pop()

    def condition(self, value):
        return value.condition or self.language.compare("ne", self.language.typed(value), "0", value.kind)

    def is_base(self, at):
        """Whether what ends before an instruction is the stack pointer, or a local that points to the stack, or such a number."""
        body = self.function.body
        it = body[at - 1]
        if it.name in ("i64.add", "i64.sub") and at > 2 and body[at - 2].name == "i64.const" and not body[at - 2].relocation:
            it = body[at - 3]
        return it.name == "global.get" or (it.name in ("local.get", "local.tee") and it.value in self.on_stack)

    def stack_pointers(self):
        """The locals that, wherever they are set, are set to a place of the stack."""
        self.on_stack, sets = set(), {}
        for at, it in enumerate(self.function.body):
            if it.name in ("local.set", "local.tee") and it.value >= len(self.function.parameters):
                sets.setdefault(it.value, []).append(at)
        found = None
        while found != self.on_stack:
            found = set(self.on_stack)
            self.on_stack |= {local for local, places in sets.items() if all(self.is_base(at) for at in places)}
        return self.on_stack

    # ---- instructions

    def write(self):
        body = self.function.body
        while self.at < len(body):
            instruction = body[self.at]
            self.at += 1
            if instruction.name == "end" and not self.blocks:
                if self.reachable and self.results:
                    self.emit(self.language.leave(self.pop().text))
                break
            self.step(instruction)
            self.after_step()
            if not self.reachable:
                self.pass_over()
        if self.at != len(body) or self.blocks or self.stack:
            raise Unknown(f"values that nothing takes, in {self.function.name()}")

    def after_step(self):
        pass

    def pass_over(self):
        """Leaves out what nothing reaches, up to the end or the else of the block."""
        self.clear(self.blocks[-1].height if self.blocks else 0)
        self.at = end_of_dead(self.function.body, self.at)

    def step(self, instruction):
        name = instruction.name
        if name in ("block", "loop", "if"):
            self.begin(instruction)
        elif name == "else":
            self.turn()
        elif name == "end":
            self.end()
        elif name in ("br", "br_if", "br_table", "return", "unreachable"):
            self.branch(instruction)
        elif name == "call":
            self.call(instruction.value)
        elif name.startswith(("local.", "global.")):
            self.variable(instruction)
        elif name.endswith(".const"):
            self.constant(instruction)
        elif name == "drop":
            self.pop()
        elif name in ("select", "select_typed"):
            condition, second, first = self.pop(), self.pop(), self.pop()
            self.select(condition, first, second)
        elif name in ("memory.copy", "memory.fill"):
            self.move(name)
        elif name != "nop":
            self.number(instruction)

    def select(self, condition, first, second):
        text = self.language.select(self.condition(condition), first, second)
        self.push(Value(text, first.kind, (condition, first, second)))

    def branch(self, instruction):
        if instruction.name == "br_if":
            condition = self.pop()
            if self.result_at(instruction.value):
                self.work_out(len(self.stack) - 1)
            self.emit(self.language.when(self.condition(condition), self.jump(instruction.value)))
            return
        if instruction.name == "br":
            self.lines += self.jump(instruction.value)
        elif instruction.name == "br_table":
            self.table(*instruction.value)
        elif instruction.name == "return":
            self.emit(self.language.leave(self.stack[-1].text if self.results else ""))
        else:
            self.lines += self.language.unreachable(bool(self.results))
        self.reachable = False

    def clear(self, height):
        while len(self.stack) > height:
            self.pop()

    def table(self, depths, default):
        value = self.pop()
        if len(self.stack) > (self.blocks[-1].height if self.blocks else 0):
            self.work_out(len(self.stack) - 1)
        cases = {}
        for at, depth in enumerate(depths):
            if depth != default:
                cases.setdefault(depth, []).append(at)
        self.lines += self.language.table(value.text, [(places, self.jump(depth)) for depth, places in cases.items()], self.jump(default))

    def call(self, index):
        of = self.module.object
        parameters, results = of.types[of.functions[index]]
        given = [self.pop() for _ in parameters][::-1]
        name = of.imports[index] if index < len(of.imports) else None
        if name == "__rattle_enter":
            self.push(Value(self.language.number(0, I32), I32, number=0))
        elif name == "__rattle_trap":
            self.emit(self.language.trap())
        if name in ("__rattle_enter", "__rattle_leave", "__rattle_trap"):
            return
        self.work_out_memory()
        given = [self.language.typed(self.worked_out(it)) for it in given]
        text = self.language.helper(name, given) if name else self.language.call(self.module.name_of(index), given)
        if results:
            self.stack.append(Value(self.named(results[0], text), results[0]))
        else:
            self.emit(self.language.statement(text))

    def variable(self, instruction):
        kind, how = instruction.name.split(".")
        name = f"l{instruction.value}" if kind == "local" else "g"
        of = self.function.locals[instruction.value] if kind == "local" else I64
        points = STACK if kind == "global" or instruction.value in self.on_stack else None
        if how in ("set", "tee"):
            value = self.pop()
            self.work_out_where(lambda it: name in it.reads)
            if value.text != name:
                self.emit(self.language.assign(name, value.text))
        if how in ("get", "tee"):
            self.push(Value(name, of, reads=[name], points=points))

    def constant(self, instruction):
        kind = I32 if instruction.name == "i32.const" else I64
        if instruction.relocation:
            self.push(self.numbered(CONSTANTS + self.module.constant(instruction.relocation), I64, CONSTANT))
        else:
            self.push(self.numbered(instruction.value, kind))

    def numbered(self, number, kind, points=None):
        number &= (1 << BITS[kind]) - 1
        return Value(self.language.number(number, kind), kind, number=number, points=points)

    def move(self, name):
        size, second, to = self.pop(), self.pop(), self.pop()
        self.work_out_memory()
        size, second, to = self.worked_out(size), self.worked_out(second), self.worked_out(to)
        if name == "memory.fill":
            self.emit(self.language.fill(to.text, second, size.text))
        else:
            self.emit(self.language.copy(to.text, second.text, size.text))

    def address(self, value, instruction):
        """Where a load or a store goes, and whether it is known to be on the stack or among the constants."""
        more, points = instruction.value, value.points
        if instruction.relocation:
            more, points = CONSTANTS + self.module.constant(instruction.relocation), CONSTANT
        text = self.language.typed(value)
        return (self.language.binary("add", text, self.language.number(more, I64), I64) if more else text), points

    def load(self, kind, what, instruction):
        of = self.pop()
        address, points = self.address(of, instruction)
        text = self.language.load(kind, bits_of(what, kind), what.endswith("_s"), address, points)
        self.push(Value(text, kind, (of,), memory=True, more=2))

    def store(self, kind, what, instruction):
        value, of = self.pop(), self.pop()
        self.work_out_memory()
        value, of = self.worked_out(value), self.worked_out(of)
        bits = bits_of(what, kind)
        if value.number is not None:
            value = self.numbered(value.number & ((1 << bits) - 1), kind)
        self.emit(self.language.store(kind, bits, self.address(of, instruction)[0], value))

    def number(self, instruction):
        """An instruction on numbers, or on memory."""
        of, _, what = instruction.name.partition(".")
        kind = I32 if of == "i32" else I64
        if what in LOADS:
            self.load(kind, what, instruction)
        elif what in STORES:
            self.store(kind, what, instruction)
        elif what == "eqz" or what in OF_ONE or what in CONVERSIONS:
            self.of_one(kind, what)
        else:
            self.of_two(kind, what)

    def of_one(self, kind, what):
        of = self.pop()
        text = self.language.typed(of)
        if what in FOLDED and of.number is not None:
            self.push(self.numbered(FOLDED[what](of.number), kind))
        elif what == "eqz":
            condition = self.language.no(of.condition) if of.condition else self.language.compare("eq", text, "0", kind)
            self.push(Value(self.language.of_condition(condition), I32, (of,), condition=condition))
        elif what in CONVERSIONS:
            condition = of.condition if what == "extend_i32_u" else None
            self.push(Value(self.language.converted(what, text), kind, (of,), condition=condition))
        else:
            self.push(Value(self.language.one(what, text, kind), kind, (of,)))

    def of_two(self, kind, what):
        second, first = self.pop(), self.pop()
        text = self.language.typed(first)
        if what in FOLDED and None not in (first.number, second.number) and not first.points and not second.points:
            by = second.number % BITS[kind] if what == "shl" else second.number
            self.push(self.numbered(FOLDED[what](first.number, by), kind))
        elif what in COMPARE or what in COMPARE_SIGNED:
            other = self.language.typed(second) if what in COMPARE_SIGNED else second.text
            condition = self.language.compare(what, text, other, kind)
            self.push(Value(self.language.of_condition(condition), I32, (first, second), condition=condition))
        elif what in SHIFTS:
            by = None if second.number is None else second.number % BITS[kind]
            self.push(Value(self.language.shift(what, text, second.text, kind, by), kind, (first, second)))
        else:
            points = first.points if what in ("add", "sub") and second.number is not None and second.points is None else None
            if what == "add" and CONSTANT in (first.points, second.points):
                points = CONSTANT
            self.push(Value(self.language.binary(what, text, second.text, kind), kind, (first, second), points=points))


class Block:
    """A block that is being written."""

    def __init__(self, writer, instruction, number):
        self.kind, self.number, self.result = instruction.name, number, instruction.value
        if self.result not in (EMPTY, I32, I64):
            raise Unknown(f"a block of several results, in {writer.function.name()}")
        self.name = None if self.result == EMPTY else f"b{number}"
        self.height = 0
        # Whether anything branches to it, and whether it has an else.
        self.is_used = self.has_else = False
        self.condition, self.outer, self.then, self.then_goes_on = None, [], [], False


class Blocks(Writer):
    """What both ways of writing blocks share."""

    def begun(self, instruction):
        condition = self.pop() if instruction.name == "if" else None
        self.work_out_where(lambda it: True)
        self.count += 1
        block = Block(self, instruction, self.count)
        block.height = len(self.stack)
        block.condition = self.condition(condition) if condition else None
        self.blocks.append(block)
        return block

    def result_at(self, depth):
        """The name of what a branch hands on, if there is one."""
        block = self.blocks[-1 - depth] if depth < len(self.blocks) else None
        return block.name if block and block.kind != "loop" else None

    def jump(self, depth):
        """The lines of a branch."""
        if depth == len(self.blocks):
            return [self.language.leave(self.stack[-1].text if self.results else "")]
        block, name = self.blocks[-1 - depth], self.result_at(depth)
        block.is_used = True
        hand_on = [self.language.assign(name, self.stack[-1].text)] if name else []
        return hand_on + [self.language.again(block.number) if block.kind == "loop" else self.language.out_of(block.number)]

    def give(self, block):
        """Hands the result of a block on, where its end is reached."""
        if self.reachable and block.name and len(self.stack) > block.height:
            self.emit(self.language.assign(block.name, self.stack[-1].text))
        self.clear(block.height)

    def ended(self, block):
        if self.reachable and block.name:
            self.stack.append(Value(block.name, block.result))


class Structured(Blocks):
    """Blocks are those of the language. Each name is declared where it is first given."""

    def __init__(self, function, language):
        self.names = 0
        super().__init__(function, language)

    def named(self, kind, text):
        self.names += 1
        self.emit(self.language.let(f"t{self.names}", kind, text))
        return f"t{self.names}"

    def shortened(self, lines):
        """The lines of a block, of which a language may put some elsewhere."""
        return lines

    def begin(self, instruction):
        block = self.begun(instruction)
        if block.name:
            self.emit(self.language.declare(block.name, block.result))
        block.outer, self.lines = self.lines, []

    def turn(self):
        block = self.blocks[-1]
        self.give(block)
        block.has_else, block.then, block.then_goes_on = True, self.shortened(self.lines), self.reachable
        self.lines, self.reachable = [], True

    def end(self):
        block = self.blocks[-1]
        self.give(block)
        self.blocks.pop()
        inner, self.lines = self.shortened(self.lines), block.outer
        if block.kind == "if":
            self.end_if(block, inner)
        elif block.kind == "loop" and block.is_used:
            last = [self.language.out_of(block.number)] if self.reachable else []
            self.lines += [self.language.loop(block.number), *inner, *last, "}"]
        else:
            self.lines += [(self.language.label(block.number) if block.is_used else "") + "{", *inner, "}"] if inner else []
            self.reachable = self.reachable or (block.is_used and block.kind == "block")
        self.ended(block)

    def end_if(self, block, inner):
        then, other = (block.then, inner) if block.has_else else (inner, [])
        self.reachable = self.reachable or block.is_used or not block.has_else or block.then_goes_on
        label = self.language.label(block.number) if block.is_used else ""
        self.lines += [label + "{"] if label else []
        self.lines += [self.language.begin_if(block.condition), *then, *(["} else {", *other] if other else []), "}"]
        self.lines += ["}"] if label else []


class Jumping(Blocks):
    """Blocks are labels and jumps. All names are declared at the start; one is free again when no value has it."""

    def __init__(self, function, language):
        self.free, self.declared, self.left = {I32: [], I64: []}, {I32: [], I64: []}, []
        super().__init__(function, language)

    def named(self, kind, text):
        if self.free[kind]:
            name = self.free[kind].pop()
        else:
            name = f"{'w' if kind == I32 else 't'}{len(self.declared[kind])}"
            self.declared[kind].append(name)
        self.emit(self.language.assign(name, text))
        return name

    def pop(self):
        value = super().pop()
        self.left += re.findall(r"\b[tw]\d+\b", value.text)
        return value

    def after_step(self):
        """A name is free where the instruction is done and no value of the stack has it."""
        if not self.left:
            return
        held = {name for value in self.stack for name in re.findall(r"\b[tw]\d+\b", value.text)}
        for name in self.left:
            of = self.free[I32 if name[0] == "w" else I64]
            if name not in held and name not in of:
                of.append(name)
        self.left = []

    def begin(self, instruction):
        block = self.begun(instruction)
        if block.name:
            self.declared[block.result].append(block.name)
        if block.kind == "loop":
            block.at = len(self.lines)
            self.emit(f"L{block.number}:")
        elif block.kind == "if":
            self.emit(self.language.when(self.language.no(block.condition), [self.language.out_of(block.number, "E")]))

    def turn(self):
        block = self.blocks[-1]
        self.give(block)
        block.has_else = True
        if self.reachable:
            self.emit(self.language.out_of(block.number))
            block.is_used = True
        self.emit(f"E{block.number}:")
        self.reachable = True

    def end(self):
        block = self.blocks[-1]
        self.give(block)
        self.blocks.pop()
        if block.kind == "loop":
            if not block.is_used:
                del self.lines[block.at]
        else:
            labels = [f"E{block.number}:"] if block.kind == "if" and not block.has_else else []
            labels += [f"L{block.number}:"] if block.is_used else []
            self.lines += labels
            self.reachable = self.reachable or bool(labels)
        self.ended(block)
