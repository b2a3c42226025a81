"""Random programs that are accepted by construction, and that end unless a fault is planned.

`program(numbers, level)` makes one. Functions have ints, bools, chars, pointers and shadows, loops, branches, calls with 0 to 10
arguments, recursion of one function and of several, nested speculation with guards, and code that nothing reaches. What could
fault is made so that it can't: a divisor is never 0, a block is filled before it is read and freed on each way out, and an
offset is within its block. So a program comes to its end, where it prints what its variables hold, unless a fault is put into it
on purpose. Loops and calls are counted, so that it ends within the steps that it asks for.

A program of level `core` has ints and bools alone, and one of level `memory` no speculation and no shadows.
"""
from typing import NamedTuple, Optional

LEAST, MOST = -2 ** 63, 2 ** 63 - 1
INTS = [0, 1, 2, 3, 5, 7, -1, -2, 10, 100, 255, 2047, 2048, 4096, 55296, 1114111, 1114112, 2 ** 31 - 1, 2 ** 31, -2 ** 31, MOST, LEAST]
CHARS = ["'a'", "'Z'", "'0'", "'\\n'", "'é'", "'€'", "'😀'"]
COMPARISONS = ["eq", "lt", "gt", "le", "ge"]
POINTERS = {"p": "ptr<int>", "q": "ptr<ptr<int>>", "r": "ptr<char>"}
LETTERS = {"int": "i", "bool": "b", "char": "c", **{ty: letter for letter, ty in POINTERS.items()}}
# Each block has at least so many cells, and a pointer that is an argument goes to one.
SIZE = 4
# The most steps of a function that the others call, of one that calls itself by others, and of main; the most words of each.
CALLED, COUNTED, WHOLE, WORDS = 2000, 150, 20000, 40000
STEPS, CELLS = 200000, 20000
# The share of programs into which a fault is put.
PLANNED = 0.2

# What faults, by the name of the fault: lines, in which {k} is a number of their own and {i} any int.
FAULTS = {
    "DivZero": ["z{k}: int = const 0; y{k}: int = div {i} z{k}", "z{k}: int = sub {i} {i}; y{k}: int = div {i} z{k}; print y{k}"],
    "BadChar": ["z{k}: int = const %d; y{k}: char = int2char z{k}" % number for number in (55296, 57343, 1114112, -1, MOST, LEAST, 2 ** 32 + 65)],
    "BadAlloc": ["z{k}: int = const %d; y{k}: ptr<char> = alloc z{k}" % number for number in (0, -1, LEAST)],
    "BadFree": [
        "y{k}: ptr<int> = undef; free y{k}",
        "z{k}: int = const 3; y{k}: ptr<bool> = alloc z{k}; free y{k}; free y{k}",
        "z{k}: int = const 3; y{k}: ptr<int> = alloc z{k}; y{k}: ptr<int> = ptradd y{k} z{k}; free y{k}",
        "z{k}: int = const -1; o{k}: int = const 1; y{k}: ptr<int> = alloc o{k}; y{k}: ptr<int> = ptradd y{k} z{k}; free y{k}",
    ],
    "Access": [
        "y{k}: ptr<int> = undef; x{k}: int = load y{k}",
        "y{k}: ptr<ptr<int>> = undef; x{k}: ptr<int> = undef; store y{k} x{k}",
        "z{k}: int = const 3; y{k}: ptr<int> = alloc z{k}; y{k}: ptr<int> = ptradd y{k} z{k}; store y{k} {i}",
        "z{k}: int = const 3; y{k}: ptr<int> = alloc z{k}; store y{k} {i}; free y{k}; x{k}: int = load y{k}; print x{k}",
        "z{k}: int = const -1; o{k}: int = const 1; y{k}: ptr<int> = alloc o{k}; y{k}: ptr<int> = ptradd y{k} z{k}; x{k}: int = load y{k}",
        "z{k}: int = const 3; y{k}: ptr<int> = alloc z{k}; free y{k}; store y{k} {i}",
    ],
    "Uninit": [
        "z{k}: int = const 3; y{k}: ptr<int> = alloc z{k}; x{k}: int = load y{k}; print x{k}",
        "z{k}: int = const 3; o{k}: int = const 1; y{k}: ptr<int> = alloc z{k}; store y{k} {i}; e{k}: ptr<int> = ptradd y{k} o{k}; x{k}: int = load e{k}",
    ],
    "Leak": ["z{k}: int = const 3; y{k}: ptr<int> = alloc z{k}", "z{k}: int = const 1; y{k}: ptr<char> = alloc z{k}; free y{k}; y{k}: ptr<char> = alloc z{k}"],
    "Frames": ["z{k}: int = const FRAMES; y{k}: int = call @down z{k}; print y{k}"],
    "Cells": ["z{k}: int = const %d; y{k}: ptr<int> = alloc z{k}" % number for number in (CELLS + 1, MOST)]
    + ["z{k}: int = const %d; y{k}: ptr<int> = alloc z{k}; y{k}: ptr<int> = alloc z{k}" % (CELLS // 2 + 1)],
    "PtrRange": [
        "z{k}: int = const %d; y{k}: ptr<int> = undef; y{k}: ptr<int> = ptradd y{k} z{k}" % number for number in (2 ** 31, -2 ** 31 - 1, MOST, LEAST)
    ]
    + ["z{k}: int = const 1073741824; y{k}: ptr<char> = undef; y{k}: ptr<char> = ptradd y{k} z{k}; y{k}: ptr<char> = ptradd y{k} z{k}"],
    "Allocs": [
        "z{k}: int = const 262145; o{k}: int = const 1; t{k}: int = const 0; .f{k}: y{k}: ptr<int> = alloc o{k}; free y{k}; z{k}: int = sub z{k} o{k};"
        " m{k}: bool = gt z{k} t{k}; br m{k} .f{k} .g{k}; .g{k}:"
    ],
}
OF_CORE = ["DivZero", "Frames"]
# The types of the variables of a program, by its level.
TYPES = {"core": ["int", "bool"], "memory": list(LETTERS), "all": list(LETTERS)}
# The lines that come to the fault of a function which has one.
CALLED_FAULT = "call @bad {i}"


class Program(NamedTuple):
    """A program's text, the words of main's arguments, the limits that it wants, and the fault that is put into it."""

    text: str
    args: list
    frames: int
    steps: int
    planned: Optional[str]


class Callee(NamedTuple):
    """A function that can be called: with how many steps and frames at most, and the most that it may count down from, if it does."""

    name: str
    args: list
    ret: Optional[str]
    cost: int
    frames: int
    most: Optional[int] = None


class Block(NamedTuple):
    """A live block all of whose cells are stored: the variable that points to it, which nothing else assigns."""

    name: str
    type: str
    size: int
    own: bool


class Function:
    """A random function: its lines, and the names that are still free."""

    def __init__(self, numbers, level, name, args, ret, callees, most, counts=False):
        self.random = numbers
        self.level = level
        self.callees = callees
        self.most = most
        self.ret = ret
        self.lines = []
        self.fresh = 0
        # How often what is put now is executed at most, and what was put takes in all: steps, frames below, and words of the image.
        self.turns, self.cost, self.frames, self.words = 1, 0, 0, 0
        # The labels of the open speculations, each with how many blocks were live there, and the counters of the loops around.
        self.open, self.counters = [], []
        # A function of few variables often has all of them in registers.
        self.few, self.turn = numbers.random() < 0.4, 0
        ints = 2 if self.few else numbers.choice([3, 5, 5, 5, 8, 30, 130, 320])
        self.vars = {ty: ["%s%d" % (LETTERS[ty], k) for k in range(ints if ty == "int" else 1 if self.few else 2)] for ty in TYPES[level]}
        self.blocks = [Block(arg, ty, SIZE, False) for arg, ty in args if ty.startswith("ptr")]
        self.shadowed = {ty: names if len(names) < 40 else numbers.sample(names, 20) for ty, names in self.vars.items()}
        if self.few:
            self.shadowed = {ty: self.shadowed[ty] for ty in numbers.sample(list(self.vars), 2)}
        for arg, ty in args[1 if counts else 0:]:
            if not ty.startswith("ptr"):
                self.vars[ty] = self.vars[ty] + [arg]
        head = ", ".join("%s: %s" % pair for pair in args)
        self.head = "@%s%s%s {" % (name, "(%s)" % head if args else "", ": " + ret if ret else "")
        self.args = {arg for arg, _ in args}

    # ---- lines

    def put(self, line):
        self.lines.append("  " + line + ";")
        self.cost += self.turns
        slots = 2 * sum(map(len, self.vars.values())) + 4 * self.fresh
        self.words += 12 + 8 * slots if line.startswith(("speculate", "guard")) else 24 + 8 * line.count(" ")

    def place(self, label):
        self.lines.append(label + ":")
        self.cost += self.turns

    def number(self):
        self.fresh += 1
        return self.fresh

    def label(self):
        return ".l%d" % self.number()

    def any(self, ty):
        return self.random.choice(self.vars[ty])

    def constant(self, number, letter="k"):
        """A variable of its own with this number."""
        name = "%s%d" % (letter, self.number())
        self.put("%s: int = const %d" % (name, number))
        return name

    def temporary(self, ty):
        """A name for what is read just behind: one of its own, or in a function of few variables one of four that take turns."""
        if not self.few:
            return "s%s%d" % (LETTERS[ty], self.number())
        self.turn = (self.turn + 1) % 4
        return "s%s%d" % (LETTERS[ty], self.turn)

    def brief(self, number):
        """A constant that is read just behind."""
        name = self.temporary("int")
        self.put("%s: int = const %d" % (name, number))
        return name

    def start(self):
        """Every variable has a value from here on, and so have the shadows that are read."""
        for ty, names in self.vars.items():
            for name in names:
                if name not in self.args:
                    self.put("%s: %s = %s" % (name, ty, self.first(ty, name)))
        if self.level == "all":
            for ty, names in self.shadowed.items():
                for name in names:
                    self.put("set %s %s" % (name, self.random.choice([name, names[0]])))

    def first(self, ty, name):
        """What a variable is at first: a constant, or made of those before it."""
        if ty == "int":
            known = [arg for arg in self.vars["int"] if arg in self.args] + ["i%d" % k for k in range(int(name[1:]))]
            if known and self.random.random() < 0.5:
                return "%s %s %s" % (self.random.choice(["add", "sub", "mul"]), self.random.choice(known), self.random.choice(known))
            return "const %d" % self.random.choice(INTS + list(range(-5, 20)))
        if ty == "bool":
            return "const " + self.random.choice(["true", "false"])
        if ty == "char":
            return "const " + self.random.choice(CHARS)
        known = [block.name for block in self.blocks if block.type == ty]
        return "id " + self.random.choice(known) if known and self.random.random() < 0.7 else "undef"

    # ---- items that never fault

    def compute(self):
        kinds = ["arithmetic"] * 4 + ["divide"] + ["compare"] * 3 + ["logic", "not", "copy", "number", "truth", "print", "print", "nop", "undef"]
        if self.level != "core":
            kinds += ["chars", "cast", "letter"] * 2 + ["move", "far"]
            if self.blocks:
                kinds += ["load", "load", "store", "store", "alias"]
        if self.level == "all":
            kinds += ["get", "get", "set", "set"]
        if self.open and self.open[-1][1] == len(self.blocks):
            kinds += ["guard"]
        getattr(self, "put_" + self.random.choice(kinds))()

    def put_arithmetic(self):
        self.put("%s: int = %s %s %s" % (self.any("int"), self.random.choice(["add", "sub", "mul"]), self.any("int"), self.any("int")))

    def put_divide(self):
        """By a constant, or by an odd number that was computed."""
        divisor = self.brief(self.random.choice([1, 2, 3, 7, -1, -5, 10, 2 ** 31, MOST, LEAST]))
        if self.random.random() < 0.5:
            one = self.brief(1)
            self.put("%s: int = mul %s %s" % ((divisor,) + (self.any("int"),) * 2))
            self.put("%s: int = mul %s %s" % (divisor, divisor, divisor))
            self.put("%s: int = add %s %s" % (divisor, divisor, divisor))
            self.put("%s: int = add %s %s" % (divisor, divisor, one))
        self.put("%s: int = div %s %s" % (self.any("int"), self.any("int"), divisor))

    def put_compare(self):
        self.put("%s: bool = %s %s %s" % (self.any("bool"), self.random.choice(COMPARISONS), self.any("int"), self.any("int")))

    def put_logic(self):
        self.put("%s: bool = %s %s %s" % (self.any("bool"), self.random.choice(["and", "or"]), self.any("bool"), self.any("bool")))

    def put_not(self):
        self.put("%s: bool = not %s" % (self.any("bool"), self.any("bool")))

    def put_copy(self):
        ty = self.random.choice(list(self.vars))
        self.put("%s: %s = id %s" % (self.any(ty), ty, self.any(ty)))

    def put_number(self):
        number = self.random.choice(INTS + [self.random.randint(LEAST, MOST), self.random.randint(-5000, 5000), self.random.randint(-2 ** 32, 2 ** 32)])
        self.put("%s: int = const %d" % (self.any("int"), number))

    def put_truth(self):
        self.put("%s: bool = const %s" % (self.any("bool"), self.random.choice(["true", "false"])))

    def printed(self):
        return [ty for ty in self.vars if not ty.startswith("ptr")]

    def put_print(self):
        self.put(" ".join(["print"] + [self.any(self.random.choice(self.printed())) for _ in range(self.random.choice([0, 1, 1, 2, 3]))]))

    def put_nop(self):
        self.put("nop")

    def put_undef(self):
        ty = self.random.choice(list(self.vars))
        self.put("%s: %s = undef" % (self.any(ty), ty))

    def put_chars(self):
        self.put("%s: bool = c%s %s %s" % (self.any("bool"), self.random.choice(COMPARISONS), self.any("char"), self.any("char")))

    def put_cast(self):
        self.put("%s: int = char2int %s" % (self.any("int"), self.any("char")))

    def put_letter(self):
        """The char of a constant, or of a square below the surrogates that was computed."""
        if self.random.random() < 0.5:
            name = self.brief(self.random.choice([65, 233, 55295, 57344, 1114111]))
        else:
            name = self.square(self.any("int"), 234)
        self.put("%s: char = int2char %s" % (self.any("char"), name))

    def square(self, name, most):
        """A variable of its own with the square of a number that is the rest of one divided by this."""
        rest, divisor = self.temporary("int"), self.brief(most)
        self.put("%s: int = div %s %s" % (rest, name, divisor))
        self.put("%s: int = mul %s %s" % (rest, rest, divisor))
        self.put("%s: int = sub %s %s" % (rest, name, rest))
        self.put("%s: int = mul %s %s" % (rest, rest, rest))
        return rest

    def put_get(self):
        ty = self.random.choice(list(self.shadowed))
        self.put("%s: %s = get" % (self.random.choice(self.shadowed[ty]), ty))

    def put_set(self):
        ty = self.random.choice(list(self.shadowed))
        self.put("set %s %s" % (self.random.choice(self.shadowed[ty]), self.any(ty)))

    def put_guard(self):
        self.put("guard %s %s" % (self.condition(), self.open[-1][0]))

    def condition(self):
        """A bool: any, or one that was compared just now, with a turn of a loop, or so that it holds or fails for certain."""
        kind, name = self.random.random(), self.any("int")
        if kind < 0.4:
            return self.any("bool")
        dest = self.temporary("bool")
        if self.counters and kind < 0.7:
            other = self.brief(self.random.randint(0, 4))
            self.put("%s: bool = %s %s %s" % (dest, self.random.choice(COMPARISONS), self.random.choice(self.counters), other))
        else:
            self.put("%s: bool = %s %s %s" % (dest, self.random.choice(COMPARISONS), name, self.random.choice([name, self.any("int")])))
        return dest

    # ---- memory

    def put_move(self):
        """A pointer that nothing reads through."""
        ty = self.random.choice(list(POINTERS.values()))
        self.put("%s: %s = ptradd %s %s" % (self.any(ty), ty, self.any(ty), self.brief(self.random.choice([0, 1, 1, 2, -1]))))

    def put_far(self):
        """A pointer to the last and the first offset that there are."""
        far = self.brief(self.random.choice([2 ** 31 - 1, -2 ** 31]))
        ty = self.random.choice(list(POINTERS.values()))
        name = self.temporary(ty)
        self.put("%s: %s = undef" % (name, ty))
        self.put("%s: %s = ptradd %s %s" % (name, ty, name, far))

    def element(self, name, ty, size):
        """A pointer to a cell of the block, at an offset that is constant or was computed."""
        if self.random.random() < 0.3:
            return name
        if self.random.random() < 0.5:
            offset = self.brief(self.random.randrange(size))
        else:
            offset = self.square(self.square(self.any("int"), 1000), size)
            divisor, whole = self.brief(size), self.temporary("int")
            self.put("%s: int = div %s %s" % (whole, offset, divisor))
            self.put("%s: int = mul %s %s" % (whole, whole, divisor))
            self.put("%s: int = sub %s %s" % (offset, offset, whole))
        cell = self.temporary(ty)
        self.put("%s: %s = ptradd %s %s" % (cell, ty, name, offset))
        return cell

    def put_load(self):
        """A load, and where the cell holds a pointer, a load or a store through that."""
        block = self.random.choice(self.blocks)
        cell = self.element(block.name, block.type, block.size)
        if block.type != "ptr<ptr<int>>":
            return self.put("%s: %s = load %s" % (self.any(block.type[4:-1]), block.type[4:-1], cell))
        inner = self.temporary("ptr<int>")
        self.put("%s: ptr<int> = load %s" % (inner, cell))
        cell = self.element(inner, "ptr<int>", SIZE)
        self.put(self.random.choice(["%s: int = load %s" % (self.any("int"), cell), "store %s %s" % (cell, self.any("int"))]))

    def put_store(self):
        """A store of what stays readable as long as the block lives."""
        at = self.random.randrange(len(self.blocks))
        block = self.blocks[at]
        if block.type != "ptr<ptr<int>>":
            values = self.vars[block.type[4:-1]]
        else:
            values = [other.name for other in self.blocks[:at] if other.type == "ptr<int>"] if block.own else []
        if values:
            self.put("store %s %s" % (self.element(block.name, block.type, block.size), self.random.choice(values)))

    def put_alias(self):
        """A load through another variable, to which the pointer came by a copy, by a shadow, or from far away."""
        block = self.random.choice(self.blocks)
        ty, ways = block.type, ["copy", "far"] + (["shadow"] if self.level == "all" else [])
        name, way = self.random.choice(self.vars[ty]), self.random.choice(ways)
        if way == "shadow":
            self.put("set %s %s" % (name, block.name))
            self.put("%s: %s = get" % (name, ty))
        elif way == "far":
            self.put("%s: %s = ptradd %s %s" % (name, ty, block.name, self.brief(2 ** 31 - 1)))
            self.put("%s: %s = ptradd %s %s" % (name, ty, name, self.brief(1 - 2 ** 31)))
        else:
            self.put("%s: %s = id %s" % (name, ty, block.name))
        dest = self.any(ty[4:-1]) if ty != "ptr<ptr<int>>" else self.temporary("ptr<int>")
        self.put("%s: %s = load %s" % (dest, ty[4:-1], self.element(name, ty, block.size)))

    def has(self, ty):
        return any(block.type == ty for block in self.blocks)

    def begin_block(self, ty):
        """A block whose cells are all stored; it lives until `end_block`."""
        if ty == "ptr<ptr<int>>" and not self.has("ptr<int>"):
            self.begin_block("ptr<int>")
        size, name = self.random.choice([SIZE, SIZE, SIZE + 1, 8, 17]), "m%d" % self.number()
        values = self.vars[ty[4:-1]] if ty != "ptr<ptr<int>>" else [block.name for block in self.blocks if block.type == "ptr<int>"]
        self.put("%s: %s = alloc %s" % (name, ty, self.brief(size)))
        offset, one, least, cell = self.brief(size), self.brief(1), self.brief(0), self.temporary(ty)
        again, after, more = self.label(), self.label(), self.temporary("bool")
        self.turns *= size
        self.place(again)
        self.put("%s: int = sub %s %s" % (offset, offset, one))
        self.put("%s: %s = ptradd %s %s" % (cell, ty, name, offset))
        if ty == "ptr<int>":
            changed = self.any("int")
            self.put("%s: int = add %s %s" % (changed, changed, offset))
        self.put("store %s %s" % (cell, self.random.choice(values)))
        self.put("%s: bool = gt %s %s" % (more, offset, least))
        self.put("br %s %s %s" % (more, again, after))
        self.turns //= size
        self.place(after)
        self.blocks.append(Block(name, ty, size, True))

    def end_block(self):
        self.put("free " + self.blocks.pop().name)

    def remembered(self, fuel):
        """Items beside which a block lives."""
        before = len(self.blocks)
        self.begin_block(self.random.choice(list(POINTERS.values())))
        self.block(fuel)
        while len(self.blocks) > before:
            self.end_block()

    # ---- control

    def call(self, callees=None):
        within = [callee for callee in callees or self.callees if callees or self.cost + self.turns * callee.cost <= self.most]
        if self.open or not within:
            return self.compute()
        callee, before, words = self.random.choice(within), len(self.blocks), []
        if callee.name == "down":
            callee = self.random.choice(within)
        for _, ty in callee.args:
            if ty.startswith("ptr") and not self.has(ty):
                self.begin_block(ty)
        for name, ty in callee.args:
            if name == "n":
                words.append("n" if callees else self.brief(self.random.randint(0, callee.most)))
            elif ty.startswith("ptr"):
                words.append(self.random.choice([block.name for block in self.blocks if block.type == ty]))
            else:
                words.append(self.any(ty))
        line = " ".join(["call @" + callee.name] + words)
        if callee.ret == "ptr<int>":
            made = self.temporary("ptr<int>")
            self.put("%s: ptr<int> = %s" % (made, line))
            self.put("%s: int = load %s" % (self.any("int"), self.element(made, "ptr<int>", SIZE)))
        else:
            self.put("%s: %s = %s" % (self.any(callee.ret), callee.ret, line) if callee.ret else line)
        if not callees:
            self.cost += self.turns * callee.cost
            self.frames = max(self.frames, callee.frames)
        while len(self.blocks) > before:
            self.end_block()

    def branch(self, fuel):
        other, after, first = self.label(), self.label(), self.label()
        self.put("br %s %s %s" % (self.condition(), first, other))
        self.place(first)
        self.block(fuel)
        self.put("jmp " + after)
        self.place(other)
        self.block(fuel)
        self.place(after)

    def loop(self, fuel):
        """Some turns, counted by variables, or by a shadow, that nothing else touches."""
        count = self.random.choice([0, 1, 2, 3, 4, 5, 6, 20])
        if self.turns * max(count, 1) > self.most / 20:
            return self.compute()
        counter, one, zero = self.constant(count, "n"), self.constant(1), self.constant(0)
        again, body, after, more = self.label(), self.label(), self.label(), self.temporary("bool")
        by_shadow = self.level == "all" and self.random.random() < 0.4
        if by_shadow:
            self.put("set %s %s" % (counter, counter))
        turns, self.turns = self.turns, self.turns * max(count, 1)
        self.place(again)
        if by_shadow:
            self.put("%s: int = get" % counter)
        self.put("%s: bool = gt %s %s" % (more, counter, zero))
        self.put("br %s %s %s" % (more, body, after))
        self.place(body)
        self.counters.append(counter)
        self.block(fuel)
        self.counters.pop()
        if by_shadow:
            next_counter = self.temporary("int")
            self.put("%s: int = sub %s %s" % (next_counter, counter, one))
            self.put("set %s %s" % (counter, next_counter))
        else:
            self.put("%s: int = sub %s %s" % (counter, counter, one))
        self.put("jmp " + again)
        self.turns = turns
        self.place(after)

    def attempt(self, fuel):
        """A speculation; the guards among its items go to the label behind it."""
        if len(self.open) >= 8 or self.words > WORDS:
            return self.compute()
        after = self.label()
        self.put("speculate")
        self.open.append((after, len(self.blocks)))
        self.block(fuel)
        for _ in range(self.random.choice([0, 1, 1, 2])):
            self.put_guard()
            self.block(fuel)
        self.open.pop()
        self.put("commit")
        self.place(after)

    def skipped(self, fuel):
        """Code that nothing reaches; it would fault."""
        after, turns = self.label(), self.turns
        self.put("jmp " + after)
        self.turns = 0
        self.block(fuel)
        self.fault(self.random.choice(OF_CORE if self.level == "core" else list(FAULTS)))
        self.turns = turns
        self.place(after)

    def result(self):
        """What the function returns, if it does."""
        if self.ret == "ptr<int>":
            return self.random.choice([block.name for block in self.blocks if block.type == self.ret and not block.own])
        return self.any(self.ret)

    def returned(self):
        """A way out of the function, and code that nothing reaches after it."""
        if self.open:
            return self.compute()
        leaving, after = self.label(), self.label()
        self.put("br %s %s %s" % (self.condition(), leaving, after))
        self.place(leaving)
        for block in self.random.sample(self.blocks, len(self.blocks)):
            if block.own:
                self.put("free " + block.name)
        self.put("ret " + self.result() if self.ret else "ret")
        self.compute()
        self.place(after)

    def block(self, fuel):
        for _ in range(self.random.randint(1, 4)):
            kind = self.random.random()
            if kind >= 0.34 or fuel == 0:
                self.call() if kind < 0.44 else self.compute()
            elif kind < 0.08:
                self.branch(fuel - 1)
            elif kind < 0.17:
                self.loop(fuel - 1)
            elif kind < 0.25 and self.level == "all":
                self.attempt(fuel - 1)
            elif kind < 0.27:
                self.skipped(fuel - 1)
            elif kind < 0.33 and self.level != "core":
                self.remembered(fuel - 1)
            elif kind < 0.34:
                self.returned()

    # ---- faults

    def fault(self, name):
        """Lines that fault so."""
        made = CALLED_FAULT if name == "bad" else self.random.choice(FAULTS[name])
        made = made.format(k=self.number(), i=self.any("int"))
        for line in made.split(";"):
            line = line.strip()
            while line.startswith(".") and not line.startswith("br"):
                label, _, line = line.partition(":")
                self.place(label)
                line = line.strip()
            if line:
                self.put(line)

    def planned(self, name):
        """The fault by itself, behind a branch, in a turn of a loop, or in a speculation."""
        may_be_open = self.level == "all" and name not in ("Frames", "bad")
        way = self.random.choice(["itself", "branch", "loop"] + (["speculation"] if may_be_open else []))
        if way == "itself":
            return self.fault(name)
        after, label = self.label(), self.label()
        if way == "speculation":
            self.put("speculate")
            self.open.append((after, len(self.blocks)))
            self.block(1)
            self.fault(name)
            self.put_guard()
            self.open.pop()
            self.put("commit")
            return self.place(after)
        if way == "branch":
            test = self.condition()
        else:
            counter, test, turn = self.constant(0, "n"), "t%d" % self.number(), self.constant(self.random.randint(0, 4))
            again, one = self.label(), self.constant(1)
            self.place(again)
            self.block(0)
            self.put("%s: bool = eq %s %s" % (test, counter, turn))
            self.put("%s: int = add %s %s" % (counter, counter, one))
        self.put("br %s %s %s" % (test, label, again if way == "loop" else after))
        self.place(label)
        self.fault(name)
        self.place(after)

    # ---- whole functions

    def finish(self):
        """Prints what variables hold, all or some, or makes one number of them; and leaves."""
        names = [name for ty in self.printed() for name in self.vars[ty]]
        names = self.random.sample(names, self.random.choice([len(names), min(len(names), 6)]))
        if not self.ret or self.random.random() < 0.2:
            while names:
                count = self.random.choice([1, 4, 8, 40])
                self.put(" ".join(["print"] + names[:count]))
                names = names[count:]
        elif self.ret in ("int", "bool"):
            total, factor = self.constant(17, "n"), self.constant(31)
            for name in names:
                if name in self.vars["int"]:
                    self.put("%s: int = mul %s %s" % (total, total, factor))
                    self.put("%s: int = add %s %s" % (total, total, name))
            made = "int = id %s" % total if self.ret == "int" else "bool = lt %s %s" % (total, factor)
            self.put("%s: %s" % (self.any(self.ret), made))
        if self.ret:
            self.put("ret " + self.result())
        elif self.random.random() < 0.5:
            self.put("ret")

    def closed(self):
        return "\n".join([self.head] + self.lines + ["}"])

    def text(self, planned=None):
        self.start()
        count = self.random.randint(1, 4)
        last = self.random.choice([0, count - 1, count - 1])
        for k in range(count):
            self.block(3)
            if planned and k == last:
                self.planned(planned)
        self.finish()
        return self.closed()

    def member(self, peers, calls):
        """The text of a function that counts its first argument down by so many calls of its peers."""
        self.start()
        zero, more, going, done = self.constant(0), "t%d" % self.number(), self.label(), self.label()
        self.put("%s: bool = gt n %s" % (more, zero))
        self.put("br %s %s %s" % (more, going, done))
        self.place(done)
        self.finish()
        if not self.ret and not self.lines[-1].startswith("  ret"):
            self.put("ret")
        self.place(going)
        self.put("n: int = sub n %s" % self.constant(1))
        for _ in range(calls):
            self.block(1)
            self.call(peers)
        self.block(1)
        self.finish()
        return self.closed()


def recursive(most):
    """A function that counts down by calls, in as many frames and one more."""
    text = """@down(n: int): int {
  zero: int = const 0;
  one: int = const 1;
  more: bool = gt n zero;
  br more .more .done;
.more:
  m: int = sub n one;
  r: int = call @down m;
  r: int = add r n;
  ret r;
.done:
  ret zero;
}"""
    return text, Callee("down", [("n", "int")], "int", 12 * (most + 1), most + 1, most)


def arguments(numbers, types, most):
    return [("a%d" % k, numbers.choice(types)) for k in range(numbers.choice([0, 1, 2, 3, 4, numbers.randint(5, most)]))]


def group(numbers, level, types, callees):
    """Two to four functions that call one another, with different numbers of arguments, and how they can be called."""
    calls, results = numbers.choice([1, 1, 2]), [None] + [ty for ty in types if not ty.startswith("ptr")]
    most = numbers.choice([2, 4, 10, 30] if calls == 1 else [1, 3, 4])
    peers = [Callee("g%d" % k, [("n", "int")] + arguments(numbers, types, 9), numbers.choice(results), 0, 0, most) for k in range(numbers.randint(2, 4))]
    texts, cost, frames = [], 0, 0
    for peer in peers:
        function = Function(numbers, level, peer.name, peer.args, peer.ret, callees, COUNTED, True)
        texts.append(function.member(peers, calls))
        cost, frames = max(cost, function.cost), max(frames, function.frames)
    times = most + 1 if calls == 1 else 2 ** (most + 1)
    return texts, [peer._replace(cost=cost * times, frames=frames + most + 1) for peer in peers]


def main_arguments(numbers, types):
    args = [("a%d" % k, numbers.choice(types)) for k in range(numbers.choice([0, 1, 2, 3, 10]))]
    words = []
    for _, ty in args:
        if ty == "int":
            words.append(str(numbers.choice(INTS)))
        elif ty == "bool":
            words.append(numbers.choice(["true", "false"]))
        else:
            words.append(numbers.choice(["a", "é", "😀"]))
    return args, words


def program(numbers, level):
    """A random program."""
    plain = ["int", "bool"] + (["char"] if level != "core" else [])
    types = plain + (list(POINTERS.values()) if level != "core" else [])
    planned = numbers.choice(OF_CORE if level == "core" else list(FAULTS)) if numbers.random() < PLANNED else None
    text, down = recursive(numbers.choice([3, 8, 40, 200]))
    texts, callees, members = [text], [down], numbers.choice([None, 0, 1, 2])
    for k in range(numbers.randint(0, 3)):
        if k == members:
            more, peers = group(numbers, level, types, list(callees))
            texts, callees = texts + more, callees + peers
        args = arguments(numbers, types, 10)
        ret = numbers.choice([None] + plain + (["ptr<int>"] if "ptr<int>" in [ty for _, ty in args] else []))
        function = Function(numbers, level, "f%d" % k, args, ret, list(callees), CALLED)
        texts.append(function.text())
        callees.append(Callee("f%d" % k, args, ret, function.cost, function.frames + 1))
    args, words = main_arguments(numbers, plain)
    function = Function(numbers, level, "main", args, None, callees, WHOLE)
    if planned and numbers.random() < 0.3:
        bad = Function(numbers, level, "bad", [("a0", "int")], None, callees, CALLED)
        texts += [bad.text(planned), function.text("bad")]
        function.frames = max(function.frames, bad.frames + 1)
    else:
        texts.append(function.text(planned))
    frames = function.frames + 1 + numbers.choice([0, 0, 1, 60])
    numbers.shuffle(texts)
    text = "\n".join(texts).replace("FRAMES", str(frames)) + "\n"
    return Program(text, words, frames, 4000000 if planned == "Allocs" else STEPS, planned)
