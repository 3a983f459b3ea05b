#!/usr/bin/env python3
"""random_programs.py SEED FOLDER [plain]: writes the random program of this seed into FOLDER: its sources, its manifest `inputs`, and the files that this names.

A program is well typed and ends. In one that is plain nothing happens that the language leaves open, nothing strays, and an expression has an effect only where no order of
evaluation can show; so other compilers have to give the same words. `random_agree.py` runs programs and compares them; it makes them by `program`."""
import os
import random
import sys
from collections import namedtuple

Vec = namedtuple("Vec", "base size")
Arr = namedtuple("Arr", "of count")
Struct = namedtuple("Struct", "name members")
Var = namedtuple("Var", "name type reads writes shared")
Fun = namedtuple("Fun", "name result params pure")
INT, UINT, BOOL, VOID = Vec("int", 1), Vec("uint", 1), Vec("bool", 1), None
LETTERS = ("xyzw", "rgba", "stpq")


def spelled(type):
    if type is None:
        return "void"
    dims = ""
    while isinstance(type, Arr):
        dims, type = dims + "[%d]" % type.count, type.of
    if isinstance(type, Struct):
        return type.name + dims
    return (type.base if type.size == 1 else "%svec%d" % (type.base[0], type.size)) + dims


def declared(type, name, rng):
    """A declarator, with the dimensions at the type or at the name."""
    if isinstance(type, Arr) and type.count is None:
        whole = spelled(type.of)
        base, _, dims = whole.partition("[")
        return "%s %s[]%s" % (base, name, "[" + dims if dims else "")
    whole = spelled(type)
    base, bracket, dims = whole.partition("[")
    return "%s %s%s%s" % (base, name, bracket, dims) if rng.random() < 0.5 else "%s %s" % (whole, name)


def leaves(type):
    if isinstance(type, Vec):
        return type.size
    if isinstance(type, Arr):
        return leaves(type.of) * (type.count or 0)
    return sum(leaves(of) for _, of in type.members)


def zero(type):
    if isinstance(type, Arr):
        return "%s(%s)" % (spelled(type), ", ".join([zero(type.of)] * type.count))
    if isinstance(type, Struct):
        return "%s(%s)" % (type.name, ", ".join(zero(of) for _, of in type.members))
    word = {"int": "0", "uint": "0u", "bool": "false"}[type.base]
    return word if type.size == 1 else "%s(%s)" % (spelled(type), word)


class Expr:
    """An expression of a type, of pieces of text and of expressions."""

    def __init__(self, type, *parts):
        self.type, self.parts = type, list(parts)

    def text(self):
        return "".join(part if isinstance(part, str) else part.text() for part in self.parts)


class Stmt:
    """A statement or a declaration, of pieces of text, of expressions, and of lists of statements in braces."""

    def __init__(self, *parts):
        self.parts = list(parts)

    def text(self, margin):
        out = margin
        for part in self.parts:
            if isinstance(part, list):
                out += "{\n" + "".join(stmt.text(margin + "  ") for stmt in part) + margin + "}"
            else:
                out += part if isinstance(part, str) else part.text()
        return out + "\n"


class Program:
    """The declarations of each source of a stage, and what it is run on."""

    def __init__(self, stage):
        self.stage, self.units, self.lines, self.files = stage, [[]], [], {}

    def sources(self):
        return ["".join(stmt.text("") for stmt in unit) for unit in self.units]

    def write(self, folder):
        """Writes the files, and gives the names of the sources."""
        names = [str(number) for number in range(len(self.units))]
        for name, source in zip(names, self.sources()):
            open(os.path.join(folder, name), "w").write(source)
        for name, given in self.files.items():
            open(os.path.join(folder, name), "wb").write(given)
        open(os.path.join(folder, "inputs"), "w").write("".join(line + "\n" for line in self.lines))
        return names


def aligned(at, to):
    return (at + to - 1) // to * to


def measured(type, std140):
    """The alignment and the size of a type in a block (GLSL 4.50; 7.6.2.2 of the specification of OpenGL 4.5)."""
    if isinstance(type, Vec):
        return 4 * (1, 2, 4, 4)[type.size - 1], 4 * type.size
    if isinstance(type, Arr):
        to, size = measured(type.of, std140)
        to = aligned(to, 16) if std140 else to
        return to, aligned(size, to) * (type.count or 0)
    to, at = 16 if std140 else 1, 0
    for _, of in type.members:
        its, size = measured(of, std140)
        to, at = max(to, its), aligned(at, its) + size
    return to, aligned(at, to)


def bools(type, std140, at):
    """Where the words of bools stand in a type that stands at a place."""
    if isinstance(type, Vec):
        return [at + 4 * k for k in range(type.size)] if type.base == "bool" else []
    if isinstance(type, Arr):
        to, size = measured(type.of, std140)
        stride = aligned(size, aligned(to, 16) if std140 else to)
        return [place for k in range(type.count or 40) for place in bools(type.of, std140, at + k * stride)]
    found = []
    for _, of in type.members:
        at = aligned(at, measured(of, std140)[0])
        found += bools(of, std140, at)
        at += measured(of, std140)[1]
    return found


class Maker:
    def __init__(self, seed, plain, stage=None):
        self.rng = random.Random("%s %s" % (seed, plain))
        self.plain, self.stage = plain, stage or ("comp" if plain else self.one("comp", "comp", "comp", "vert", "frag"))
        self.program, self.structs, self.functions, self.scopes = Program(self.stage), [], [], [[]]
        self.scale = self.one(1, 1, 1, 1, 2, 4)
        self.defined, self.strays = [], 0 if plain else self.one(0, 0, 0, 0, 0, 0, 0, 0, 0.05, 0.3)
        self.discards = self.one(0, 0.3, 1)
        self.count, self.pure, self.loops, self.switches, self.result, self.fuel = 0, False, 0, 0, VOID, 0
        self.inside = False

    def chance(self, likely):
        return self.rng.random() < likely

    def one(self, *choices):
        return self.rng.choice(choices)

    def name(self, letter):
        self.count += 1
        return "%s%d" % (letter, self.count)

    # ---- types

    def vec(self):
        return Vec(self.one("int", "int", "uint", "bool"), self.one(1, 1, 1, 2, 3, 4))

    def type(self, high=2):
        pick = self.rng.random()
        if high and pick < 0.2:
            made = Arr(self.type(high - 1), self.one(1, 2, 3, 4))
            return made if leaves(made) <= 12 * self.scale else self.vec()
        if high and pick < 0.35 and self.structs:
            return self.rng.choice(self.structs)
        return self.vec()

    def struct(self):
        members = tuple((self.name("m"), self.type(2)) for _ in range(self.rng.randint(1, 4)))
        made = Struct(self.name("S"), members)
        if leaves(made) > 12 * self.scale:
            return
        self.program.units[0].append(Stmt("struct %s { %s };" % (made.name, " ".join(declared(of, name, self.rng) + ";" for name, of in members))))
        self.structs.append(made)

    # ---- words

    def word(self):
        pick = self.rng.random()
        if pick < 0.4:
            return self.rng.randint(0, 5)
        if pick < 0.55:
            return self.one(0xFFFFFFFF, 0xFFFFFFFE, 0x80000000, 0x7FFFFFFF, 0x80000001, 0xFFFF, 31, 32, 33)
        if pick < 0.75:
            return self.rng.randint(0, 255)
        return self.rng.getrandbits(32)

    def literal(self, base):
        if base == "bool":
            return self.one("true", "false")
        word = self.word()
        if base == "uint":
            return self.one("%du", "0x%xu") % word
        return "%d" % word if word < 1 << 31 else self.one("(-%d)" % ((1 << 32) - word), "0x%x" % word)

    # ---- places

    def variables(self):
        return [var for scope in self.scopes for var in scope]

    def holds(self, type, wanted, writing):
        """Whether a value of a type is one of the wanted type, or has such a part."""
        if type == wanted:
            return True
        if isinstance(type, Vec):
            return isinstance(wanted, Vec) and type.base == wanted.base and (wanted.size <= type.size if writing else True)
        if isinstance(type, Arr):
            return self.holds(type.of, wanted, writing)
        return any(self.holds(of, wanted, writing) for _, of in type.members)

    def place(self, wanted, writing=False, reading=True, rooted=None):
        """An expression that leads to a value of the wanted type, or None."""
        roots = [v for v in self.variables() if (v.writes or not writing) and (v.reads or not reading) and self.holds(v.type, wanted, writing)]
        if self.pure and writing:
            roots = [v for v in roots if not v.shared]
        if rooted is not None:
            roots = [v for v in roots if v not in rooted]
        if not roots:
            return None
        var = self.rng.choice(roots)
        if rooted is not None:
            rooted.append(var)
        return self.down(Expr(var.type, var.name), wanted, writing, reading)

    def down(self, expr, wanted, writing, reading=True):
        """A part of a value that is of the wanted type."""
        type = expr.type
        if isinstance(type, Vec):
            if type == wanted and not self.chance(0.1 if writing else 0.2):
                return expr
            return self.swizzled(expr, wanted, writing, reading)
        if type == wanted:
            return expr
        if isinstance(type, Arr):
            length = Expr(INT, expr.text() + ".length()") if type.count is None else None
            return self.down(Expr(type.of, expr, "[", self.index(type.count, length), "]"), wanted, writing, reading)
        name, of = self.rng.choice([m for m in type.members if self.holds(m[1], wanted, writing)])
        return self.down(Expr(of, expr, "." + name), wanted, writing, reading)

    def swizzled(self, expr, wanted, writing, reading):
        size, letters = expr.type.size, self.rng.choice(LETTERS)
        if wanted.size == 1 and size > 1 and self.chance(0.4):
            return Expr(wanted, expr, "[", self.index(size), "]")
        if not reading and wanted.size > 1:
            return expr if expr.type == wanted else None
        if writing and wanted.size == 1 and not reading:
            return Expr(wanted, expr, "." + letters[self.rng.randrange(size)])
        if self.chance(0.15) and (size > 1 or not writing):
            more = self.rng.sample(range(size), self.rng.randint(wanted.size, size)) if writing else [self.rng.randrange(size) for _ in range(self.rng.randint(1, 4))]
            through = Expr(Vec(wanted.base, len(more)), expr, "." + "".join(letters[k] for k in more))
            return self.swizzled(through, wanted, writing, reading)
        picks = self.rng.sample(range(size), wanted.size) if writing else [self.rng.randrange(size) for _ in range(wanted.size)]
        return Expr(wanted, expr, "." + "".join(letters[k] for k in picks))

    def index(self, count, length=None):
        if length is not None:
            return Expr(UINT, "uint(", self.value(INT), ") % uint(", length, ")")
        if self.chance(self.strays):
            return self.value(INT)
        if self.fuel <= 0 or self.chance(0.4):
            return Expr(INT, self.one("%d", "%du", "0x%x") % self.rng.randrange(count))
        if count in (1, 2, 4):
            return Expr(INT, self.value(self.one(INT, UINT)), " & %d" % (count - 1))
        return Expr(UINT, "uint(", self.value(INT), ") %% %du" % count)

    # ---- expressions

    def value(self, type):
        """An expression of a type."""
        self.fuel -= 1
        makers = [self.read] * 6
        if self.fuel > 0:
            makers += [self.choice, self.called, self.called, self.guarded]
            if not self.plain:
                makers += [self.stored, self.comma]
            if isinstance(type, Vec):
                makers += [self.operated] * 6 + [self.built] * 3 + [self.constructed] * 2 + [self.unary, self.part]
                if not self.plain and type.base != "bool":
                    makers += [self.stepped]
                if type == INT:
                    makers += [self.length]
        made = self.rng.choice(makers)(type)
        return made or self.written(type)

    def whole(self, type):
        """An expression that converts to a type."""
        if isinstance(type, Vec) and type.base == "uint" and self.chance(0.2):
            return self.value(Vec("int", type.size))
        return self.value(type)

    def written(self, type):
        """A literal, or a constructor over values."""
        if isinstance(type, Vec):
            if type.size == 1:
                return Expr(type, self.literal(type.base))
            parts = [self.literal(type.base) for _ in range(type.size)]
            return Expr(type, "%s(%s)" % (spelled(type), self.one(", ".join(parts), parts[0])))
        kinds = [type.of] * type.count if isinstance(type, Arr) else [of for _, of in type.members]
        head = spelled(type)
        if isinstance(type, Arr) and self.chance(0.3):
            head = head.replace("[%d]" % type.count, "[]", 1)
        return Expr(type, head + "(", *self.listed(kinds), ")")

    def listed(self, kinds):
        parts = []
        for kind in kinds:
            if parts:
                parts.append(", ")
            parts.append(self.whole(kind) if self.fuel > 0 else self.read(kind) or self.written(kind))
        return parts

    def read(self, type):
        return self.place(type) if self.chance(0.85) else self.written(type)

    def choice(self, type):
        test, sides = self.value(BOOL), [self.value(type), self.whole(type)]
        self.rng.shuffle(sides)
        return Expr(type, "(", test, " ? ", sides[0], " : ", sides[1], ")")

    def guarded(self, type):
        """An element by the word of a variable, where this is in bounds."""
        arrays = [v for v in self.variables() if v.reads and isinstance(v.type, Arr) and v.type.count and self.holds(v.type.of, type, False)]
        by = self.place(self.one(INT, UINT), writing=True)
        if not arrays or by is None or "++" in by.text() or "=" in by.text() or "--" in by.text() or "(" in by.text():
            return None
        var = self.rng.choice(arrays)
        found = self.down(Expr(var.type.of, var.name, "[", by.text(), "]"), type, False)
        test = Expr(BOOL, "(uint(", by, ") < %du" % var.type.count, self.one("", " && true"), ")")
        if type == BOOL and self.chance(0.6):
            return Expr(BOOL, "(", test, " && ", found, ")") if self.chance(0.5) else Expr(BOOL, "(!", test, " || ", found, ")")
        return Expr(type, "(", test, " ? ", found, " : ", self.value(type), ")")

    def comma(self, type):
        first = self.called(VOID) if self.chance(0.3) else None
        return Expr(type, "(", first or self.value(self.type()), ", ", self.value(type), ")")

    def constructed(self, type):
        if type.size == 1:
            return Expr(type, type.base + "(", self.value(Vec(self.one("int", "uint", "bool"), 1)), ")")
        pick = self.rng.random()
        if pick < 0.2:
            return Expr(type, spelled(type) + "(", self.value(Vec(self.one("int", "uint", "bool"), 1)), ")")
        if pick < 0.4:
            return Expr(type, spelled(type) + "(", self.value(Vec(self.one("int", "uint", "bool"), self.rng.randint(type.size, 4))), ")")
        kinds, left = [], type.size
        while left > 0:
            size = self.rng.randint(1, left) if kinds or left < 2 else self.rng.randint(1, left - 1)
            kinds.append(Vec(self.one(type.base, "int", "uint", "bool"), size))
            left -= size
        return Expr(type, spelled(type) + "(", *self.spaced([self.value(kind) for kind in kinds]), ")")

    def spaced(self, parts):
        return [piece for part in parts for piece in (", ", part)][1:]

    def unary(self, type):
        if type == BOOL:
            return Expr(type, "!", self.bracketed(type))
        return None if type.base == "bool" else Expr(type, "(" + self.one("-", "~", "+"), self.bracketed(type), ")")

    def bracketed(self, type):
        return Expr(type, "(", self.value(type), ")")

    def part(self, type):
        """A part of a value that no variable has."""
        kinds = [Vec(type.base, self.rng.randint(1, 4))] + [f.result for f in self.functions if f.result and self.may_call(f) and self.holds(f.result, type, False)]
        kind = self.rng.choice(kinds)
        made = Expr(kind, "(", self.value(kind), ")")
        if isinstance(kind, Vec):
            return self.swizzled(made, type, False, True)
        return self.down(made, type, False)

    def length(self, type):
        endless = [v for v in self.variables() if isinstance(v.type, Arr) and v.type.count is None]
        if endless and self.chance(0.5):
            return Expr(INT, self.rng.choice(endless).name + ".length()")
        kind = self.type()
        if isinstance(kind, (Struct,)) or kind.__class__ is Vec and kind.size == 1:
            return None
        return Expr(INT, "(", self.value(kind), ").length()")

    def operated(self, type):
        if type.base == "bool":
            return self.related(type)
        op = self.one("+", "-", "*", "/", "%", "&", "|", "^", "<<", ">>")
        left, right = type, type
        if op in ("<<", ">>"):
            right = Vec(self.one("int", "uint"), self.one(1, type.size))
        elif type.size > 1 and self.chance(0.4):
            left, right = self.one((type, Vec(type.base, 1)), (Vec(type.base, 1), type))
        if op not in ("<<", ">>") and type.base == "uint" and self.chance(0.2):
            left, right = self.one((Vec("int", left.size), right), (left, Vec("int", right.size)))
        return Expr(type, "(", *self.sides(op, self.value(left), self.value(right)), ")")

    def sides(self, op, left, right):
        """Two operands and their operator, so that the language does not leave open what comes, where it may not."""
        if self.plain or not self.chance(0.3):
            if op in ("<<", ">>"):
                return left, " %s (" % op, right, " & %s)" % self.fitting("31", right)
            if op in ("/", "%"):
                return "(", left, " & %s) %s ((" % (self.fitting("0x7fffffff", left), op), right, " & %s) + %s)" % (self.fitting("15", right), self.fitting("1", right))
        return left, " %s " % op, right

    def fitting(self, word, expr):
        return word + ("u" if expr.type.base == "uint" else "")

    def related(self, type):
        if type.size > 1:
            return self.built(type)
        pick = self.rng.random()
        if pick < 0.3:
            kind = self.one(INT, UINT)
            return Expr(type, "(", self.value(kind), self.one(" < ", " <= ", " > ", " >= "), self.whole(kind), ")")
        if pick < 0.6:
            kind = self.type()
            return Expr(type, "(", self.value(kind), self.one(" == ", " != "), self.value(kind), ")")
        return Expr(type, "(", self.value(BOOL), self.one(" && ", " || ", " ^^ "), self.value(BOOL), ")")

    def built(self, type):
        """A call of a built-in function."""
        base, size = type
        one = Vec(base, 1)
        ways = [("mix", type, type, Vec("bool", size))]
        if base != "bool":
            second = self.one(one, type)
            ways += [("min", type, second), ("max", type, second), ("clamp", type, second, second), ("bitfieldReverse", type)]
            ways += [("bitfieldExtract", type, INT, INT), ("bitfieldInsert", type, type, INT, INT)]
        if base == "int":
            kind = Vec(self.one("int", "uint"), size)
            ways += [("abs", type), ("sign", type), ("bitCount", kind), ("findLSB", kind), ("findMSB", kind)]
        if base == "bool" and size == 1:
            ways += [(self.one("any", "all"), Vec("bool", self.one(2, 3, 4)))] * 2
        elif base == "bool":
            kind, any_kind = Vec(self.one("int", "uint"), size), Vec(self.one("int", "uint", "bool"), size)
            ways += [("not", type), (self.one("lessThan", "lessThanEqual", "greaterThan", "greaterThanEqual"), kind, kind), (self.one("equal", "notEqual"), any_kind, any_kind)] * 2
        name, *kinds = self.rng.choice(ways)
        args = [self.value(kind) for kind in kinds]
        if name.startswith("bitfield") and len(kinds) > 1 and (self.plain or self.chance(0.8)):
            args[-2:] = [Expr(INT, "(", args[-2], ") & 15"), Expr(INT, "(", args[-1], ") & 15")]
        return Expr(type, name + "(", *self.spaced(args), ")")

    def stored(self, type):
        """An assignment as a value."""
        place = self.place(type, writing=True)
        if place is None:
            return None
        if isinstance(type, Vec) and type.base != "bool" and self.chance(0.4):
            return Expr(type, "(", *self.updated(place), ")")
        return Expr(type, "(", place, " = ", self.whole(type), ")")

    def updated(self, place):
        type = place.type
        op = self.one("+", "-", "*", "/", "%", "&", "|", "^", "<<", ">>")
        right = Vec(type.base, self.one(1, type.size))
        if op in ("<<", ">>"):
            right = Vec(self.one("int", "uint"), right.size)
        side = self.whole(right) if right.base == "uint" else self.value(right)
        if op in ("/", "%") and (self.plain or self.chance(0.7)):
            if self.plain and op == "%" and type.base == "int":
                op = "^"
            side = Expr(right, "((", side, " & %s) + %s)" % (self.fitting("15", side), self.fitting("1", side)))
        elif op in ("<<", ">>") and (self.plain or self.chance(0.7)):
            side = Expr(right, "(", side, " & %s)" % self.fitting("31", side))
        return place, " %s= " % op, side

    def stepped(self, type):
        place = self.place(type, writing=True)
        if place is None:
            return None
        op = self.one("++", "--")
        return Expr(type, "(" + op, place, ")") if self.chance(0.5) else Expr(type, "(", place, op + ")")

    # ---- calls

    def may_call(self, function):
        return function.pure or not self.pure and not self.plain

    def called(self, type):
        ways = [f for f in self.functions if f.result == type and self.may_call(f)]
        return self.call(self.rng.choice(ways)) if ways else None

    def call(self, function, rooted=None):
        args = []
        for way, kind in function.params:
            if way == "in":
                args.append(self.whole(kind))
                continue
            taken = kind
            if way == "out" and isinstance(kind, Vec) and kind.base == "int" and self.chance(0.15):
                taken = Vec("uint", kind.size)
            place = self.place(taken, writing=True, reading=way == "inout" or self.chance(0.9), rooted=rooted)
            if place is None:
                return None
            args.append(place)
        return Expr(function.result, function.name + "(", *self.spaced(args), ")")

    # ---- statements

    def body(self, count):
        self.scopes.append([])
        made = [stmt for _ in range(count) for stmt in self.statement()]
        self.scopes.pop()
        return made

    def top(self, type):
        """An expression that stands in a statement."""
        self.fuel = self.rng.randint(1, 4 * self.scale)
        return self.whole(type)

    def test(self):
        self.fuel = self.rng.randint(1, 3 * self.scale)
        return self.value(BOOL)

    def statement(self):
        self.fuel = 8
        pick = self.rng.random()
        nested = len(self.scopes) > 3 + self.scale
        if pick < 0.2:
            return self.local()
        if pick < 0.5 or nested:
            return self.assignment()
        if pick < 0.6:
            return self.call_statement()
        if pick < 0.72:
            parts = ["if (", self.test(), ") ", self.body(self.rng.randint(1, 2))]
            if self.chance(0.5):
                parts += [" else ", self.body(self.rng.randint(1, 2))]
            return [Stmt(*parts)]
        if pick < 0.84:
            return self.loop() if self.loops < 2 else self.assignment()
        if pick < 0.92:
            return self.switch()
        if pick < 0.94:
            return [Stmt(self.body(self.rng.randint(1, 2)))]
        return self.leave()

    def local(self):
        type, name = self.type(), self.name("v")
        constant = self.chance(0.15)
        head = ("const " if constant else "") + declared(type, name, self.rng)
        self.fuel = self.rng.randint(1, 4 * self.scale)
        if not constant and not self.plain and self.chance(0.15):
            made = Stmt(head + ";")
        elif not isinstance(type, Vec) and self.chance(0.4):
            made = Stmt(head + " = ", *self.braced(type), ";")
        else:
            made = Stmt(head + " = ", self.whole(type), ";")
        self.scopes[-1].append(Var(name, type, True, not constant, False))
        return [made]

    def braced(self, type):
        if isinstance(type, Vec):
            return [self.whole(type)]
        kinds = [type.of] * type.count if isinstance(type, Arr) else [of for _, of in type.members]
        parts = []
        for kind in kinds:
            parts += ([", "] if parts else []) + (self.braced(kind) if self.chance(0.6) else [self.whole(kind)])
        return ["{ "] + parts + [" }"]

    def assignment(self):
        self.fuel = self.rng.randint(2, 6 * self.scale)
        type = self.type()
        place = self.place(type, writing=True, reading=self.chance(0.9))
        if place is None:
            return self.local()
        if isinstance(type, Vec) and type.base != "bool" and self.chance(0.35) and self.readable(place):
            if self.chance(0.3):
                return [Stmt(*self.rng.choice([(place, "++;"), ("--", place, ";")]))]
            return [Stmt(*self.updated(place), ";")]
        return [Stmt(place, " = ", self.whole(type), ";")]

    def readable(self, place):
        while isinstance(place.parts[0], Expr):
            place = place.parts[0]
        return all(var.reads for var in self.variables() if var.name == place.parts[0])

    def call_statement(self):
        ways = [f for f in self.functions if not self.pure or f.pure]
        if not ways:
            return self.assignment()
        self.fuel = 8
        function = self.rng.choice(ways)
        made = self.call(function, rooted=[] if self.plain else None)
        if made is None:
            return self.assignment()
        if function.result is None or self.chance(0.2):
            return [Stmt(made, ";")]
        name = self.name("v")
        self.scopes[-1].append(Var(name, function.result, True, True, False))
        return [Stmt(declared(function.result, name, self.rng) + " = ", made, ";")]

    def loop(self):
        name, turns = self.name("i"), self.rng.randint(1, 3)
        self.loops += 1
        switches, self.switches = self.switches, 0
        counter = Var(name, INT, True, False, False)
        self.scopes.append([counter])
        kind = self.one("for", "for", "while", "do", "endless")
        more = [" && ", self.test()] if self.chance(0.3) else []
        if kind == "for":
            step = self.one("%s++", "++%s", "%s += 1") % name
            steps = [", ", self.stored(self.vec()) or Expr(INT, "0")] if not self.plain and self.chance(0.2) else []
            other = []
            if self.chance(0.2):
                second = self.name("i")
                other = [", %s = " % second, self.value(INT)]
                self.scopes[-1].append(Var(second, INT, True, True, False))
            made = [Stmt("for (int %s = 0" % name, *other, "; %s < %d" % (name, turns), *more, "; " + step, *steps, ") ", self.body(self.rng.randint(1, 4)))]
        elif kind == "while":
            made = [Stmt("int %s = 0;" % name), Stmt("while (%s++ < %d" % (name, turns), *more, ") ", self.body(self.rng.randint(1, 4)))]
        elif kind == "do":
            made = [Stmt("int %s = 0;" % name), Stmt("do ", self.body(self.rng.randint(1, 3)), " while (++%s < %d" % (name, turns), *more, ");")]
        else:
            stop = [Stmt("if (++%s > %d" % (name, turns), ") break;")]
            made = [Stmt("int %s = 0;" % name), Stmt(self.one("for (;;) ", "while (true) "), stop + self.body(self.rng.randint(1, 4)))]
        self.scopes.pop()
        self.loops, self.switches = self.loops - 1, switches
        return [Stmt(made)] if self.chance(0.2) else made

    def switch(self):
        kind, labels = self.one(INT, INT, UINT), self.rng.sample(range(-1, 6), self.rng.randint(1, 4))
        self.fuel = 5
        test = self.value(kind)
        if self.chance(0.7):
            test = Expr(kind, "(", test, ") & 3" + ("u" if kind == UINT else ""))
        default = self.rng.randrange(len(labels) + 1) if self.chance(0.6) else None
        if self.chance(0.05):
            return [Stmt("switch (", test, ") ", [])]
        self.switches += 1
        self.scopes.append([])
        arms = []
        for k, label in enumerate(labels):
            if k == default:
                arms.append(Stmt("default:"))
                arms += self.arm()
            arms.append(Stmt("case %d:" % label))
            if k + 1 < len(labels) and self.chance(0.15):
                continue
            arms += self.arm()
        if default == len(labels):
            arms.append(Stmt("default:"))
            arms += self.arm()
        self.scopes.pop()
        self.switches -= 1
        return [Stmt("switch (", test, ") ", arms)]

    def arm(self):
        """The statements behind a label; what they declare is known behind the next ones too, but in a plain program."""
        if self.plain:
            made = [Stmt(self.body(self.rng.randint(1, 2)))]
        else:
            made = [stmt for _ in range(self.rng.randint(1, 2)) for stmt in self.statement()]
        return made + [Stmt("break;")] if self.chance(0.6) else made

    def leave(self):
        """A statement that goes elsewhere, mostly where a condition holds."""
        ways = []
        if self.loops or self.switches:
            ways += ["break;"]
        if self.loops:
            ways += ["continue;"]
        ways += ["return"] if self.inside or self.chance(0.15) else []
        if self.stage == "frag":
            ways += ["discard;"] if self.chance(self.discards) else []
        if not ways:
            return self.assignment()
        way = self.rng.choice(ways)
        parts = [way]
        if way == "return":
            parts = ["return ", self.top(self.result), ";"] if self.result else ["return;"]
        if self.chance(0.9):
            return [Stmt("if (", self.test(), ") ", *parts)]
        return [Stmt(*parts)]

    # ---- declarations

    def function(self):
        result = self.type() if self.chance(0.8) else VOID
        params, scope, heads, first = [], [], [], []
        pure = self.chance(0.5)
        for _ in range(self.rng.randint(0, 4)):
            way = "in" if pure else self.one("in", "in", "out", "inout")
            kind, name = self.type(), self.name("p")
            constant = way == "in" and self.chance(0.2)
            heads.append(("const " if constant else "") + self.one("in ", "") * (way == "in") + (way + " ") * (way != "in") + declared(kind, name, self.rng))
            params.append((way, kind))
            scope.append(Var(name, kind, True, not constant, False))
            if way == "out" and self.plain:
                first.append(Stmt("%s = %s;" % (name, zero(kind))))
        name = self.name("f")
        saved = self.pure, self.result, self.inside, self.scopes
        self.pure, self.result, self.inside = pure, result, True
        self.scopes = [self.scopes[0], scope]
        body = first + self.body(self.rng.randint(1, 2 + self.scale))
        if result and (self.plain or self.chance(0.95)):
            body.append(Stmt("return ", self.top(result), ";"))
        self.pure, self.result, self.inside, self.scopes = saved
        self.program.units[0].append(Stmt("%s %s(%s) " % (spelled(result), name, ", ".join(heads)), body))
        self.defined.append(self.program.units[0][-1])
        self.functions.append(Fun(name, result, tuple(params), pure))

    def global_variable(self):
        type, name = self.type(), self.name("g")
        constant = self.chance(0.3)
        head = ("const " if constant else "") + declared(type, name, self.rng)
        if constant or self.plain or self.chance(0.5):
            scopes, self.scopes, self.functions, functions = self.scopes, [[]], [], self.functions
            plain, self.plain, self.fuel = self.plain, True, 0 if self.plain else self.rng.randint(0, 6)
            made = Stmt(head + " = ", self.written(type) if self.fuel <= 0 else self.value(type), ";")
            self.scopes, self.functions, self.plain = scopes, functions, plain
        else:
            made = Stmt(head + ";")
        self.program.units[0].append(made)
        self.scopes[0].append(Var(name, type, True, not constant, not constant))

    def words(self, count, places):
        out = b""
        for k in range(count):
            word = self.rng.randint(0, 1) if self.plain and 4 * k in places else self.word()
            out += word.to_bytes(4, "little")
        return out

    def moved(self, at, to):
        """A place for a member of this alignment that would stand at a place, further on, and what says so."""
        if self.chance(0.5):
            at = aligned(at + 4 * self.rng.randint(0, 9), to)
            return at, "layout(offset = %d) " % at
        more = self.one(4, 8, 16, 32)
        return aligned(at, max(to, more)), "layout(align = %d) " % more

    def block(self, binding):
        kind = self.one("buffer", "buffer", "readonly buffer", "writeonly buffer", "uniform", "push") if binding else "buffer"
        if kind == "push" and any(line.startswith("push") for line in self.program.lines):
            kind = "uniform"
        std140 = kind == "uniform" or kind != "push" and self.chance(0.3)
        members = [(self.name("b"), self.type(3)) for _ in range(self.rng.randint(1, 2 + self.scale))]
        if binding == 0:
            members += [(self.name("b"), kind_) for kind_ in (INT, UINT, BOOL, Vec("int", 4))]
        if "buffer" in kind and self.chance(0.3):
            members.append((self.name("b"), Arr(self.type(1), None)))
        instance = self.name("B") if self.chance(0.4) else ""
        heads, size, places = [], 0, set()
        for name, of in members:
            to, its = measured(of, std140)
            size, head = aligned(size, to), ""
            if self.chance(0.1):
                size, head = self.moved(size, to)
            places |= set(bools(of, std140, size))
            size += its
            heads.append(head + declared(of, name, self.rng) + ";")
        last = members[-1][1]
        if isinstance(last, Arr) and last.count is None:
            size += self.rng.randint(1, 3) * measured(Arr(last.of, 1), std140)[1]
        given = self.words(aligned(size, 16) // 4 + self.rng.randint(0, 3), places)
        set_ = self.one(0, 0, 1)
        if kind == "push":
            head, line = "layout(push_constant) uniform", "push push"
        else:
            head = "layout(set = %d, binding = %d%s) %s" % (set_, binding, ", std140" if std140 and kind != "uniform" else "", kind)
            line = "buffer %d %d block%d" % (set_, binding, binding)
        self.program.lines.append(line)
        self.program.files[line.split()[-1]] = given
        self.program.units[0].append(Stmt("%s %s { %s } %s;" % (head, self.name("K"), " ".join(heads), instance)))
        reads, writes = kind != "writeonly buffer", kind in ("buffer", "writeonly buffer")
        for name, of in members:
            self.scopes[0].append(Var(instance + "." + name if instance else name, of, reads, writes, True))

    def interfaces(self):
        taken = [k for k in range(6)]
        self.rng.shuffle(taken)
        for _ in range(self.rng.randint(0, 3)):
            kind, location, name = Vec(self.one("int", "uint"), self.one(1, 2, 3, 4)), taken.pop(), self.name("n")
            self.program.units[0].append(Stmt("layout(location = %d) %sin %s %s;" % (location, "flat " * (self.stage == "frag"), spelled(kind), name)))
            self.program.lines.append("in %d %s" % (location, " ".join("0x%x" % self.word() for _ in range(self.rng.randint(kind.size, 4)))))
            self.scopes[0].append(Var(name, kind, True, False, False))
        for location in range(self.rng.randint(0, 3)):
            kind, name = Vec(self.one("int", "uint"), self.one(1, 2, 3, 4)), self.name("o")
            self.program.units[0].append(Stmt("layout(location = %d) out %s %s;" % (location, spelled(kind), name)))
            self.scopes[0].append(Var(name, kind, True, True, True))
        if self.stage == "vert":
            self.program.lines += ["vertex %d" % self.rng.randint(0, 9), "instance %d" % self.rng.randint(-9, 9)]
            self.scopes[0] += [Var("gl_VertexIndex", INT, True, False, False), Var("gl_InstanceIndex", INT, True, False, False)]

    def invocation(self):
        unit = self.program.units[0]
        if self.plain:
            unit.append(Stmt("layout(local_size_x = 1) in;"))
            return
        size, groups = [self.rng.randint(1, 4) for _ in range(3)], [self.rng.randint(1, 4) for _ in range(3)]
        unit.append(Stmt("layout(local_size_x = %d, local_size_y = %d, local_size_z = %d) in;" % tuple(size)))
        for word, bounds in (("local", size), ("group", groups)):
            self.program.lines.append("%s %d %d %d" % ((word,) + tuple(self.rng.randrange(n) for n in bounds)))
        self.program.lines.append("groups %d %d %d" % tuple(groups))
        for name in ("gl_NumWorkGroups", "gl_WorkGroupID", "gl_LocalInvocationID", "gl_GlobalInvocationID", "gl_WorkGroupSize"):
            self.scopes[0].append(Var(name, Vec("uint", 3), True, False, False))
        self.scopes[0].append(Var("gl_LocalInvocationIndex", UINT, True, False, False))

    def divide(self):
        """Puts some functions in a second source; each source declares those of the other, and all else."""
        first, second = self.program.units[0], []
        for k, stmt in enumerate(first):
            second.append(stmt)
            if stmt in self.defined:
                declaration = Stmt(stmt.parts[0].rstrip() + ";")
                if self.chance(0.5):
                    first[k] = declaration
                else:
                    second[-1] = declaration
        self.program.units.append(second)

    def made(self):
        unit = self.program.units[0]
        unit.append(Stmt("#version 450"))
        if self.stage == "comp":
            self.invocation()
        else:
            self.interfaces()
        for _ in range(self.rng.randint(0, self.scale)):
            self.struct()
        for binding in range(self.rng.randint(1, 3)):
            self.block(binding)
        for _ in range(self.rng.randint(0, 1 + self.scale)):
            self.global_variable()
        for _ in range(self.rng.randint(0, 1 + self.scale)):
            self.function()
        if not self.plain and self.chance(0.2):
            self.divide()
        unit.append(Stmt("void main() ", self.body(self.rng.randint(2, 3 + self.scale))))
        if not self.plain and self.chance(0.8):
            self.program.lines.append("choice " + " ".join("0x%x" % self.word() for _ in range(self.rng.randint(1, 20))))
        return self.program


def program(seed, plain=False, stage=None):
    return Maker(seed, plain, stage).made()


if __name__ == "__main__":
    if len(sys.argv) not in (3, 4):
        sys.exit(__doc__)
    program(sys.argv[1], sys.argv[3:] == ["plain"]).write(sys.argv[2])
