"""Document 01's numbering as a program: check, then the rewriting.

Follows the steps of document 01 and Points 2, 4 and 5 of document 02, and shares no
code with the Rust. Value numbers are ints; a value is a tuple with a tag first.
"""

import sys
from collections import Counter

from check import check
from record import (BOOL, FLOAT, INT, PHI, VALUE, Block, Function, Instr,
                    from_bytes, signed, to_bytes, unsigned)

ADD, SUB, MUL, DIV, EQ, LT, GT, LE, GE, NOT, AND, OR, ID, PTRADD = range(1, 15)
COMMUTATIVE = (ADD, MUL, AND, OR, EQ)
LESS = {GT: LT, GE: LE}  # what they become with exchanged operands
LEAST = -(1 << 63)


def truncated(a, b):
    q = abs(a) // abs(b)
    return q if (a < 0) == (b < 0) else -q


FOLD = {
    ADD: lambda a, b: a + b,
    SUB: lambda a, b: a - b,
    MUL: lambda a, b: a * b,
    DIV: truncated,
    EQ: lambda a, b: a == b,
    LT: lambda a, b: a < b,
    GT: lambda a, b: a > b,
    LE: lambda a, b: a <= b,
    GE: lambda a, b: a >= b,
    AND: lambda a, b: a and b,
    OR: lambda a, b: a or b,
    NOT: lambda a: not a,
}


def known_value(v):
    """A Python bool or int as the value of a known constant."""
    if isinstance(v, bool):
        return ("bool", int(v))
    return ("int", signed(unsigned(v)))


class Model:
    """One function; counts in self.seen what the numbering did."""

    def __init__(self, function):
        self.f = function
        self.names = list(function.names)
        self.seen = Counter()
        self.panics = False  # a constant division was met on which the Rust panics

    def rewrite(self):
        blocks = [self.block(b) for b in self.f.blocks]
        return Function(self.f.nargs, self.names, blocks, self.f.version)

    def block(self, block):
        nargs = self.f.nargs
        self.number = {n: n for n in range(nargs)}  # of a name
        self.home = {n: n for n in range(nargs)}  # of a number
        self.values, self.known = {}, {}
        self.first = {}  # of a number, the code that made it and the saves until then
        self.next, self.news = nargs, 0
        self.out = Block()
        for i in block.instrs:
            self.instr(i)
        return self.out

    def fresh(self, name):
        number = self.next
        self.next += 1
        self.home[number] = name
        return number

    def instr(self, i):
        for a in i.args:
            if a not in self.number:
                self.number[a] = self.fresh(a)
        operands = [self.number[a] for a in i.args]
        replaced = Instr(i.id, i.code, i.dest, i.kind, i.literal,
                         [self.home[v] for v in operands], i.callee, i.targets)
        if replaced.args != i.args:
            self.seen["argument replaced"] += 1
        if i.dest is None:
            self.out.instrs.append(replaced)
            return
        value = self.simplify(self.form(i, operands))
        written = self.write(replaced, value)
        saves = self.out.saves
        if (written.code, written.args) == (ID, [i.dest]):
            self.seen["x = id x"] += 1
        else:
            self.save(i)
        number = value[1] if value[0] == ID else self.values.get(value)
        if number is None:
            number = self.values[value] = self.fresh(i.dest)
            self.first[number] = i.code, self.out.saves
            if value[0] in ("int", "bool"):
                self.known[number] = value
        elif number in self.known:
            self.seen["known number, const"] += 1
            written = self.write(replaced, self.known[number])
        else:
            self.seen["known number, id"] += 1
            self.found(i.code, number, saves)
            written = self.write(replaced, (ID, number))
        self.number[i.dest] = number
        self.out.instrs.append(written)
        if i.code == PHI:
            self.met(i, written, self.out.saves > saves)

    def met(self, i, written, saved):
        """Counts what a phi is an example of."""
        what = [(saved, "phi behind a save"), (i.dest in i.args, "phi of its own dest"),
                (written.args != i.args, "phi with an argument replaced")]
        self.seen.update(text for shown, text in what if shown)

    def found(self, code, number, saves):
        """Counts a comparison that shares its number with an earlier one."""
        if LT <= code <= GE:
            first, until = self.first[number]
            between = ", saves between" * (saves > until)
            self.seen["%s found as %s%s" % (VALUE[code], VALUE[first], between)] += 1

    def save(self, i):
        number = self.number.get(i.dest)
        if number is None or self.home[number] != i.dest:
            return
        type_, text = self.f.names[i.dest]
        made = len(self.names)
        self.names.append((type_, "_%s_lvn%d" % (text, made - len(self.f.names))))
        self.out.instrs.append(Instr(i.id, ID, made, args=[i.dest]))
        self.out.saves += 1
        self.home[number] = made
        self.seen["save"] += 1

    def form(self, i, operands):
        if i.code == 0 and i.kind == BOOL:
            return ("bool", i.literal)
        if i.code == 0 and i.kind == INT:
            of_float = self.f.names[i.dest][0] == FLOAT
            return ("int as float" if of_float else "int", signed(i.literal))
        if ADD <= i.code <= PTRADD:
            return (i.code, *operands)
        self.news += 1
        return ("new", self.news)

    def write(self, i, value):
        """The instruction of a value, with i's id and dest."""
        tag = value[0]
        if tag == "new":
            return i
        if tag in ("int", "int as float"):
            return Instr(i.id, 0, i.dest, INT, unsigned(value[1]))
        if tag == "bool":
            return Instr(i.id, 0, i.dest, BOOL, value[1])
        return Instr(i.id, tag, i.dest, args=[self.home[v] for v in value[1:]])

    def simplify(self, value):
        op = value[0]
        if op not in VALUE:
            return value
        what, value = self.simpler(op, value[1:])
        self.seen[what] += 1
        return value

    def simpler(self, op, operands):
        """What was done, and the value in place of op over operands."""
        text = VALUE[op]
        known = [self.known.get(v) for v in operands]
        if op == ID:
            if known[0]:
                return "id of a constant", known[0]
            return "id of an unknown", (ID, *operands)
        if op == EQ and operands[0] == operands[1]:
            return "eq of a number with itself", ("bool", 1)
        if all(known) and op != PTRADD:
            a = [v[1] for v in known]
            self.panics |= op == DIV and (a[1] == 0 or a == [LEAST, -1])
            if op == DIV and a[1] == 0:
                return "div by 0", (op, *operands)
            if op in (AND, OR, NOT):
                a = [bool(v) for v in a]
            folded = FOLD[op](*a)
            how = " folds"
            if op < EQ and not LEAST <= folded < -LEAST:
                how = " wraps"
            if op == DIV and folded != a[0] // a[1]:
                how = " folds a negative quotient, truncated"
            return text + how, known_value(folded)
        for side in (0, 1):
            if len(operands) == 2 and known[side]:
                at = "%d %s y" if side == 0 else "y %s %d"
                c, y = known[side][1], operands[1 - side]
                what = at % ((c, text) if side == 0 else (text, c))
                simple = self.identity(op, c, y, side)
                if simple:
                    return what, simple
        if op in COMMUTATIVE and operands[1] < operands[0]:
            return text + " sorted", (op, operands[1], operands[0])
        if op in LESS:
            how = ", one known" * any(known) or ", with itself" * (operands[0] == operands[1])
            return text + " exchanged" + how, (LESS[op], operands[1], operands[0])
        return text + " stays", (op, *operands)

    @staticmethod
    def identity(op, c, y, side):
        """Document 01's identity for the constant c on a side, y the other."""
        if op == ADD and c == 0:
            return (ID, y)
        if op == MUL and c in (0, 1, 2):
            return [("int", 0), (ID, y), (ADD, y, y)][c]
        if op == AND:
            return (ID, y) if c else ("bool", 0)
        if op == OR:
            return ("bool", 1) if c else (ID, y)
        if op == PTRADD and side == 1 and c == 0:
            return (ID, y)
        return None


def rewrite(data):
    """The rewriting of a record, or the text of its refusal."""
    refusal = check(data)
    if refusal:
        return "refused %d at %d" % refusal
    return to_bytes(Model(from_bytes(data)).rewrite())


if __name__ == "__main__":
    for line in sys.stdin:
        words = line.split()
        out = rewrite(bytes.fromhex(words[-1]))
        print(*words, out if isinstance(out, str) else out.hex())
