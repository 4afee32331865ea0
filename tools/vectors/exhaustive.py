"""Small accepted records, all of a kind, in a fixed order."""

from itertools import product

from record import BOOL, INT, PHI, POINTER, Block, Function, Instr, to_bytes, unsigned

INTS = [0, 1, 2, 3, -1, 7, -7, (1 << 63) - 1, -(1 << 63)]
A, B, C, U, V, R = range(6)


def operations():
    """Codes 1 to 14 with each operand an argument or a constant, into a new
    name and over an operand, then once more into the new name. Arguments are
    a, b, c; constants are set into u and v; r is the new name."""
    for code in range(1, 15):
        of = BOOL if code in (10, 11, 12) else INT
        to = BOOL if 5 <= code <= 12 else INT
        types = [of, of, of, of, of, to]
        literals = [(of, unsigned(v)) for v in ((0, 1) if of == BOOL else INTS)]
        first = second = [A, B] + literals
        if code == 14:
            types = [POINTER, POINTER, INT, INT, INT, POINTER]
            first, second = [A, B], [C] + literals
        if code in (10, 13):
            second = [None]
        for operands in product(first, second):
            yield from with_operands(code, list(zip(types, "abcuvr")), operands)


def with_operands(code, names, operands):
    sets, args = [], []
    for operand, name in zip(operands, (U, V)):
        if isinstance(operand, tuple):
            sets.append(Instr(name, 0, name, *operand))
            operand = name
        if operand is not None:
            args.append(operand)
    for dest in sorted({R, *args}):
        if names[dest][0] == names[R][0]:
            instrs = [Instr(8, code, dest, args=args), Instr(9, code, R, args=args),
                      Instr(10, 68, args=args + [R])]
            yield to_bytes(Function(3, names, [Block(sets + instrs)]))


def short_blocks():
    """Every block of one, two and three instructions over an int argument a
    and ints x, y, with const 0 and 2, id, add, print."""
    names = [(INT, "a"), (INT, "x"), (INT, "y")]
    three = range(3)
    instrs = [Instr(7, 0, d, INT, v) for d in three for v in (0, 2)]
    instrs += [Instr(7, 13, d, args=[a]) for d in three for a in three]
    instrs += [Instr(7, 1, d, args=[a, b]) for d in three for a in three for b in three]
    instrs += [Instr(7, 68, args=[a]) for a in three]
    for size in (1, 2, 3):
        for block in product(instrs, repeat=size):
            yield to_bytes(Function(1, names, [Block(list(block))]))


def comparisons():
    """Every block of one, two and three instructions over int arguments a and b
    and bools p and q: lt, gt, le and ge into p and q with every pair of a and
    b, const 0 and 1 into a, const 1 into b, and id of each into the other."""
    names = [(INT, "a"), (INT, "b"), (BOOL, "p"), (BOOL, "q")]
    ints = (0, 1)
    instrs = [Instr(7, c, d, args=[a, b]) for c in range(6, 10) for d in (2, 3)
              for a in ints for b in ints]
    instrs += [Instr(7, 0, d, INT, v) for d, v in ((0, 0), (0, 1), (1, 1))]
    instrs += [Instr(7, 13, d, args=[1 - d]) for d in ints]
    for size in (1, 2, 3):
        for block in product(instrs, repeat=size):
            yield to_bytes(Function(2, names, [Block(list(block))]))


def phis():
    """Every function of two blocks with three instructions in all, over an int
    argument a and an int x: phi of none, of one and of two, const 1, id of each
    into the other, both printed."""
    names = [(INT, "a"), (INT, "x")]
    two = (0, 1)
    instrs = [Instr(7, PHI, d) for d in two]
    instrs += [Instr(7, PHI, d, args=[a], targets=[1 - d]) for d in two for a in two]
    instrs += [Instr(7, PHI, d, args=[a, b], targets=[0, 1]) for d in two for a in two for b in two]
    instrs += [Instr(7, 0, d, INT, 1) for d in two]
    instrs += [Instr(7, 13, d, args=[1 - d]) for d in two] + [Instr(7, 68, args=[0, 1])]
    for block in product(instrs, repeat=3):
        for first in range(4):
            yield to_bytes(Function(1, names, [Block(list(block[:first])), Block(list(block[first:]))]))
