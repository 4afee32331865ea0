"""Random accepted records, the same for the same seed; in version 2 they are those
of version 1, every second with other ids.

Usage: generate.py [--seed S] [--count N] [--limits | --divisions | --phis] [--version 2]   a record in hex per line
"""

import argparse
import random

from check import COUNTS, FIXED, check
from record import (BOOL, CHAR, FLOAT, INT, PHI, POINTER, Block, Function, Instr,
                    from_bytes, in_version, to_bytes, unsigned)

SMALL = [0, 0, 0, 1, 1, 1, 2, 2, -1]
INTS = [3, 7, -7, -2, 1 << 32, (1 << 62) + 1, (1 << 63) - 1, -(1 << 63), 1 - (1 << 63)]
EDGES = [-(1 << 63), -(1 << 63), -(1 << 63), -1, -1, -1, 1, 0, (1 << 63) - 1]
FLOATS = [0, 1 << 63, 0x3FF0000000000000, 0x3FF8000000000000, 0x7FF0000000000000,
          0x7FF8000000000000, 0xFFF8000000000001, 0x7FF0000000000001, 1]
CHARS = [0, 0x61, 0x7F, 0xD7FF, 0xE000, 0xFFFF, 0x10FFFF]
ODD_TEXTS = [".", "_", "_.", "__lvn0", "_lvn0", "x_lvn0", "_x_lvn", "_x_lvn0_", "lvn", "A.b_9",
             "x" * 32, "_" + "y" * 31]
IDS = [0, 1, 2, 3, 5, 9, 255, 256, 65536, 0xFFFFFFFF]
WIDE = 1 << 32  # the least id that version 1 has no room for
WIDE_IDS = [WIDE - 1, WIDE, WIDE * WIDE - 1, 1 << 63, WIDE + 1, 0xFF << 56, WIDE * WIDE - WIDE]

# Types a record's names are drawn from, and the codes it prefers.
INT_CODES = [0, 0, 0, 0, *range(1, 10), 1, 1, 3, 3, 3, 4, 13, 68]
BOOL_CODES = [0, 0, 0, 5, 6, 10, 11, 11, 12, 12, 13, 68]
COMPARISONS = [0, 1, 6, 6, 7, 7, 8, 8, 9, 9, 13, 13, 68]
PROFILES = [
    (5, [INT, INT, BOOL, INT, INT], INT_CODES),
    (3, [BOOL, BOOL, INT, BOOL, INT], BOOL_CODES),
    (2, [INT, BOOL, INT, BOOL, BOOL], COMPARISONS),
    (2, [FLOAT, BOOL, FLOAT, CHAR, INT, CHAR], [0, 0, *range(20, 37), 13, 68]),
    (3, [0x10, INT, 0x10, INT, 0x20, 0x20], [0, 0, 0, 13, 14, 14, 14, 37, 38, 38, 70, 71]),
    (1, [INT, 0xF3, 0xE3, 0xF3, 0xE3, INT], [0, 0, 13, 14, 14, 37, 38, 38, 70, 71, 20]),
    (1, [0x12, INT, FLOAT, FLOAT, 0x11, BOOL], [0, 0, 13, 14, 37, 38, 38, 70, 71, 21, 23]),
    (2, [INT, FLOAT, BOOL, FLOAT, INT], [0, 0, 0, 0, 1, 13, 20, 67, 68, 69]),
    (2, [INT, INT, CHAR, INT, INT], [0, 0, 0, 1, 13, 13, 13, 13, PHI, PHI, PHI, PHI, 68]),
    (3, [INT, BOOL, INT, FLOAT, CHAR, 0x10], sorted(COUNTS)),
]
DIVISIONS = [INT, INT, INT, BOOL, INT], [0, 0, 1, 2, 3, 4, 4, 4, 4, 4, 13, 13, 68]
PHIS = [INT, INT, FLOAT, INT, 0x12, INT, INT], [0, 0, 0, 0, *[13] * 6, *[PHI] * 7, 68]

EXCHANGED = {6: 7, 7: 6, 8: 9, 9: 8}  # the comparison with its arguments swapped


class Generator:
    def __init__(self, rng, small=SMALL):
        self.rng = rng
        self.small = small  # the ints that most literals are drawn from

    def literal(self, type_):
        """A literal kind and literal that fit a type, none for a pointer."""
        rng = self.rng
        if type_ == FLOAT and rng.random() < 0.6:
            return INT, unsigned(rng.choice(SMALL))
        if type_ == INT:
            few = self.small if rng.random() < 0.7 else INTS
            value = rng.choice(few) if rng.random() < 0.95 else rng.getrandbits(64)
            return INT, unsigned(value)
        if type_ == BOOL:
            return BOOL, rng.getrandbits(1)
        if type_ == FLOAT:
            return FLOAT, rng.choice(FLOATS + [rng.getrandbits(64)])
        if type_ == CHAR:
            return CHAR, rng.choice(CHARS + [rng.randrange(0xD800)])
        return None

    def of_type(self, type_, dest=False):
        """A name of a type. Arguments are often names that hold a constant,
        dests often others."""
        names = [n for n, (t, _) in enumerate(self.f.names) if t == type_]
        some = [n for n in names if (n in self.constant) != dest]
        if some and self.rng.random() < 0.5:
            names = some
        return self.rng.choice(names) if names else None

    def any_name(self, least=0):
        names = [n for n, (t, _) in enumerate(self.f.names) if t >= least]
        return self.rng.choice(names) if names else None

    def const(self, i):
        """The instruction with a dest and a literal that fits it, or None."""
        i.dest = self.any_name()
        fit = None if i.dest is None else self.literal(self.f.names[i.dest][0])
        if not fit:
            return None
        i.kind, i.literal = fit
        return i

    def phi(self, i):
        """The instruction with a dest, names of its type and a block for each, or None."""
        rng = self.rng
        i.dest = self.any_name()
        if i.dest is None:
            return None
        count = rng.randint(0, rng.choice([1, 2, 3, 8]))
        i.args = [self.of_type(self.f.names[i.dest][0]) for _ in range(count)]
        i.targets = [rng.randrange(self.nblocks) for _ in i.args]
        return i

    def instr(self, code):
        """An instruction of a code, or None where the names do not allow it."""
        rng, types = self.rng, [t for t, _ in self.f.names]
        i = Instr(rng.choice(IDS) if rng.random() < 0.2 else rng.randrange(64), code)
        if code == 0:
            return self.const(i)
        if code == PHI:
            return self.phi(i)
        if code in FIXED:
            args, dest = FIXED[code]
            i.args = [self.of_type(t) for t in args]
            i.dest = None if dest is None else self.of_type(dest, dest=True)
        elif code in (13, 14, 38):
            first = self.any_name(0 if code == 13 else POINTER)
            if first is None:
                return None
            i.args = [first] + [self.of_type(INT)] * (code == 14)
            i.dest = self.of_type(types[first] - (POINTER if code == 38 else 0), dest=True)
            if code == 13 and i.dest == first:
                return None
        elif code == 37:
            i.args, i.dest = [self.of_type(INT)], self.any_name(POINTER)
        elif code in (70, 71):
            first = self.any_name(POINTER)
            if first is None:
                return None
            i.args = [first] + [self.of_type(types[first] - POINTER)] * (code == 70)
        else:
            least, most = COUNTS[code]
            count = rng.randint(least, most if rng.random() < 0.2 else min(most, 3))
            i.args = [self.any_name() for _ in range(count)]
            i.dest = self.any_name() if code == 20 else None
            if code in (20, 67):
                i.callee = rng.choice([0, 1, 300, 65535])
        targets = {64: 1, 65: 2}.get(code, 0)
        i.targets = [rng.randrange(self.nblocks) for _ in range(targets)]
        missing = None in i.args or (code < 64 and i.dest is None)
        return None if missing else i

    def again(self, block):
        """An earlier instruction of the block, perhaps with its arguments
        swapped, a comparison then perhaps by the code that says the same, or
        for another dest of the same type."""
        old = self.rng.choice(block)
        i = Instr(self.rng.randrange(64), old.code, old.dest, old.kind, old.literal,
                  list(old.args), old.callee, list(old.targets))
        if i.code in (*range(1, 10), 11, 12) and self.rng.random() < 0.5:
            i.args.reverse()
            if i.code in EXCHANGED and self.rng.random() < 0.5:
                i.code = EXCHANGED[i.code]
        if i.dest is not None and self.rng.random() < 0.7:
            i.dest = self.of_type(self.f.names[i.dest][0])
        return i

    def some_instr(self, codes):
        for _ in range(12):
            code = self.rng.choice(codes)
            i = None if code in (64, 65, 66) else self.instr(code)
            if i:
                return i
        return None

    def block(self, size, codes, end):
        block, self.constant = [], set()
        first = self.rng.choice([0, 0, 1, 2, 2, 3])  # constants to begin with
        while len(block) < size:
            chance = self.rng.random()
            if block and chance < 0.2:
                i = self.again(block)
            elif block and chance < 0.23 and block[-1].dest is not None:
                dest = block[-1].dest
                i = Instr(self.rng.randrange(64), 13, dest, args=[dest])
            elif len(block) < first:
                i = self.some_instr([0])
            else:
                i = self.some_instr(codes)
            block += [i or self.instr(69)]
            if i and i.code == 0:
                self.constant.add(i.dest)
            elif i:
                self.constant.discard(i.dest)
        if end:
            i = self.instr(self.rng.choice([64, 65, 65, 66, 66]))
            block += [i or self.instr(64)]
        return Block(block)

    def name_list(self, types, count, nargs):
        rng = self.rng
        texts = list("abcdefghijklmnopqrstuvwxyz")
        rng.shuffle(texts)
        if rng.random() < 0.15:
            texts = rng.sample(ODD_TEXTS, 4) + texts
        texts = texts[:count] + ["n%d" % n for n in range(count - len(texts))]
        chosen = (types + [rng.choice(types) for _ in range(count)])[:count]
        rng.shuffle(chosen)
        self.f = Function(nargs, list(zip(chosen, texts)))

    def function(self):
        weights = [p[0] for p in PROFILES]
        return self.of_profile(*self.rng.choices(PROFILES, weights)[0][1:])

    def of_profile(self, types, codes):
        rng = self.rng
        count = rng.randint(3, 8) if rng.random() < 0.9 else rng.randint(0, 18)
        nargs = rng.randint(0, min(count, 3 if rng.random() < 0.8 else 16))
        if rng.random() < 0.01:
            count, nargs = rng.randint(16, 18), 16
        self.name_list(types, count, nargs)
        self.nblocks = rng.choices([0, 1, 2, 3, 4, 6], [1, 65, 25, 6, 2, 1])[0]
        most = [0, 11, 6, 4, 3, 3, 3][self.nblocks]
        for _ in range(self.nblocks):
            size = 0 if rng.random() < 0.05 else rng.randint(3, most)
            self.f.blocks.append(self.block(size, codes, rng.random() < 0.4))
        return self.f

    def limits(self):
        """Three records: n 256, B 64, N 256."""
        types = [INT, INT, BOOL, INT]
        self.nblocks = 1
        self.name_list(types, 4, 2)
        self.f.blocks = [self.block(255, [*range(1, 14), 13, 13, 68, 69, 0], True)]
        yield self.f
        self.nblocks = 64
        self.name_list(types, 4, 1)
        self.f.blocks = [self.block(n % 3, INT_CODES, n % 4 == 1) for n in range(64)]
        yield self.f
        self.nblocks = 1
        self.name_list(types, 256, 16)
        self.f.blocks = [self.block(24, INT_CODES, True)]
        last = Instr(7, 13, 255, args=[255])
        self.f.blocks[0].instrs.insert(0, last)
        yield self.f


def accepted(f):
    record = to_bytes(f)
    assert check(record) is None, (check(record), f)
    return record


def records(seed, count):
    g = Generator(random.Random(seed))
    for _ in range(count):
        yield accepted(g.function())


def divisions(seed, count):
    """Functions of divisions, mostly of and by the ints at the edges."""
    g = Generator(random.Random(seed), EDGES)
    for _ in range(count):
        yield accepted(g.of_profile(*DIVISIONS))


def phis(seed, count):
    """Functions of phis, mostly."""
    g = Generator(random.Random(seed))
    for _ in range(count):
        yield accepted(g.of_profile(*PHIS))


def limits(seed):
    for f in Generator(random.Random(seed)).limits():
        yield accepted(f)


def new_ids(f):
    """What each id becomes: in the order in which they come those above, then others above 2^32."""
    found = dict.fromkeys(i.id for b in f.blocks for i in b.instrs)
    return dict(zip(found, WIDE_IDS + [WIDE * (n + 1) + n for n in range(len(found))]))


def of_version(version, given):
    """Records of version 1, in version 2 if that is wanted."""
    for n, record in enumerate(given):
        f = from_bytes(record)
        ids = new_ids(f).get if n % 2 else lambda id_: id_
        yield record if version == 1 else accepted(in_version(f, 2, ids))


def main():
    p = argparse.ArgumentParser()
    p.add_argument("--seed", type=int, default=1)
    p.add_argument("--count", type=int, default=10)
    p.add_argument("--limits", action="store_true")
    p.add_argument("--divisions", action="store_true")
    p.add_argument("--phis", action="store_true")
    p.add_argument("--version", type=int, choices=[1, 2], default=1)
    a = p.parse_args()
    made = divisions if a.divisions else phis if a.phis else records
    for record in of_version(a.version, limits(a.seed) if a.limits else made(a.seed, a.count)):
        print(record.hex())


if __name__ == "__main__":
    main()
