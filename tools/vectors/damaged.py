"""Damaged records with the refusal of each, for check to be held to.

The two records of version 1 have every operation; those of version 2 are small,
with every shape of an instruction, and ids on each side of 2^32. damages.py has
the damages.

    python3 tools/vectors/damaged.py > crates/replay_check/stdin

Each line: the record in hex, the refusal's number and offset; 0 0 if accepted.
"""

import sys

from check import check
from damages import (Record, cuts, field_damages, fields_of, first_damages, id_cuts, more_damages, text_damages, type_damages,
                     with_length)
from record import ID_BYTES, INT, from_text

FUNCTION = """arg a int
arg b int
arg p ptr<int>
name x int
name c bool
name f float
name h char
name q ptr<ptr<int>>
block
1 x = const int 7
2 c = const bool 1
3 f = const float 3ff0000000000000
4 h = const char 97
5 f = const int 3
6 x = add a b
7 c = lt a x
8 c = not c
9 x = id a
10 p = ptradd p a
11 x = call @9 a c
12 f = fadd f f
13 c = feq f f
14 c = ceq h h
15 x = char2int h
16 h = int2char x
17 q = alloc x
18 x = load p
19 call @4 x
20 print a b c
21 nop
22 store p x
23 free p
24 br c .0 .1
block
25 jmp .2
block
block
26 ret x
"""

# A record of phis; its indexes of names go beyond those of its blocks.
PHIS = """arg a int
arg b int
name x int
name c bool
name p ptr<int>
name q ptr<int>
block
1 x = phi a b .2 .0
2 x = phi
3 c = phi c .1
4 q = phi p q .0 .1
5 x = phi a b x a b x a b .0 .1 .2 .0 .1 .2 .0 .1
block
6 jmp .2
block
7 x = phi x x .0 .2
"""


# Records of version 2: between them every shape of what follows a code.
WIDE = ["""arg x int
name c bool
block
4294967295 c = const bool 1
4294967296 x = add x x
""", """arg h char
block
7 h = call @9 h
18446744073709551615 h = const char 97
""", """arg a int
block
4294967296 nop
4294967297 print a
block
9223372036854775808 jmp .1
""", """arg x int
block
18446744073709551615 x = phi x .0
0 call @4 x
""", """arg c bool
block
4294967296 c = not c
4294967296 br c .0 .0
""", """arg p ptr<int>
name x int
block
1 store p x
block
18446744069414584320 ret x
"""]


def renamed(text, version):
    """One name of another text, and whether document 01 lets it pass."""
    return with_length(bytes([version, 0, 0, 1, INT, len(text)]) + text.encode() + bytes(2))


TEXTS = [("_x_lvn0", False), ("___lvn0", False), ("_x_lvn00", False), ("_lvn0_lvn0", False), ("_a_lvn_lvn7", False),
         ("__lvn0", True), ("_lvn0", True), ("x_lvn0", True), ("_x_lvn", True), ("_x_lvn0a", True), (".", True), ("_", True),
         ("9", False), ("a9", True), ("a b", False), ("x" * 32, True), ("_" + "x" * 26 + "_lvn0", False)]


def phi_damages(f):
    """The blocks of a record of phis, damaged in each of these ways."""
    r, types = Record(fields_of(f)), [t for t, _ in f.names]
    first = next(at for at, field in zip(r.offsets, r.fields) if field[0] == "n")
    yield r.bytes(), (0, 0)
    for damages in (cuts(r), field_damages(r, len(f.names), len(f.blocks)), more_damages(r), type_damages(r, types)):
        yield from (d for d in damages if d[1] == (0, 0) or d[1][1] >= first)
    yield from two_damages(r)


def two_damages(r):
    """Two at a time: that of the field that is read first is refused, and types behind all fields."""
    order = [r.of(1, "dest"), r.of(1, "count"), r.of(1, "argument", 0), r.of(1, "argument", 1), r.of(1, "block", 0),
             r.of(1, "block", 1), r.of(3, "dest"), r.of(7, "block", 1)]
    for k, later in zip(order, order[1:]):
        yield r.changed(k, 200).changed(later, 200).bytes(), (3 if r.fields[k][0] == "count" else 6, r.offsets[k])
    wrong = r.changed(r.of(1, "argument", 1), r.fields[r.of(3, "dest")][1])
    yield wrong.changed(r.of(4, "dest"), 0).bytes(), (7, r.start_of(r.of(1, "dest")))
    yield wrong.changed(order[-1], 200).bytes(), (6, r.offsets[order[-1]])


def wide_damages(text, whole):
    """A record of version 2, damaged in each of these ways; unless it is wanted whole, at its blocks alone."""
    f = from_text("version 2\n" + text)
    r, types = Record(fields_of(f)), [t for t, _ in f.names]
    first = next(at for at, field in zip(r.offsets, r.fields) if field[0] == "n")
    if whole:
        yield from first_damages(r)
        yield from text_damages(r)
    yield r.bytes(), (0, 0)
    fields = field_damages(r, len(f.names), len(f.blocks), 60 if whole else 0)
    for damages in (cuts(r), id_cuts(r), fields, more_damages(r), type_damages(r, types)):
        yield from (d for d in damages if len(d[0]) < 200 and (whole or d[1] == (0, 0) or d[1][1] >= first))


# C1 with the version byte of the other version, and what is found where the widths do not fit
C1 = "00 0003 000161 000162 000178 0001 0002 0000"
OTHER_VERSION = [
    ("02 02" + C1[2:] + "00000007 01 0002 02 0000 0001 00000008 01 0002 02 0001 0000", (3, 35)),  # a bool literal of 00000008 01000202
    ("01 02" + C1[2:] + "0000000000000007 01 0002 02 0000 0001 0000000000000008 01 0002 02 0001 0000", (3, 30)),  # const, literal kind 07
]


def of_version_2():
    yield from dict.fromkeys(d for text in WIDE for d in wide_damages(text, text == WIDE[0]))
    for text, refusal in OTHER_VERSION:
        yield with_length(bytes.fromhex(text)), refusal
    yield next(accepted(2))


def accepted(version):
    yield with_length(bytes([version]) + bytes(5)), (0, 0)
    names = b"".join(bytes([0, 32]) + b"n%03d" % i + b"x" * 28 for i in range(256))
    nop = (9).to_bytes(ID_BYTES[version], "big") + bytes([69, 0])
    block = (256).to_bytes(2, "big") + bytes(2) + nop * 256
    yield with_length(bytes([version, 16, 1, 0]) + names + bytes([0, 1]) + block), (0, 0)
    empty = bytes(4)
    yield with_length(bytes([version, 0, 0, 0, 0, 64]) + empty * 64), (0, 0)


def of_all_operations(version):
    """The two records with every operation, in a version, damaged."""
    f, phis = (from_text("version %d\n" % version + text) for text in (FUNCTION, PHIS))
    r = Record(fields_of(f))
    types = [t for t, _ in f.names]
    yield r.bytes(), (0, 0)
    yield from first_damages(r)
    yield from cuts(r)
    yield from field_damages(r, len(f.names), len(f.blocks))
    yield from text_damages(r)
    for text, passes in TEXTS:
        yield renamed(text, version), (0, 0) if passes else (4, 10)
    yield from more_damages(r)
    yield from type_damages(r, types)
    yield from accepted(version)
    yield from phi_damages(phis)


def cases():
    """Those of the list, in which there is no room for all of version 2."""
    yield from of_all_operations(1)
    yield from of_version_2()


def main():
    listed, wrong = list(cases()), 0
    for record, (number, offset) in listed:
        print(record.hex(), number, offset)
    for record, (number, offset) in listed + list(of_all_operations(2)):
        answer = check(record) or (0, 0)
        if tuple(answer) != (number, offset):
            wrong += 1
            print(record.hex(), "by damage", (number, offset), "by check.py", answer, file=sys.stderr)
    print("%d cases, %d differ from check.py" % (len(listed), wrong), file=sys.stderr)
    sys.exit(wrong != 0)


if __name__ == "__main__":
    main()
