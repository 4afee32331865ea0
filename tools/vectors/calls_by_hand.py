"""Calls of the engine made by hand: for each a label, what it is given, and what
document 02's Point 6 says that comes of it: the number; for 0 how the run ended
and after how many steps.
"""

import struct

from record import BOOL, CHAR, FLOAT, INT, from_text, to_bytes, unsigned
from running import (DIVISION, END, GO_ON, HALT, HALTED, HELD, LIMIT, NOTHING, RET, UNSET, answers_bytes, framed,
                     store_bytes, value_bytes)

FOREVER = (1 << 64) - 1
LEAST, GREATEST = -(1 << 63), (1 << 63) - 1
ONE = 0x3FF0000000000000


def i(n):
    return INT, unsigned(n)


def b(n):
    return BOOL, n


def f(bits):
    return FLOAT, bits


def c(scalar):
    return CHAR, scalar


def h(n):
    return HELD, unsigned(n)


def p(type_, base, offset):
    return type_, base, unsigned(offset)


def call(text, store, answers, limit):
    """What the engine is given; store and answers may be bytes already."""
    record = to_bytes(from_text(text)) if isinstance(text, str) else text
    if not isinstance(store, bytes):
        store = store_bytes(store)
    if not isinstance(answers, bytes):
        answers = answers_bytes(answers)
    return record, store, answers, limit


def done(what, text, store, answers, limit, ended, steps):
    return what, call(text, store, answers, limit), 0, ended, steps


def refused(what, text, store, answers, limit, number=13):
    return what, call(text, store, answers, limit), number, None, None


# ---- the codes that the machine does itself

INTS = "arg a int\narg b int\nname x int\nname c bool\nblock\n9 "
PAIRS = [(7, -2), (-7, 2), (LEAST, -1), (GREATEST, 1), (LEAST, LEAST)]


def operations():
    for op in ("add", "sub", "mul", "div"):
        for one, two in PAIRS:
            yield done(op, INTS + "x = %s a b\n" % op, [i(one), i(two), None, None], [], 1, END, 1)
    for op in ("eq", "lt", "gt", "le", "ge"):
        for one, two in [(2, 2), (-1, 1), (1, -1), (LEAST, GREATEST)]:
            yield done(op, INTS + "c = %s a b\n" % op, [i(one), i(two), None, None], [], 5, END, 1)
    bools = "arg a bool\narg b bool\nblock\n9 "
    for op in ("and", "or"):
        for one, two in [(0, 0), (0, 1), (1, 0), (1, 1)]:
            yield done(op, bools + "b = %s a b\n" % op, [b(one), b(two)], [], 5, END, 1)
    for one in (0, 1):
        yield done("not", bools + "b = not a\n", [b(one), None], [], 5, END, 1)
    pointers = "arg p ptr<float>\narg n int\nname q ptr<float>\nblock\n9 q = ptradd p n\n"
    for offset, n in [(0, 0), (8, -1), (-1, 1), (GREATEST, 1)]:
        yield done("ptradd", pointers, [p(0x12, 5, offset), i(n), None], [], 1, END, 1)
    for kind, value in [("int", i(-5)), ("bool", b(1)), ("float", f(ONE)), ("float", h(3)), ("char", c(0x61)),
                        ("ptr<ptr<char>>", p(0x23, FOREVER, FOREVER))]:
        yield done("id", "arg a %s\nname x %s\nblock\n3 x = id a\n" % (kind, kind), [value, None], [], 1, END, 1)


def constants():
    for kind, literal in [("int", "-9223372036854775808"), ("bool", "1"), ("bool", "0"), ("float", "7ff8000000000001"),
                          ("char", "1114111"), ("char", "55295")]:
        yield done("const", "name x %s\nblock\n3 x = const %s %s\n" % (kind, kind, literal), [None], [], 1, END, 1)
    held = "name x float\nname y float\nblock\n3 x = const int -2\n4 y = id x\n5 print x y\n"
    yield done("04 of a const, by id, in an event", held, [None, f(ONE)], [GO_ON], 9, END, 3)


# ---- events and answers

VALUES = {
    "call @7 a p": i(3), "fadd f g": f(ONE), "fsub f g": h(2), "fmul g f": f(1 << 63), "fdiv f f": f(0x7FF8000000000000),
    "feq f g": b(1), "flt f g": b(0), "fgt f g": b(1), "fle f g": b(0), "fge f g": b(1), "ceq k k": b(1), "clt k k": b(0),
    "cgt k k": b(0), "cle k k": b(1), "cge k k": b(1), "char2int k": i(97), "int2char a": c(0x10FFFF),
    "alloc a": p(0x10, 9, 0), "load p": i(-1), "phi a a .0 .0": i(8), "phi": h(5), "call @65535": p(0xF3, 1, 2),
}
NAMES = "arg a int\narg p ptr<int>\narg f float\narg g float\narg k char\nname x %s\n"
TYPED = {INT: "int", BOOL: "bool", FLOAT: "float", CHAR: "char", HELD: "float", 0x10: "ptr<int>",
         0xF3: "ptr<" * 15 + "char" + ">" * 15}
SET = [i(5), p(0x10, 2, 3), f(ONE), h(-4), c(0x62)]
WRONG = {INT: h(1), BOOL: i(1), FLOAT: i(1), CHAR: i(97), HELD: i(5), 0x10: p(0x11, 9, 0), 0xF3: p(0xE3, 1, 2)}
EFFECTS = ["call @3 a f", "print", "print g k p", "store p a", "free p"]


def answered():
    for op, value in VALUES.items():
        text = NAMES % TYPED[value[0]] + "block\n4294967295 x = %s\n" % op
        yield done(op, text, [*SET, None], [value], 1, END, 1)
        yield refused("another type", text, [*SET, None], [WRONG[value[0]]], 1)
        yield done("that answer is not reached", text, [*SET, None], [WRONG[value[0]]], 0, LIMIT, 0)
    for op in EFFECTS:
        text = NAMES % "int" + "block\n258 %s\n259 nop\n" % op
        yield done(op, text, [*SET, None], [GO_ON], 9, END, 2)
        yield refused("a value for an effect", text, [*SET, None], [i(5)], 1)
        yield done("halt", text, [*SET, None], [HALT, i(5)], 9, HALTED, 1)
    text = NAMES % "int" + "block\n1 x = load p\n2 nop\n"
    yield refused("go on for a value", text, [*SET, None], [GO_ON], 1)
    yield done("halt for a value", text, [*SET, None], [HALT], 9, HALTED, 1)
    yield done("no answer left", text, [*SET, i(1)], [], 1, HALTED, 1)


SEVERAL = "arg n int\nname x int\nblock\n1 x = call @1 n\n2 nop\n3 print x\n4 n = call @2 x n\nblock\n5 ret n\n"
FIT = [i(6), GO_ON, i(-6)]


def at_the_limit():
    """The first, second and third answer unfit: taken by steps 1, 3 and 4."""
    for place, step in enumerate((1, 3, 4)):
        for bad in (b(1), h(6), i(6) if place == 1 else GO_ON):
            answers = FIT[:place] + [bad] + FIT[place + 1:]
            yield refused("unfit, at the last allowed step", SEVERAL, [i(1), None], answers, step)
            yield done("unfit, one step later", SEVERAL, [i(1), None], answers, step - 1, LIMIT, step - 1)
    for limit in range(5):
        yield done("a limit", SEVERAL, [i(1), None], FIT, limit, LIMIT, limit)
    for limit in (5, 6, 1 << 63, FOREVER):
        yield done("no limit", SEVERAL, [i(1), None], FIT + [GO_ON], limit, RET, 5)
    for count, step in enumerate((1, 3, 4)):
        yield done("too few answers", SEVERAL, [i(1), None], FIT[:count], FOREVER, HALTED, step)
        yield done("too few, at the limit", SEVERAL, [i(1), None], FIT[:count], step, HALTED, step)


# ---- where a run goes and how it stops

def ends():
    names = "name x int\n"
    for what, text in [("no block", ""), ("an empty block", "block\n"), ("64 empty blocks", "block\n" * 64)]:
        for limit in (0, 1, FOREVER):
            yield done(what, names + text, [None], [GO_ON], limit, END, 0)
    for what, text, steps in [("nop", "block\n1 nop\n", 1), ("nop among empty blocks", "block\nblock\n1 nop\nblock\nblock\n", 1),
                              ("jmp to the last, empty", "block\n1 jmp .2\nblock\n2 nop\nblock\n", 1),
                              ("jmp over one", "block\n1 jmp .2\nblock\n2 nop\nblock\n3 nop\n", 2)]:
        for limit in (steps - 1, steps, FOREVER):
            over = limit >= steps
            yield done(what, names + text, [i(1)], [], limit, END if over else LIMIT, steps if over else limit)
    for limit in (0, 1, 1000):
        yield done("a circle", names + "block\nblock\n7 jmp .0\n", [None], [], limit, LIMIT, limit)
        yield done("a circle in one block", names + "block\n6 nop\n7 jmp .0\n", [None], [], limit, LIMIT, limit)
    branch = "arg c bool\nblock\n1 br c .2 .1\nblock\n2 ret\nblock\n3 nop\n4 ret c\n"
    yield done("br, true", branch, [b(1)], [], 9, RET, 3)
    yield done("br, false", branch, [b(0)], [], 9, RET, 2)
    yield done("br, at the limit", branch, [b(1)], [], 1, LIMIT, 1)
    yield done("br, both to one", "arg c bool\nblock\n1 br c .1 .1\nblock\n2 ret c\n", [b(0)], [], 9, RET, 2)
    for value in (i(7), f(ONE), h(-1), c(0), b(1), p(0x10, 0, 0)):
        text = "arg x %s\nblock\n300 ret x\nblock\n2 nop\n" % TYPED[value[0]]
        yield done("ret", text, [value], [HALT], 9, RET, 1)


UNSET_READS = ["x = add a u", "x = add u a", "x = div u a", "c = lt u u", "d = not c", "x = id u", "q = ptradd q a", "x = call @1 a u",
               "x = load q", "x = phi a u .0 .0", "call @2 u a", "print a a u", "store q a", "br c .0 .0", "ret u"]


def unset():
    names = "arg a int\nname u int\nname x int\nname c bool\nname d bool\nname q ptr<int>\nblock\n"
    for text in UNSET_READS:
        yield done(text, names + "1 nop\n2 %s\n" % text, [i(0), None, i(1), None, b(0), None], [b(1)], 9, UNSET, 2)
    yield done("an argument that is not set", names + "2 print a\n", [None] * 6, [], 9, UNSET, 1)
    yield done("unset, not reached", names + "1 nop\n2 print u\n", [i(0)] + [None] * 5, [], 1, LIMIT, 1)
    yield done("unset before a zero", names + "1 x = div u a\n", [i(0)] + [None] * 5, [], 1, UNSET, 1)
    yield done("a name that is set may be copied", names + "1 x = id u\n2 print x\n", [i(0), i(3)] + [None] * 4, [GO_ON], 9, END, 2)


def divisions():
    for id_ in (0, 9, 1 << 31, (1 << 32) - 1):
        text = "arg a int\narg z int\nblock\n1 nop\n%d a = div a z\n2 print a\n" % id_
        yield done("by zero", text, [i(7), i(0)], [GO_ON], FOREVER, DIVISION, 2)
        yield done("by zero, at the limit", text, [i(0), i(0)], [GO_ON], 2, DIVISION, 2)
    text = "arg a int\narg z int\nblock\n1 a = div a z\n2 z = div a z\n3 ret z\n"
    yield done("of the least by -1", text, [i(LEAST), i(-1)], [], 9, RET, 3)


SUM = """arg n int
arg one int
arg s int
name i int
name c bool
block
1 i = sub one one
block
2 i = add i one
3 s = add s i
4 c = lt i n
5 br c .1 .2
block
6 ret s
"""
DOWN = """arg n int
name one int
name z int
name c bool
block
1 one = const int 1
2 z = const int 0
3 jmp .2
block
4 print n c
5 n = call @9 n
block
6 c = gt n z
7 br c .1 .3
block
8 call @10
"""
EVENTS = """arg n int
arg o int
arg c bool
arg p ptr<bool>
arg q ptr<ptr<ptr<float>>>
block
1 print p q p q p q p q
2 n = sub n o
3 c = ge n o
4 br c .0 .1
block
"""
WALK = """arg p ptr<int>
arg o int
name x int
name c bool
block
1 x = load p
2 p = ptradd p o
3 c = eq x o
4 br c .1 .0
block
5 free p
6 ret x
"""
TAKES = """arg p ptr<char>
name c bool
block
1 p = phi p .0
2 c = call @1 p
3 br c .0 .1
block
"""


def loops():
    for n, limit in [(50, FOREVER), (50, 202), (50, 201), (50, 101), (200, 802)]:
        steps = 4 * n + 2
        over = limit >= steps
        yield done("a sum", SUM, [i(n), i(1), i(0), None, None], [], limit, RET if over else LIMIT, steps if over else limit)
    counted = [x for n in (4, 3, 2, 1) for x in (GO_ON, i(n - 1))]
    yield done("prints going down", DOWN, [i(4), None, None, b(1)], counted + [GO_ON], FOREVER, END, 3 + 4 * 4 + 2 + 1)
    yield done("halt in a loop", DOWN, [i(4), None, None, b(1)], counted[:5] + [HALT, GO_ON], 99, HALTED, 3 + 2 * 4 + 4)
    yield refused("unfit in a loop", DOWN, [i(4), None, None, b(1)], counted[:5] + [c(5)], 15)
    yield done("unfit behind a loop", DOWN, [i(4), None, None, b(1)], counted[:5] + [c(5)], 14, LIMIT, 14)
    pair = [p(0x11, 1, 2), p(0x32, 3, -4)]
    for n, limit in [(112, 4 * 112), (112, 4 * 112 - 1), (3, 5)]:
        ended = (END, 4 * n) if limit == 4 * n else (LIMIT, limit)
        yield done("many events", EVENTS, [i(n), i(1), b(0), *pair], [GO_ON] * n, limit, *ended)
    seen = [i(x) for x in (5, 0, -1, 7, 1)] + [GO_ON]
    yield done("a walk", WALK, [p(0x10, 64, 0), i(1), None, None], seen, 1000, RET, 22)
    taken = [x for n in range(150) for x in (p(0x13, n, -n), b(n < 149))]
    yield done("many answers", TAKES, [p(0x13, 0, 0), None], taken, 1000, END, 450)


def wide():
    """Eight arguments, sixteen arguments of the function, stores and records as long as they get here."""
    names = "".join("arg a%d %s\n" % (n, TYPED[t]) for n, t in enumerate([INT, 0x10, FLOAT, CHAR] * 4))
    store = [i(1), p(0x10, 2, 3), h(4), c(5), i(6), p(0x10, 7, 8), f(9), c(10)] * 2
    first, last = (" ".join("a%d" % n for n in range(k, k + 8)) for k in (0, 8))
    phi = "a0 a4 a8 a12 a0 a4 a8 a12" + " .0" * 8
    text = names + "block\n1 a0 = call @258 %s\n2 call @513 %s\n3 print %s\n4 a4 = phi %s\n5 ret a1\n" % (first, last, last, phi)
    yield done("eight arguments", text, store, [i(-1), GO_ON, GO_ON, i(-2)], 5, RET, 5)
    many = "".join("arg p%d %s\n" % (n, TYPED[0x10]) if n < 16 else "name p%d %s\n" % (n, TYPED[0x10]) for n in range(29))
    moves = "".join("%d p%d = id p%d\n" % (n, n, n - 1) for n in range(28, 0, -1))
    yield done("29 pointers", many + "block\n" + moves, [p(0x10, n, n) for n in range(29)], [], 99, END, 28)
    straight = "arg a int\narg b int\nblock\n" + "".join("%d a = %s a b\n" % (n, ("add", "mul", "sub")[n % 3]) for n in range(80))
    yield done("80 in a row", straight, [i(3), i(5)], [], 80, END, 80)
    yield done("80 in a row, but one", straight, [i(3), i(5)], [], 79, LIMIT, 79)
    blocks = "arg a int\n" + "".join("block\n%d jmp .%d\n" % (n, 63 - n if n < 32 else 64 - n) for n in range(64))
    yield done("64 blocks, to and fro", blocks, [None], [], 63, LIMIT, 63)


# ---- 13

FRAME = "arg x int\nname y float\nblock\n1 x = call @1 x\n"
GIVEN = [i(5), h(7)]
FINE = [i(6), HALT]


def forms(items, fine):
    """Malformed house forms around good items, of which only these parts read: a label, and the bytes."""
    good = framed(items)
    for size in (0, 1, 2, 3, 4, 5, len(good) - 1):
        yield "cut", good[:size]
    for size in range(4, len(good)):
        if size == 4 or items[:size - 5] not in fine:
            yield "cut, with its length", struct.pack(">I", size - 4) + good[4:size]
    yield "a byte more", good + b"\x00"
    for delta in (-1, 1, 4, 256, 1 << 16, 1 << 24):
        yield "another length", struct.pack(">I", len(good) - 4 + delta) + good[4:]
    for version in (0, 2, 255):
        yield "another version", good[:4] + bytes([version]) + good[5:]


def sized(type_, *sizes):
    """A type byte with so many bytes behind it, for each of the sizes."""
    return [bytes([type_]) + bytes(n) for n in sizes]


NO_BOOLS = [value_bytes(b(n)) for n in (2, 3, 256, 257, 1 << 32, 1 << 56, 1 << 63, FOREVER)]
NO_CHARS = [value_bytes(c(n)) for n in (0xD800, 0xDBFF, 0xDC00, 0xDFFF, 0x110000, 1 << 32, 0x61 << 56, FOREVER)]
NO_TYPES = [(5, 8), (0x0F, 8), (0x14, 16), (0x14, 8), (0x24, 16), (0xF4, 16), (0xFC, 16), (0xFC, 0), (8, 8), (0x18, 16), (0x1F, 16)]
CUT_OFF = [(0x10, 8), (0x10, 15), (0xF3, 8)]
BAD_ITEMS = [item for t, n in NO_TYPES + CUT_OFF for item in sized(t, n)] + NO_BOOLS + NO_CHARS
GOOD_ITEMS = [b(0), b(1), c(0xD7FF), c(0xE000), c(0x10FFFF), i(-1), f(FOREVER), h(1), p(0xF3, 1, 1), p(0x11, 0, 2), p(0x12, 1, 5)]


def malformed():
    items = b"".join(map(value_bytes, GIVEN))
    answers = answers_bytes(FINE)
    for what, data in forms(items, []):
        yield refused("store, " + what, FRAME, data, answers, 9)
    for what, data in forms(value_bytes(i(6)) + bytes([HALT]), [b"", value_bytes(i(6))]):
        yield refused("answers, " + what, FRAME, GIVEN, data, 9)
    first, second = map(value_bytes, GIVEN)
    for bad in [*sized(GO_ON, 0, 8, 16), *sized(HALT, 0, 8, 16), *BAD_ITEMS]:
        yield refused("in the store", FRAME, framed(first + bad), answers, 0)
    for bad in [*sized(NOTHING, 0, 8, 16), *BAD_ITEMS]:
        yield refused("in the answers, not taken", FRAME, GIVEN, framed(bytes([HALT]) + bad), 0)
    for bad in (bytes([NOTHING]), bytes([0x14]) + bytes(16), value_bytes(c(0xD800))):
        yield refused("in the answers, first", FRAME, GIVEN, framed(bad), 9)
    for good in GOOD_ITEMS:
        yield done("fine, not taken", FRAME, GIVEN, framed(bytes([HALT]) + value_bytes(good)), 9, HALTED, 1)
    for more in (first, bytes([NOTHING])):
        yield refused("too many values", FRAME, framed(items + more), answers, 9)
    yield refused("a value for no name", "block\n1 nop\n", [None], [], 9)
    yield done("no value for no name", "block\n1 nop\n", [], [], 9, END, 1)


# Of each type: what is cut off, has a byte too many or is no value of it; and values at the edges
OWN = [
    ("int", sized(INT, 0, 1, 7, 9), [i(LEAST), i(GREATEST)]),
    ("bool", sized(BOOL, 0, 7, 9) + NO_BOOLS, [b(0), b(1)]),
    ("float", sized(FLOAT, 0, 7, 9) + sized(HELD, 0, 7, 9), [f(0x7FF8000000000001), f(FOREVER), h(LEAST)]),
    ("char", sized(CHAR, 0, 7, 9) + NO_CHARS, [c(0), c(0xD7FF), c(0xE000), c(0x10FFFF)]),
    ("ptr<int>", sized(0x10, 0, 1, 7, 8, 9, 15, 17), [p(0x10, FOREVER, -1)]),
    (TYPED[0xF3], sized(0xF3, 0, 7, 8, 15, 17), [p(0xF3, 0, FOREVER)]),
]


def of_own_type():
    """Each in the place of a name, and of a dest, of that type: it is refused because it does not read."""
    x = value_bytes(i(5))
    for kind, bad, good in OWN:
        text = "arg x int\nname y %s\nblock\n1 y = call @1 x\n" % kind
        for item in bad:
            yield refused("in the store", text, framed(x + item), [], 0)
            yield refused("in the answers, taken", text, [i(5), None], framed(item), 1)
            yield refused("in the answers, behind the limit", text, [i(5), None], framed(item), 0)
        for value in good:
            yield done("fine, in the store", text, [i(5), value], [], 0, LIMIT, 0)
            yield done("fine, taken", text, [i(5), None], [value], 1, END, 1)


def in_each_place():
    """Items that do not read in front of others, and what is cut off but goes on with the bytes that follow."""
    base, short = *sized(0x10, 8), *sized(INT, 7)
    nothing, pair = bytes([NOTHING]), "name p ptr<int>\nname x int\nblock\n"
    for what, rest in [("an int", value_bytes(i(5))), ("nothing", nothing), ("no byte", b"")]:
        yield refused("a base, then " + what, pair, framed(base + rest), [], 0)
    yield done("a base, then an offset and nothing", pair, framed(base + value_bytes(i(NOTHING))), [], 0, END, 0)
    ints = "name x int\nname y int\nblock\n"
    yield refused("seven bytes of an int, then FF", ints, framed(short + nothing), [], 0)
    yield done("seven bytes of an int, then FF and nothing", ints, framed(short + nothing + nothing), [], 0, END, 0)
    told = [framed(bytes([HALT]) + base + bytes([GO_ON]) * count) for count in (7, 8, 9)]
    yield refused("a base, then seven bytes FE", FRAME, GIVEN, told[0], 1)
    yield done("a base, then an offset of bytes FE", FRAME, GIVEN, told[1], 1, HALTED, 1)
    yield done("a base, then an offset of bytes FE and go on", FRAME, GIVEN, told[2], 1, HALTED, 1)
    bad_items = [*sized(5, 8), *sized(0x14, 16), NO_BOOLS[0], NO_CHARS[0]]
    for bad in [bytes([GO_ON]), bytes([HALT]), *bad_items]:
        yield refused("in the store, first", FRAME, framed(bad + value_bytes(GIVEN[1])), [], 0)
    for bad in [nothing, *bad_items]:
        yield refused("in the answers, in the middle", FRAME, GIVEN, framed(bytes([HALT]) + bad + bytes([GO_ON])), 9)
    for what, text, store in [("no block", "", []), ("the end", "name x int\nblock\n", [i(1)]), ("unset", FRAME, [None, None])]:
        yield refused("answers that do not read, " + what, text, store, framed(base), 9)


TYPES = [("int", INT), ("bool", BOOL), ("float", FLOAT), ("char", CHAR), ("ptr<int>", 0x10), ("ptr<ptr<bool>>", 0x21), ("ptr<float>", 0x12)]
OF_TYPES = [i(1), b(1), f(1), c(1), h(1), p(0x10, 1, 1), p(0x21, 1, 1), p(0x11, 1, 1), p(0x12, 1, 1), p(0x20, 1, 1)]


def types():
    """Each value in the place of each type, in the store and as an answer."""
    for kind, type_ in TYPES:
        name = "name x %s\nblock\n" % kind
        for value in OF_TYPES:
            if value[0] == type_ or (value[0], type_) == (HELD, FLOAT):
                yield done("of its type", name, [value], [], 0, END, 0)
                yield done("an answer of its type", name + "1 x = call @1\n", [None], [value], 1, END, 1)
            else:
                yield refused("of another type", name, [value], [], 0)
                yield refused("an answer of another type", name + "1 x = call @1\n", [None], [value], 1)


def another_type():
    """One value in the store, of an argument or another name, is of another type."""
    names = "arg a int\narg p ptr<char>\nname x float\nname y bool\nblock\n"
    store = [i(1), p(0x13, 2, 3), h(4), b(1)]
    yield done("each of its type", names, store, [], 0, END, 0)
    for place, bad in enumerate([b(1), p(0x10, 2, 3), i(4), c(1)]):
        yield refused("one of another", names, store[:place] + [bad] + store[place + 1:], [], 0)
        yield refused("alone, of another", names, [None] * place + [bad] + [None] * (3 - place), [], 0)


def checked_first():
    """Check's refusals come before 13, whatever store and answers are."""
    good = to_bytes(from_text(FRAME))
    body = good[4:]
    record = lambda data: struct.pack(">I", len(data)) + data
    bad = [(1, b""), (1, good[:3]), (1, good + b"\x00"), (1, good[:-1]), (1, record(body + b"\x00")), (2, record(b"\x03" + body[1:])),
           (3, record(body[:1] + b"\x11" + body[2:])), (4, record(body.replace(b"y", b"x"))),
           (5, record(body.replace(b"\x14\x00\x00\x01", b"\x13\x00\x00\x01"))),
           (6, record(body.replace(b"\x14\x00\x00\x01", b"\x14\x00\x02\x01"))),
           (7, to_bytes(from_text("arg x int\nname y float\nblock\n1 nop\n2 x = id y\n"))),
           (8, to_bytes(from_text("arg x int\nname y float\nblock\n1 ret x\n2 nop\n")))]
    for number, data in bad:
        yield refused("check's refusal", data, store_bytes(GIVEN), answers_bytes(FINE), 9, number)
        yield refused("check's refusal", data, b"\x01", b"", 0, number)


def by_hand():
    for part in (operations, constants, answered, at_the_limit, ends, unset, divisions, loops, wide, malformed, of_own_type, in_each_place,
                 types, another_type, checked_first):
        yield from part()
