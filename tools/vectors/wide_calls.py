"""Calls of the engine with records of version 2, made by hand as those of
calls_by_hand.py are, and calls of version 1 with the record in version 2 and
other ids: they come to the same.
"""

from calls_by_hand import FINE, FOREVER, FRAME, GIVEN, NAMES, SET, b, done, i, refused
from check import check
from generate import WIDE, new_ids
from record import from_bytes, from_text, in_version, to_bytes
from running import DIVISION, END, GO_ON, HALT, HALTED, LIMIT, RET, UNSET, answers_bytes, store_bytes

TOP = WIDE * WIDE - 1
IDS = (7, WIDE - 1, WIDE, WIDE + 7, 1 << 63, TOP)
EVERY = 9  # one of so many calls of version 1, of those that are short
SHORT = 500  # bytes of a call


def in_version_2(call):
    """A call with the record in version 2 and other ids, or none if check refuses the record."""
    record, *rest = call
    if check(record):
        return None
    f = from_bytes(record)
    return to_bytes(in_version(f, 2, new_ids(f).get)), *rest


def events():
    """Ids of eight bytes in events, of each kind."""
    text = "version 2\n" + NAMES % "int" + "block\n"
    for id_ in IDS:
        yield done("call", text + "%d x = call @7 a p\n" % id_, [*SET, None], [i(3)], 9, END, 1)
        yield done("ret", text + "%d ret k\n" % id_, [*SET, None], [], 9, RET, 1)
    for op in ("call @3 a f", "print", "store p a", "x = load p", "x = phi a a .0 .0", "f = fadd f g"):
        answer = GO_ON if "=" not in op else i(4) if op[0] == "x" else SET[2]
        yield done(op, text + "%d %s\n%d print a\n" % (TOP, op, WIDE), [*SET, None], [answer, GO_ON], 9, END, 2)
        yield done("halt", text + "%d %s\n" % (WIDE - 1, op), [*SET, None], [HALT], 9, HALTED, 1)


def divisions():
    """The id of a division as a value of the answer."""
    for id_ in IDS:
        text = "version 2\narg a int\narg z int\nblock\n1 nop\n%d a = div a z\n2 print a\n" % id_
        yield done("by zero", text, [i(7), i(0)], [GO_ON], FOREVER, DIVISION, 2)
        yield done("by zero, at the limit", text, [i(7), i(0)], [GO_ON], 1, LIMIT, 1)
        yield done("unset", text, [i(7), None], [GO_ON], 9, UNSET, 2)
    several = "version 2\narg a int\narg z int\nblock\n%d a = div a z\nblock\n%d a = div z z\n" % (WIDE, TOP)
    yield done("the second, by zero", several, [i(0), i(5)], [], 9, END, 2)
    yield done("the first, by zero", several, [i(5), i(0)], [], 9, DIVISION, 1)


def house_forms():
    """Store and answers keep 01, whatever the record's version."""
    for text in (FRAME, "version 2\n" + FRAME):
        good = store_bytes(GIVEN), answers_bytes(FINE)
        two, three = ([part[:4] + bytes([version]) + part[5:] for part in good] for version in (2, 3))
        yield done("01", text, *good, 8, END, 1)
        for store, answers in ((two[0], good[1]), (good[0], two[1]), two, three):
            yield refused("not 01", text, store, answers, 8)


def checked_first():
    """Check's refusals come before 13."""
    text = "version 2\narg x int\nname y float\nblock\n%d x = call @1 x\n" % TOP
    good = to_bytes(from_text(text))
    record = lambda body: len(body).to_bytes(4, "big") + body
    body, call, other = good[4:], b"\x14\x00\x00\x01", "version 2\narg x int\nname y float\nblock\n"
    bad = [(1, good[:-1]), (1, record(body[:-8])), (2, record(b"\x00" + body[1:])), (3, record(body[:1] + b"\x11" + body[2:])),
           (4, record(body.replace(b"y", b"x"))), (5, record(body.replace(call, b"\x13\x00\x00\x01"))),
           (6, record(body.replace(call, b"\x14\x00\x02\x01"))), (7, to_bytes(from_text(other + "1 nop\n%d x = id y\n" % WIDE))),
           (8, to_bytes(from_text(other + "%d ret x\n2 nop\n" % TOP)))]
    for number, data in bad:
        yield refused("check's refusal", data, store_bytes(GIVEN), b"\x02", 9, number)


def loop():
    """Counts down by a call, an event a step around."""
    text = "version 2\narg n int\nname c bool\nblock\n%d n = call @9 n\n%d c = gt n n\n%d br c .1 .0\nblock\n" % (TOP, WIDE, WIDE - 1)
    yield done("a loop", text, [i(3), b(1)], [i(2), i(1), HALT], FOREVER, HALTED, 7)
    yield done("a loop, at the limit", text, [i(3), None], [i(2), i(1), HALT], 6, LIMIT, 6)


def in_both_versions(calls):
    """One of so many calls of version 1 by hand, in version 2."""
    short = [c for c in calls if c[2] in (0, 13) and sum(map(len, c[1][:3])) <= SHORT]
    for what, call, number, ended, steps in short[::EVERY]:
        yield what, in_version_2(call), number, ended, steps


def by_hand_wide(calls):
    for part in (events, divisions, house_forms, checked_first, loop):
        yield from part()
    yield from in_both_versions(calls)
