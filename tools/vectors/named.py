"""Inputs, rewritings and indexes with what name text tells of each, for name
text to be held to.

What is expected of a line is written beside the way it is made, from document
01. `name_text` is a second reading of document 01's sentences; it is only asked
whether it agrees.

    python3 tools/vectors/named.py > crates/replay_name_text/stdin

Each line: the input and the rewriting in hex, the index; the number and offset
of the refusal, 0 0 for a text; 0 for a part of the input or 1 for one of the
rewriting, its start, its length and its bytes. A refusal has the empty part at
the input's start.
"""

import sys
from pathlib import Path

from check import check
from damaged import of_version_2
from damages import Record, cuts, field_damages, fields_of, first_damages, more_damages, text_damages, type_damages
from record import from_bytes, from_text

VECTORS = Path(__file__).resolve().parents[2] / "vectors"
HUGE = 999999999
SMALLEST = bytes.fromhex("00000006010000000000")

SMALL = """arg a int
arg p ptr<int>
name x int
name c bool
block
1 x = const int 7
2 c = const bool 1
3 nop
4 x = load p
5 x = call @9 a
6 br c .0 .1
block
7 ret x
"""


# The second reading

def number(data):
    return int.from_bytes(data, "big")


def texts_of(record):
    """Start and end of each text that a record counts, or None if one runs past its end."""
    out, at = [], 8
    for _ in range(number(record[6:8])):
        if len(record) < at + 2:
            return None
        start = at + 2
        at = start + record[at + 1]
        if len(record) < at:
            return None
        out.append((start, at))
    return out


def name_text(record, rewriting, index):
    """Number, offset, 1 for the rewriting, start, length."""
    refusal = check(record)
    if refusal:
        return (*refusal, 0, 0, 0)
    mismatch = (11, 0, 0, 0, 0)
    if len(rewriting) < 8 or number(rewriting[:4]) != len(rewriting[4:]) or rewriting[4] != record[4]:
        return mismatch
    own, made = texts_of(record), texts_of(rewriting)
    if made is None or len(made) < len(own):
        return mismatch
    if index >= len(made):
        return (6, 0, 0, 0, 0)
    start, end = own[index] if index < len(own) else made[index]
    return (0, 0, int(index >= len(own)), start, end - start)


# What is expected

def refused(number, offset=0):
    return (number, offset, 0, 0, b"")


def names_of(record):
    return [(type_, text.encode()) for type_, text in from_bytes(record).names]


def place(names, index):
    """Where the text of a name starts: behind the head, the names before it, its type and its length."""
    return 8 + sum(2 + len(text) for _, text in names[:index]) + 2


def expected(own, made, index):
    """With these names in the input and in a rewriting that belongs to it."""
    if index >= len(made):
        return refused(6)
    which = int(index >= len(own))
    names = made if which else own
    return (0, 0, which, place(names, index), names[index][1])


# How rewritings are made

def with_length(body):
    return len(body).to_bytes(4, "big") + body


def laid(names, tail=b"\x00\x00", version=1, args=0, count=None):
    """A rewriting with these names, and what stands behind them."""
    head = bytes([version, args]) + (len(names) if count is None else count).to_bytes(2, "big")
    return with_length(head + b"".join(bytes([t, len(text)]) + text for t, text in names) + tail)


def pairs():
    """Stored inputs with their rewritings, the worked ones first."""
    for line in (VECTORS / "worked.txt").read_text().splitlines():
        label, record, *answer = line.split()
        if len(answer) == 1:
            yield bytes.fromhex(record), bytes.fromhex(answer[0])
    lines = (VECTORS / "rewritings.txt").read_text().splitlines()
    for line in lines[:-3:17] + lines[-3:]:
        yield tuple(bytes.fromhex(word) for word in line.split())


def stored():
    """Real rewritings: on each side of N, at the last name and at and above the count."""
    for record, rewriting in pairs():
        own, made = names_of(record), names_of(rewriting)
        n, m = len(own), len(made)
        indexes = {n, m} if len(record) > 1000 else {0, n - 1, n, m - 1, m, m + 1}
        for index in sorted(i for i in indexes if i >= 0):
            yield record, rewriting, index, expected(own, made, index)


def foreign():
    """Rewritings of other inputs: what counts is that there are N names."""
    few = [p for p in pairs() if len(p[0]) < 80]
    for (record, _), (_, rewriting) in zip(few, few[1:] + few[:1]):
        own, made = names_of(record), names_of(rewriting)
        for index in sorted({0, len(own), len(made)}):
            yield record, rewriting, index, refused(11) if len(made) < len(own) else expected(own, made, index)


def cut(record, rewriting, own, made):
    """Cut at each byte: 11 as long as a name is missing; with the old L 11 for each."""
    end = place(made, len(made)) - 2
    for size in range(len(rewriting)):
        short = with_length(rewriting[4:size]) if size >= 4 else rewriting[:size]
        for index in (0, len(own)):
            yield record, short, index, refused(11) if size < end else expected(own, made, index)
    for size in range(0, len(rewriting), 5):
        yield record, rewriting[:size], len(own), refused(11)


def bytes_changed(record, rewriting, own, made):
    """Each byte made FF: 11 in L, version, N and a text's length; of the rest only a made name's text is seen."""
    spots = {at: "mismatch" for at in (0, 1, 2, 3, 4, 6, 7)}
    for i, (_, text) in enumerate(made):
        spots[place(made, i) - 1] = "mismatch"
        spots.update((place(made, i) + k, (i, k)) for k in range(len(text)))
    for at in range(len(rewriting)):
        damaged = rewriting[:at] + b"\xff" + rewriting[at + 1:]
        spot, names = spots.get(at), list(made)
        if isinstance(spot, tuple):
            i, k = spot
            text = made[i][1]
            names[i] = (made[i][0], text[:k] + b"\xff" + text[k + 1:])
        for index in (0, len(own)):
            yield record, damaged, index, refused(11) if spot == "mismatch" else expected(own, names, index)


def heads(record, rewriting, own, made):
    """L, versions, A and counts."""
    last = len(made) - 1
    rest = len(rewriting) - 4
    for wrong in (0, rest - 4, rest - 1, rest + 1, rest + 4, rest + 256, rest + (1 << 24), rest + (1 << 31), 0xFFFFFFFF):
        for index in (0, last, HUGE):
            yield record, wrong.to_bytes(4, "big") + rewriting[4:], index, refused(11)
    tail = rewriting[place(made, len(made)) - 2:]
    for version in (0, 2, 3, 17, 129, 254, 255):
        for index in (0, last, HUGE):
            yield record, laid(made, tail, version=version), index, refused(11)
    for args in (0, 1, 17, 255):
        yield record, laid(made, tail, args=args), last, expected(own, made, last)
    for count in range(len(own)):
        for index in (0, count, len(own), HUGE):
            yield record, laid(made, tail, count=count), index, refused(11)
        yield record, laid(made[:count], tail), 0, refused(11)
    for count in range(len(own), len(made) + 1):
        for index in (len(own) - 1, len(own), count - 1, count, 65536, 65536 + len(own)):
            yield record, laid(made, tail, count=count), index, expected(own, made[:count], index)
    for count in (256, 4096, 65535):
        yield record, laid(made, tail, count=count), 0, refused(11)


def others(record, own, made):
    """Names of any type and text, and anything behind them."""
    more = made + [(0xFF, b""), (0x04, b"\x00\xff 1"), (0, made[0][1]), (0, b"_x_lvn0"), (0, b"x" * 33), (0, b"y" * 255)]
    for tail in (b"", b"\x00", b"\x00\x00", b"\xff" * 9, bytes(300)):
        for index in range(len(own) - 1, len(more) + 2):
            yield record, laid(more, tail), index, expected(own, more, index)
    for size in (1, 2, 200, 255):  # the last text lacks bytes
        for index in (0, len(own), len(more) - 1, len(more)):
            yield record, with_length(laid(more, b"")[4:-size]), index, refused(11)
    empty = [(0, b"")] * len(made)
    for index in range(len(made) + 1):
        yield record, laid(empty, b""), index, expected(own, empty, index)
    swapped = made[::-1]
    for index in range(len(made) + 1):
        yield record, laid(swapped), index, expected(own, swapped, index)
    # what stands behind the names is read as a name where the count says so
    read = made + [(0, b"\x09")]
    yield record, laid(made, bytes([0, 1, 9]), count=len(read)), len(made), expected(own, read, len(made))


def sizes():
    """Under 8 bytes, exactly 8, and counts of over one byte."""
    for size in range(9):
        short = with_length(bytes([1, 0, 0, 0])[:size - 4]) if size >= 4 else bytes(size)
        for index in (0, 1, HUGE):
            yield SMALLEST, short, index, refused(6 if size == 8 else 11)
    for count in (1, 255, 256, 257, 600):
        many = [(0, b"")] * count
        for index in (0, count - 1, count):
            yield SMALLEST, laid(many), index, expected([], many, index)
    names = [(0, b"%c%c" % (97 + k // 16, 97 + k % 16)) for k in range(256)]
    full = laid(names)
    for count in (255, 256, 257):
        made = names[:count] + [(0, b"")] * (count - 256)
        for index in (255, 256):
            yield full, laid(made), index, refused(11) if count < 256 else expected(names, made, index)


def inputs_refused():
    """Check's refusals come first, whatever the rewriting and the index."""
    f = from_text(SMALL)
    r = Record(fields_of(f))
    good = r.bytes()
    types = [t for t, _ in f.names]
    damages = [*first_damages(r), *cuts(r), *field_damages(r, len(f.names), len(f.blocks)), *text_damages(r), *more_damages(r)][::2]
    damages += type_damages(r, types)
    rewritings = (good, b"", good[:-1], good[:7], laid([(0, b"made")]), b"\x00\x00\x00\x04\x02\x00\x00\x00")
    for k, (record, (number, offset)) in enumerate(damages):
        if number:
            yield record, rewritings[k % 6], (0, len(f.names), HUGE)[k % 7 % 3], refused(number, offset)


# Version 2

def wide_pairs():
    """Stored inputs of version 2 with their rewritings, by label."""
    found = {}
    for line in (VECTORS / "wide.txt").read_text().splitlines():
        label, record, *answer = line.split()
        if len(answer) == 1:
            found[label] = bytes.fromhex(record), bytes.fromhex(answer[0])
    return found


def wide_stored():
    """On each side of N, and at and above the count."""
    for record, rewriting in list(wide_pairs().values())[::3]:
        own, made = names_of(record), names_of(rewriting)
        n, m = len(own), len(made)
        for index in sorted({n, m} if n > 100 else {max(n - 1, 0), n, m}):
            yield record, rewriting, index, expected(own, made, index)


def other_versions():
    """The rewriting of the same function in the other version, both ways; and with other version bytes."""
    wide = wide_pairs()
    for line in (VECTORS / "worked.txt").read_text().splitlines():
        label, record, rewriting = line.split(" ", 2)
        if label in wide and len(record) < 1000:
            one, two = (bytes.fromhex(record), bytes.fromhex(rewriting)), wide[label]
            for index in sorted({0, len(names_of(one[0])), HUGE}) if label == "C1" else [0]:
                yield one[0], two[1], index, refused(11)
                yield two[0], one[1], index, refused(11)
    record, rewriting = wide["C1"]
    own, made = names_of(record), names_of(rewriting)
    tail = rewriting[place(made, len(made)) - 2:]
    for version in (0, 1, 3, 18, 130, 255):
        for index in (0, len(own), HUGE):
            yield record, laid(made, tail, version=version), index, refused(11)
    yield record, laid(made, b"", version=2), len(own), expected(own, made, len(own))
    yield record, laid(made[:2], tail, version=2), 0, refused(11)


def wide_inputs_refused():
    """Check's refusals of version 2, before 11 and 6."""
    rewritings = [pair[k] for pair in (next(pairs()), wide_pairs()["C1"]) for k in (0, 1)] + [b""]
    damages = [d for d in of_version_2() if d[1][0]]
    for k, (record, (number, offset)) in enumerate(damages[::9]):
        yield record, rewritings[k % 5], (0, 3, HUGE)[k % 7 % 3], refused(number, offset)


def cases():
    yield from stored()
    yield from foreign()
    record, rewriting = next(pairs())  # C1
    own, made = names_of(record), names_of(rewriting)
    yield from cut(record, rewriting, own, made)
    yield from bytes_changed(record, rewriting, own, made)
    yield from heads(record, rewriting, own, made)
    yield from others(record, own, made)
    yield from sizes()
    yield from inputs_refused()
    yield from wide_stored()
    yield from other_versions()
    yield from wide_inputs_refused()


def main():
    wrong, counts = 0, {}
    for record, rewriting, index, (number, offset, which, start, text) in dict.fromkeys(cases()):
        counts[number] = counts.get(number, 0) + 1
        print(record.hex(), rewriting.hex(), index, number, offset, which, start, len(text), text.hex())
        part = (rewriting if which else record)[start:start + len(text)]
        if name_text(record, rewriting, index) != (number, offset, which, start, len(text)) or part != text:
            wrong += 1
            print(record.hex(), rewriting.hex(), index, "expected", number, offset, which, start, text.hex(), file=sys.stderr)
    told = ", ".join("%d of %d" % (counts[k], k) for k in sorted(counts))
    print("%d cases (%s), %d differ from the second reading" % (sum(counts.values()), told, wrong), file=sys.stderr)
    sys.exit(wrong != 0)


if __name__ == "__main__":
    main()
