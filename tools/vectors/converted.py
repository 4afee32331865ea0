"""Records with what widening and narrowing make of each, for the program
replay_convert. What is expected of a line is written beside the way it is made,
from document 02's Point 7; convert.py, a second reading, is only asked whether
it agrees.

    python3 tools/vectors/converted.py > crates/replay_convert/stdin

Each line: the record in hex, the version that is wanted, 0, the count of bytes
written and these bytes in hex; or the record, the version, the number and the
value of the refusal.
"""

import sys
from pathlib import Path

from convert import narrow, widen
from damaged import FUNCTION, PHIS
from damages import Record, fields_of
from generate import WIDE
from record import Block, Function, Instr, from_bytes, from_text, in_version, to_bytes

TOP = Path(__file__).resolve().parents[2]
MOST = WIDE * WIDE - 1
AMPLE = 1 << 20
RECORD = 4096  # replay_lines::RECORD
EVERY = {"rewritings.txt": 30, "quotients.txt": 50}  # one line of so many


# What is expected

def written(record, version, out):
    return record, version, 0, len(out), out


def refused(record, version, number, value):
    return record, version, number, value, b""


def all_four(one, two):
    """A record in version 1 and in version 2: each becomes the other, and stays where it is what is wanted."""
    yield written(one, 2, two)
    yield written(two, 1, one)
    yield written(one, 1, one)
    yield written(two, 2, two)


def too_wide(two, at):
    """A record of version 2 that has no version 1, the first wide id at this offset."""
    yield refused(two, 1, 15, at)
    yield written(two, 2, two)


# The records

def lines(name, folder="vectors"):
    return (line.split(" ") for line in (TOP / folder / name).read_text().splitlines())


def worked():
    """C1 to C16, as they are stored in both versions."""
    two = {label: record for label, record, *_ in lines("wide.txt")}
    for label, record, *answer in lines("worked.txt"):
        pair = [bytes.fromhex(text) for text in (record, two[label])]
        if answer[0] != "refused":
            yield from all_four(*pair)
            continue
        for data in pair:
            for version in (1, 2):
                yield refused(data, version, int(answer[1]), int(answer[3]))


def others():
    """Records of all codes, the longest ones stored and a share of the others: by in_version, the whole of the record again."""
    texts = [to_bytes(from_text(text)) for text in (FUNCTION, PHIS)]
    stored = [bytes.fromhex(line[0]) for name, every in EVERY.items() for n, line in enumerate(lines(name), 1) if n % every == 0]
    longest = [bytes.fromhex(line[0]) for line in lines("rewritings.txt")][-3:]
    for one in texts + longest:
        yield from all_four(one, wider(one))
    for one in stored:
        yield written(one, 2, wider(one))
        yield written(wider(one), 1, one)


def wider(one):
    """A record of version 1 in version 2: its fields one by one, version and ids apart."""
    body = b""
    for name, value, width in fields_of(from_bytes(one)):
        if name == "version":
            value = 2
        elif name == "id":
            width = 8
        body += value if isinstance(value, bytes) else value.to_bytes(width, "big")
    return len(body).to_bytes(4, "big") + body


def first_of(ids):
    """A function of four blocks, one of them empty, with these five ids; and the offset of each in version 2."""
    i = [Instr(ids[0], 0, 1, 0, 7), Instr(ids[1], 13, 0, args=[1]), Instr(ids[2], 68, args=[0, 1]),
         Instr(ids[3], 69), Instr(ids[4], 64, targets=[3])]
    f = Function(1, [(0, "a"), (0, "long_name")], [Block(i[:2]), Block([]), Block(i[2:3]), Block(i[3:])], 2)
    record = Record(fields_of(f))
    return f, [at for at, (name, _, _) in zip(record.offsets, record.fields) if name == "id"]


def wide_ids():
    """Wide ids at each place, alone and with others behind; ids just not too wide."""
    fits = [WIDE - 1, 0, 1 << 31, WIDE - 2, 0xFF]
    f, _ = first_of(fits)
    yield from all_four(to_bytes(in_version(f, 1)), to_bytes(f))
    yield from all_four(*(to_bytes(in_version(f, version, lambda n: WIDE - 1)) for version in (1, 2)))
    for place in range(5):
        for wide in (WIDE, WIDE + 7, 1 << 40, 1 << 63, MOST):
            f, offsets = first_of(fits[:place] + [wide] + fits[place + 1:])
            yield from too_wide(to_bytes(f), offsets[place])
        f, offsets = first_of(fits[:place] + [MOST, WIDE, WIDE << 8, WIDE, 1 << 63][place:])
        yield from too_wide(to_bytes(f), offsets[place])
    f, offsets = first_of([3, WIDE - 1, WIDE, WIDE - 1, MOST])
    yield from too_wide(to_bytes(f), offsets[2])


def empty():
    """No block, and empty ones; 64 blocks of which the last has a wide id."""
    for count in (0, 2, 64):
        yield from all_four(*(to_bytes(Function(0, [], [Block([])] * count, version)) for version in (1, 2)))
    last = Function(0, [], [Block([])] * 63 + [Block([Instr(WIDE, 69)])], 2)
    yield from too_wide(to_bytes(last), 10 + 64 * 4)


def check_refuses():
    """Of each number the first damaged records of each version, and rewritings."""
    counts = {}
    for record, number, offset in lines("stdin", "crates/replay_check"):
        which = record[8:10], number
        counts[which] = counts.get(which, 0) + 1
        if number != "0" and counts[which] <= (2 if record[8:10] in ("01", "02") else 1):
            for version in (1, 2):
                yield refused(bytes.fromhex(record), version, int(number), int(offset))
    for name in ("worked.txt", "wide.txt"):
        label, _, rewriting = next(lines(name))
        assert label == "C1"
        yield refused(bytes.fromhex(rewriting), 1, 4, 19)
        yield refused(bytes.fromhex(rewriting), 2, 4, 19)


def check_first():
    """A wide id and a fault behind it: check's refusal, whichever version is wanted."""
    text = "version 2\narg a int\nname c bool\nblock\n%d a = add a a\nblock\n%d print a\n"
    good = to_bytes(from_text(text % (WIDE, MOST)))
    body = good[4:]
    framed = lambda data: len(data).to_bytes(4, "big") + data
    first = 16 + 4  # the first instruction, behind its block's counts
    for version in (1, 2):
        yield refused(good[:-1], version, 1, 0)
        yield refused(framed(body[:-1]), version, 1, len(good) - 2)
        yield refused(framed(body + b"\0"), version, 1, len(good))
        yield refused(framed(body.replace(b"\x44\x01", b"\x28\x01")), version, 5, len(good) - 4)
        yield refused(framed(body[:-1] + b"\x02"), version, 6, len(good) - 2)
        yield refused(framed(body.replace(b"\x01\x00\x00\x02", b"\x05\x00\x00\x02")), version, 7, first)
        yield refused(framed(b"\x03" + body[1:]), version, 2, 4)


def cases():
    for part in (worked, others, wide_ids, empty, check_refuses, check_first):
        yield from part()


def main():
    wrong, counts = 0, {}
    for case in dict.fromkeys(cases()):
        record, version, number, value, out = case
        assert max(len(record), len(out)) <= RECORD
        counts[number] = counts.get(number, 0) + 1
        print(record.hex(), version, number, value, out.hex())
        reading = {1: narrow, 2: widen}[version]
        answers = [reading(record, room) for room in (AMPLE, len(out), len(out) - 1 if out else 0)]
        short = (9, len(out), b"") if out else (number, value, b"")
        if answers != [(number, value, out), (number, value, out), short]:
            wrong += 1
            print(record.hex(), version, "expected", number, value, "convert.py", answers[0][:2], file=sys.stderr)
    told = ", ".join("%d of %d" % (counts[k], k) for k in sorted(counts))
    print("%d cases (%s), %d differ from convert.py" % (sum(counts.values()), told, wrong), file=sys.stderr)
    sys.exit(wrong != 0)


if __name__ == "__main__":
    main()
