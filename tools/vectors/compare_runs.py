"""Compares the library's lvn_run with running.py on calls of worlds.py: the
number, the five values, and every byte of what was lent, with as much as is
needed, with more, and with a byte too little of either.

compare_runs.py [--seed S] [--count N]   N calls, 10000 if not given
compare_runs.py --forms                  all calls with one item that begins with any byte
compare_runs.py --list FILE              those of a stored list such as crates/replay_run/stdin
compare_runs.py --version 2 ...          with the records in version 2 and other ids

The library is the one that bindings/python loads. Of the
calls that differ the smallest is printed; the last line is `N the same, M differ`.
"""

import argparse
import ctypes
import sys
from collections import Counter
from pathlib import Path

from running import engine
from wide_calls import in_version_2
from worlds import calls, forms

TOP = Path(__file__).resolve().parents[2]
FILL = {"events": b"\xEE", "store": b"\xDD"}
AMPLE = 1 << 62


class Library:
    """lvn_run, with buffers that are lent between guard bytes."""

    GUARD = 16

    def __init__(self):
        sys.path.insert(0, str(TOP / "bindings/python"))
        from lvn_library import load
        size, text = ctypes.c_size_t, ctypes.c_char_p
        self.call = load().lvn_run
        self.call.restype = ctypes.c_uint8
        self.call.argtypes = [text, size] * 3 + [ctypes.c_uint64] + [ctypes.c_void_p, size] * 2 + [ctypes.c_void_p]
        self.answer = (ctypes.c_uint64 * 5)()

    def run(self, record, store, answers, limit, rooms):
        """The number, the values, and both lent parts with their guards."""
        lent = [ctypes.create_string_buffer(fill * (room + 2 * self.GUARD), room + 2 * self.GUARD)
                for fill, room in zip(FILL.values(), rooms)]
        places = [x for part, room in zip(lent, rooms) for x in (ctypes.addressof(part) + self.GUARD, room)]
        number = self.call(record, len(record), store, len(store), answers, len(answers), limit, *places, self.answer)
        return (number, tuple(self.answer), *(part.raw for part in lent))

    def left(self, number, values, written, rooms):
        """What a call is to give back, as `run` does."""
        lent = [fill * self.GUARD + data + fill * (room - len(data) + self.GUARD)
                for fill, data, room in zip(FILL.values(), written, rooms)]
        return (number, tuple(values), *lent)


def rooms_for(number, values, turn):
    """How much is lent, for each of the calls with the same input."""
    if number:
        return [(turn % 40, turn % 23)]
    events, store = values[:2]
    tight = (events - 1, store) if events and turn % 2 else (events + turn % 3, store - 1)
    return [(events, store), (events + turn % 5, store + turn % 7), tight]


def differs(library, call, turn, counts):
    """Whether the library differs from running.py on a call, and with what lent."""
    number, values, *written = engine(*call, AMPLE, AMPLE)
    counts["number %d" % number if number else "ended %d" % values[3]] += 1
    for rooms in rooms_for(number, values, turn):
        found = library.run(*call, rooms)
        short = number == 0 and (rooms[0] < values[0] or rooms[1] < values[1])
        expected = (14, (*values[:2], 0, 0, 0), (b"", b"")) if short else (number, values, written)
        if found != library.left(*expected, rooms):
            return rooms, found, expected
    return None


def stored(path):
    """The calls of a stored list."""
    for line in path.read_text().splitlines():
        record, store, answers, limit = line.split(" ")[:4]
        yield *(b"" if word == "-" else bytes.fromhex(word) for word in (record, store, answers)), int(limit)


def main():
    p = argparse.ArgumentParser()
    p.add_argument("--seed", type=int, default=1)
    p.add_argument("--count", type=int, default=10000)
    p.add_argument("--forms", action="store_true")
    p.add_argument("--list", type=Path)
    p.add_argument("--version", type=int, choices=[1, 2], default=1)
    a = p.parse_args()
    library, counts, same, differ, smallest = Library(), Counter(), 0, 0, None
    given = stored(a.list) if a.list else forms() if a.forms else calls(a.seed, a.count)
    if a.version == 2:
        given = filter(None, map(in_version_2, given))
    for turn, call in enumerate(given):
        what = differs(library, call, turn, counts)
        same, differ = same + (what is None), differ + (what is not None)
        size = sum(map(len, call[:3]))
        if what and (smallest is None or size < smallest[0]):
            smallest = size, call, what
    print(", ".join("%s: %d" % item for item in sorted(counts.items())))
    if smallest:
        _, call, (rooms, found, expected) = smallest
        print("smallest that differs:", *(part.hex() or "-" for part in call[:3]), call[3])
        print("lent", *rooms)
        print("library   ", found[:2], *(part.hex() for part in found[2:]))
        print("running.py", expected[:2], *(part.hex() or "-" for part in expected[2]))
    print("%d the same, %d differ" % (same, differ))
    sys.exit(differ != 0)


if __name__ == "__main__":
    main()
