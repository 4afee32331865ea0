"""Calls of the engine with what each comes to, for the program replay_run.

A line holds a record, a store and answers in hex (`-` for one without a byte), a
limit, a number and five values in decimal, events and final store in hex (`-`
for none). Of the calls made by hand the number, or how the run ended and after
how many steps, is written beside each from the documents (calls_by_hand.py, and
wide_calls.py for version 2); running.py adds the bytes and is asked whether it
agrees: unless it does, nothing is printed. The others are random ones of
worlds.py, by running.py alone.

Usage: runs.py > crates/replay_run/stdin
"""

import sys

from calls_by_hand import by_hand
from running import LIMIT, engine
from wide_calls import by_hand_wide, in_version_2
from worlds import calls

SEED = 6
RANDOM = 90
WIDE_SEED = 7
WIDE_RANDOM = 24
MOST = {"record": 1024, "store": 512, "answers": 4096, "events": 16384, "list": 524288}
AMPLE = 1 << 20


def word(data):
    return data.hex() or "-"


def line(call):
    """The line of a call, and its parts with their bytes."""
    number, values, events, left = engine(*call, AMPLE, AMPLE)
    record, store, answers, limit = call
    parts = {"record": record, "store": store, "answers": answers, "events": events}
    for what, data in parts.items():
        assert len(data) <= MOST[what], (what, len(data))
    words = [word(record), word(store), word(answers), limit, number, *values, word(events), word(left)]
    return " ".join(map(str, words)), number, values


def hand_lines(given):
    for what, call, number, ended, steps in given:
        text, found, values = line(call)
        wanted = (number, steps, ended) if number == 0 else (number, 0, 0)
        got = found, values[2], values[3]
        if got != wanted:
            sys.exit("%s: by hand %s, by running.py %s\n%s" % (what, wanted, got, text))
        yield text


def small(call):
    return all(len(part) <= 200 for part in call[:3])


def random_lines(given, count):
    """So many of those that are small, of which a quarter do not run far."""
    left = {True: count * 3 // 4, False: count - count * 3 // 4}
    for call in given:
        text, number, values = line(call)
        ran = number == 0 and values[2] > 2 and (values[3] != LIMIT or values[2] > 20)
        if small(call) and len(text) < 1500 and left[ran]:
            left[ran] -= 1
            yield text
    assert not any(left.values())


def main():
    hand = list(by_hand())
    wide = filter(None, map(in_version_2, calls(WIDE_SEED, 100 * WIDE_RANDOM)))
    lines = [*hand_lines(hand), *random_lines(calls(SEED, 100 * RANDOM), RANDOM),
             *hand_lines(by_hand_wide(hand)), *random_lines(wide, WIDE_RANDOM)]
    text = "".join(line + "\n" for line in lines)
    assert len(text) <= MOST["list"], len(text)
    assert len(set(lines)) == len(lines)
    print(text, end="")
    print("%d lines, %d bytes" % (len(lines), len(text)), file=sys.stderr)


if __name__ == "__main__":
    main()
