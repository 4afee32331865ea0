"""Puts C13 to C16, the records of phis, all other stored rewritings and those of
version 2 into the list that the program replay_rewrite replays: a line holds a
record, 0, its saves and its rewriting, or a record and the number and offset of
its refusal.

Usage: cases.py > crates/replay_rewrite/stdin
"""

from pathlib import Path

VECTORS = Path(__file__).resolve().parents[2] / "vectors"
FIRST = 13


def names(record):
    """The number of names of a record in hex."""
    return int(record[12:16], 16)


def case(record, answer):
    """The line of a record whose answer is a rewriting or a refusal."""
    if answer[0] == "refused":
        return "%s %s %s" % (record, answer[1], answer[3])
    return "%s 0 %d %s" % (record, names(answer[0]) - names(record), answer[0])


def main():
    for line in (VECTORS / "worked.txt").read_text().splitlines():
        label, record, *answer = line.split()
        if int(label[1:].rstrip("ab")) >= FIRST:
            print(case(record, answer))
    for name in ("phis.txt", "rewritings.txt", "quotients.txt"):
        for line in (VECTORS / name).read_text().splitlines():
            record, answer = line.split()[-2:]
            print(case(record, [answer]))
    for line in (VECTORS / "wide.txt").read_text().splitlines():
        _, record, *answer = line.split()
        print(case(record, answer))


if __name__ == "__main__":
    main()
