"""Puts the figures of stored rewritings into the list that the program
replay_figures replays: a line holds a record, 0, the bytes and the saves of its
rewriting and the count of instructions in each block there; or a record, the
number and offset of its refusal, and 0.

The rewritings are those of C1 to C16, of phis and of the Rust, and two by
model.py: of a function without a block, and of a block with the greatest figure;
then those of version 2. The refusals are C16b and, of each number, the first of
the damaged records, then the first of those of version 2 and above.

Usage: figured.py > crates/replay_figures/stdin
"""

from pathlib import Path

from model import rewrite
from record import from_bytes, from_text, to_bytes

TOP = Path(__file__).resolve().parents[2]
DAMAGED = TOP / "crates" / "replay_check" / "stdin"
CALLS = "arg x int\nblock\n" + "".join("%d x = call @0\n" % n for n in range(256))  # each makes a save


def lines(path):
    return [line.split(" ") for line in path.read_text().splitlines()]


def figures(record, rewriting):
    """The line of a record, by its rewriting."""
    f = from_bytes(bytes.fromhex(rewriting))
    counts = [len(rewriting) // 2, sum(b.saves for b in f.blocks)]
    return " ".join(map(str, [record, 0, *counts, *(len(b.instrs) for b in f.blocks)]))


def refusal(record, number, offset):
    return "%s %s %s 0" % (record, number, offset)


def labelled(name):
    """Prints the lines of a list with labels, in which records may be refused."""
    for _, record, *answer in lines(TOP / "vectors" / name):
        refused = answer[0] == "refused"
        print(refusal(record, answer[1], answer[3]) if refused else figures(record, *answer))


def first_refusals(damaged):
    """Prints the first of the damaged records for each number."""
    found = {}
    for record, number, offset in damaged:
        found.setdefault(int(number), refusal(record, number, offset))
    for number in range(1, 9):
        print(found[number])


def main():
    labelled("worked.txt")
    for name in ("phis.txt", "rewritings.txt"):
        for *_, record, rewriting in lines(TOP / "vectors" / name):
            print(figures(record, rewriting))
    for record in (to_bytes(from_text(text)) for text in ("", CALLS)):
        print(figures(record.hex(), rewrite(record).hex()))
    damaged = lines(DAMAGED)
    first_refusals(damaged)
    labelled("wide.txt")
    first_refusals([line for line in damaged if line[0][8:10] in ("02", "03")])


if __name__ == "__main__":
    main()
