"""The longest record that the program takes, 8,192 bytes, and its rewriting.

Every instruction sets the one name, an argument, by a phi without arguments: so
each is preceded by a save, and no shorter instruction would make one. Both are
written out from document 01 and Point 5 of document 02, by no rewriting of ours;
model.py is only asked whether it agrees.

Usage: longest.py record|rewriting|over > FILE   over: the record and a byte
"""

import sys

from model import rewrite
from record import from_text, to_bytes

NAME = "the_one_name_that_every_phi_sets"
BLOCKS, PHIS = 4, 254  # and an empty block


def phis(block):
    """The ids of a block's instructions."""
    return range(block * PHIS, (block + 1) * PHIS)


def record():
    lines = ["arg %s int" % NAME]
    for block in range(BLOCKS):
        lines.append("block")
        lines += ["%d %s = phi" % (n, NAME) for n in phis(block)]
    return to_bytes(from_text("\n".join([*lines, "block"])))


def rewriting():
    saves = ["_%s_lvn%d" % (NAME, n) for n in range(BLOCKS * PHIS)]
    lines = ["arg %s int" % NAME] + ["name %s int" % text for text in saves]
    for block in range(BLOCKS):
        lines.append("block saves %d" % PHIS)
        for n in phis(block):
            lines += ["%d %s = id %s" % (n, saves[n], NAME), "%d %s = phi" % (n, NAME)]
    return to_bytes(from_text("\n".join([*lines, "block"])))


def main():
    assert len(record()) == 8192 and rewrite(record()) == rewriting()
    made = {"record": record(), "rewriting": rewriting(), "over": record() + b"\0"}
    sys.stdout.buffer.write(made[sys.argv[1]])


if __name__ == "__main__":
    main()
