"""Counts over records in hex, one first on each line of standard input: the
instructions of each code, and what the numbering did with them."""

import sys
from collections import Counter

from model import Model
from record import EFFECT, PHI, VALUE, from_bytes
from store import meet

TEXTS = {0: "const", **VALUE, **EFFECT, 67: "call (effect)"}


def main():
    codes, seen, kinds, phis, more = Counter(), Counter(), Counter(), Counter(), Counter()
    for line in sys.stdin:
        f = from_bytes(bytes.fromhex(line.split()[0]))
        model = Model(f)
        out = model.rewrite()
        seen += model.seen
        with_saves = sum(b.saves > 0 for b in out.blocks)
        more["records"] += 1
        more["with a save"] += with_saves > 0
        more["with saves in several blocks"] += with_saves > 1
        more["unchanged"] += out == f
        more["with gt or ge exchanged"] += any(" exchanged" in what for what in model.seen)
        more["with gt and lt or ge and le of one number"] += meet(model.seen)
        more["blocks"] += len(f.blocks)
        more["empty blocks"] += sum(not b.instrs for b in f.blocks)
        for i in (i for b in f.blocks for i in b.instrs):
            codes[i.code] += 1
            phis.update(["of %d" % len(i.args)] * (i.code == PHI))
            if i.code == 0:
                of_float = i.kind == 0 and f.names[i.dest][0] == 2
                kinds[("int", "bool", "float", "char")[i.kind] + " as float" * of_float] += 1
    more["instructions"] = sum(codes.values())
    for title, table in (("Records", more), ("Literals", kinds), ("Phis", phis), ("Numbering", seen)):
        rows = table.items() if table is more else sorted(table.items())
        print("%s: %s." % (title, ", ".join("%s %d" % row for row in rows)))
    print("Codes:", ", ".join("%s %d" % (TEXTS[c], codes[c]) for c in sorted(TEXTS)) + ".")


if __name__ == "__main__":
    main()
