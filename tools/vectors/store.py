"""Chooses the records of vectors/rewritings.txt and writes them with the
altered Rust's rewritings: 100 on which the unaltered Rust writes otherwise, 317
more random ones, then the three at the limits. Or those of
vectors/quotients.txt, with -2^63 by -1 of known operands, on which the Rust
panics, with the rewritings of model.py.

Usage: store.py > vectors/rewritings.txt
       store.py --quotients > vectors/quotients.txt

Of each thing worth showing FEW candidates are taken, the rarest first, and
then the first others; for the 100 FEW_EXCHANGED, and then the first others in
which an exchanged gt or ge shares its number with an lt or le. Long ones and
ones on which the Rust panics are left out.
"""

import itertools
import sys
from collections import Counter

from compare import build, oracle
from generate import divisions, limits, records
from model import Model
from record import BOOL, FLOAT, INT, PHI, from_bytes, to_bytes

SEED, CANDIDATES, LONGEST = 1, 20000, 180
EXCHANGED, FEW_EXCHANGED, COUNT, FEW = 100, 3, 317, 6
QUOTIENTS = 100


def of_exchange(seen):
    """What the model has seen as to gt and ge exchanged, and to the numbers of comparisons."""
    return {what for what in seen if " exchanged" in what or " found as " in what}


def shown(record):
    """What a record is an example of, but for what the first 100 show."""
    f = from_bytes(record)
    model = Model(f)
    out = model.rewrite()
    found = set(model.seen) - of_exchange(model.seen)
    found.add("A %d" % f.nargs)
    found.update("type %x" % t for t, _ in f.names)
    found.add("%d blocks with saves" % sum(b.saves > 0 for b in out.blocks))
    found.update("long save" for _, text in out.names[len(f.names):] if len(text) > 32)
    for block in f.blocks:
        codes = [i.code for i in block.instrs]
        found.add("empty block" if not codes else "block ends with %d" % max(codes[-1], 63))
        loads = [i.args for i in block.instrs if i.code == 38]
        found.update("load twice" for a in loads if loads.count(a) > 1)
        phis = [(i.args, i.targets) for i in block.instrs if i.code == PHI]
        found.update("phi twice" for p in phis if phis.count(p) > 1)
        found.update(["phi last"] * (codes[-1:] == [PHI]))
        for i in block.instrs:
            found.add("code %d" % i.code)
            if i.code in (20, PHI, 67, 68):
                found.add("code %d with %d" % (i.code, len(i.args)))
            if i.kind not in (None, INT, BOOL):
                found.add("kind %d" % i.kind)
            if i.kind == INT and f.names[i.dest][0] == FLOAT:
                found.add("int in a float")
            if i.kind == FLOAT and i.literal << 1 & (1 << 64) - 1 > 0xFFE << 52:
                found.add("NaN")
    return found


def exchanges(record):
    """What a record is an example of as to gt and ge."""
    model = Model(from_bytes(record))
    model.rewrite()
    return of_exchange(model.seen)


def meet(seen):
    """Whether gt and lt, or ge and le, share a number."""
    shared = [what.split(",")[0].split(" found as ") for what in seen if " found as " in what]
    return any(a != b for a, b in shared)


def shares(found):
    """The same, and no gt or ge is of a number with itself."""
    return meet(found) and not any("with itself" in what for what in found)


def take(found, count, few, others):
    """The places of count records: few with each thing found, then the first others."""
    total = Counter(what for f in found for what in f)
    counts, taken = Counter(), set()
    for what in sorted(total, key=lambda w: (total[w], w)):
        for n, f in enumerate(found):
            if counts[what] < few and what in f and n not in taken:
                counts.update(f)
                taken.add(n)
    more = [n for n in others if n not in taken]
    taken.update(more[:count - len(taken)])
    assert len(taken) == count
    return sorted(taken)


def choose():
    """Pairs of record and rewriting in hex."""
    candidates = [r for r in records(SEED, CANDIDATES) if len(r) <= LONGEST]
    asked = [c.hex() for c in candidates]
    answers, unaltered = oracle(asked), oracle(asked, unaltered=True)
    whole = [n for n, answer in enumerate(answers) if answer != "panic"]
    differ = [n for n in whole if answers[n] != unaltered[n]]
    found = [exchanges(candidates[n]) for n in differ]
    sharing = [k for k, f in enumerate(found) if shares(f)]
    first = [differ[k] for k in take(found, EXCHANGED, FEW_EXCHANGED, sharing)]
    rest = [n for n in whole if n not in first]
    more = take([shown(candidates[n]) for n in rest], COUNT, FEW, range(len(rest)))
    return [(asked[n], answers[n]) for n in first + [rest[k] for k in more]]


def at_limits():
    """The records at the limits of the first seed on which none panics."""
    for seed in itertools.count(SEED):
        ends = [r.hex() for r in limits(seed)]
        pairs = list(zip(ends, oracle(ends)))
        if all(out != "panic" for _, out in pairs):
            return pairs


def of_least(record):
    """Whether -2^63 by -1 is met, with both known."""
    model = Model(from_bytes(record))
    model.rewrite()
    return model.seen["div wraps"] > 0


def quotients():
    """Pairs of record and rewriting in hex, the latter by the model."""
    short = (r for r in divisions(SEED, CANDIDATES) if len(r) <= LONGEST)
    chosen = list(itertools.islice(filter(of_least, short), QUOTIENTS))
    assert set(oracle([r.hex() for r in chosen])) == {"panic"}
    return [(r.hex(), to_bytes(Model(from_bytes(r)).rewrite()).hex()) for r in chosen]


def main():
    build()
    for pair in quotients() if sys.argv[1:] == ["--quotients"] else choose() + at_limits():
        print(*pair)


if __name__ == "__main__":
    main()
