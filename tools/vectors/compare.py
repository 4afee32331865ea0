"""Compares the altered Rust with stored answers, or with the model.

compare.py                     the Rust against vectors/*.txt and the longest record
compare.py --random N [--seed S]   the Rust against model.py on N random records
compare.py --divisions N [--seed S]   the same on N random records of divisions
compare.py --phis N [--seed S]   the same on N random records of phis
compare.py --exhaustive        the same on all small records of exhaustive.py
compare.py --version 2 ...     with those in version 2, every second with other ids
On a record without gt and ge the unaltered Rust must answer the same. Of a
record of version 2 whose ids fit version 1 the Rust's answer, narrowed, must be
that to the record narrowed. The last line is `N passed, M failed`.
"""

import argparse
import os
import subprocess
import sys
from collections import Counter
from pathlib import Path

from check import check
from exhaustive import comparisons, operations, phis as small_phis, short_blocks
from generate import WIDE, divisions, of_version, phis, records
from model import GE, GT, Model, rewrite
from record import from_bytes, in_version, to_bytes, to_text

TOP = Path(__file__).resolve().parents[2]
ORACLE = TOP / "tools/oracle"
PART = 5000


def build():
    """Builds the oracle; where the Rust's sources are missing, `sources` says so."""
    sources = subprocess.run([ORACLE / "sources"], text=True, stdout=subprocess.PIPE)
    if sources.returncode:
        sys.exit(sources.returncode)
    subprocess.run(["cargo", "build", "--release", "--offline", "--quiet"], check=True,
                   cwd=ORACLE, env={**os.environ, "BRIL_SRC": sources.stdout.strip()})


def oracle(inputs, unaltered=False):
    """The Rust's answers to records in hex: a rewriting in hex or `panic`."""
    command = [ORACLE / "target/release/oracle"] + ["--unaltered"] * unaltered
    run = subprocess.run(command, check=True, text=True,
                         input="".join(i + "\n" for i in inputs), stdout=subprocess.PIPE)
    answers = [line.split(" ") for line in run.stdout.splitlines()]
    assert [a[0] for a in answers] == list(inputs)
    return [a[1] for a in answers]


def has_greater(record):
    """Whether a record in hex has gt or ge."""
    f = from_bytes(bytes.fromhex(record))
    return any(i.code in (GT, GE) for b in f.blocks for i in b.instrs)


def both(inputs):
    """Pairs of the altered Rust's answer to a record in hex and whether the
    unaltered one gives the same, None where the record has gt or ge."""
    without = [n for n, record in enumerate(inputs) if not has_greater(record)]
    others = dict(zip(without, oracle([inputs[n] for n in without], unaltered=True)))
    return [(answer, others[n] == answer if n in others else None)
            for n, answer in enumerate(oracle(inputs))]


def narrow_ids(data):
    """Whether a record of version 2 has only ids that version 1 has too."""
    f = from_bytes(data)
    return f.version == 2 and all(i.id < WIDE for b in f.blocks for i in b.instrs)


def narrowed(data):
    """A record of version 2, or its rewriting, in version 1."""
    return to_bytes(in_version(from_bytes(data), 1))


def by_narrowing(inputs, answers):
    """For each record of version 2 with narrow ids whether the Rust's answer to it, narrowed, is that to the
    record narrowed; both in hex."""
    fit = [n for n, record in enumerate(inputs) if narrow_ids(bytes.fromhex(record))]
    again = oracle([narrowed(bytes.fromhex(inputs[n])).hex() for n in fit])
    return {inputs[n]: other == (answers[n] if answers[n] == "panic" else narrowed(bytes.fromhex(answers[n])).hex())
            for n, other in zip(fit, again)}


def say_asked(count):
    print("%d records without gt and ge: the unaltered Rust was asked for them too" % count)


def say_narrowed(count):
    print("%d records of version 2 whose ids fit version 1: compared by narrowing too" % count)


def cases():
    """Label, record and answer of each stored record."""
    for name in ("worked.txt", "phis.txt", "wide.txt"):
        for line in (TOP / "vectors" / name).read_text().splitlines():
            label, *rest = line.split(" ", 2)
            yield [label + " in version 2" * (name == "wide.txt"), *rest]
    for name in ("rewritings.txt", "quotients.txt"):
        for n, line in enumerate((TOP / "vectors" / name).read_text().splitlines(), 1):
            yield ["%s:%d" % (name, n), *line.split(" ", 1)]
    yield ["longest", *((TOP / "crates/run_longest" / end).read_bytes().hex() for end in ("stdin", "stdout"))]


def stored():
    """Pairs of a label and whether it agrees. A refused record is not given
    to the Rust; on C7 and on the records of quotients.txt it is to panic. Both
    are compared with the model alone, as all others are too."""
    asked = [c for c in cases() if not c[2].startswith("refused")]
    answers = dict(zip((c[0] for c in asked), both([c[1] for c in asked])))
    narrow = by_narrowing([c[1] for c in asked], [answers[c[0]][0] for c in asked])
    say_asked(sum(same is not None for _, same in answers.values()))
    say_narrowed(len(narrow))
    for label, record, out in cases():
        by_model = rewrite(bytes.fromhex(record))
        agree = out == (by_model if isinstance(by_model, str) else by_model.hex())
        if label in answers:
            answer, same = answers[label]
            panics = label.split()[0] == "C7" or label.startswith("quotients")
            agree = agree and answer == ("panic" if panics else out) and same is not False and narrow.get(record, True)
        yield label, agree


def parts(items):
    part = []
    for item in items:
        part.append(item)
        if len(part) == PART:
            yield part
            part = []
    yield part


def against_model(items):
    """Counts of agreeing and differing records; shows the smallest that
    differs. The Rust is to panic exactly where a constant division is by 0 or
    of -2^63 by -1."""
    counts, smallest = Counter(), None
    for part in parts(items):
        inputs = [r.hex() for r in part]
        answers = both(inputs)
        narrow = by_narrowing(inputs, [answer for answer, _ in answers])
        counts["narrow"] += len(narrow)
        for record, (answer, same) in zip(part, answers):
            model = Model(from_bytes(record))
            expected = to_bytes(model.rewrite()).hex()
            agree = check(record) is None and answer == ("panic" if model.panics else expected)
            counts["asked"] += same is not None
            if agree and same is not False and narrow.get(record.hex(), True):
                counts["panic" if model.panics else "same"] += 1
                counts["least"] += model.seen["div wraps"] > 0
                continue
            counts["failed"] += 1
            if smallest is None or len(record) < len(smallest[0]):
                smallest = record, expected, answer, same
    say_asked(counts["asked"])
    if counts["narrow"]:
        say_narrowed(counts["narrow"])
    if smallest:
        print(smallest[0].hex(), to_text(from_bytes(smallest[0])), sep="\n")
        print("model", smallest[1], "Rust ", smallest[2], sep="\n")
        if smallest[3] is False:
            print("the unaltered Rust gives another answer")
    print("%d rewritings the same, %d with a panic on a constant division, %d of them with -2^63 by -1"
          % (counts["same"], counts["panic"], counts["least"]))
    return counts["same"] + counts["panic"], counts["failed"]


def main():
    p = argparse.ArgumentParser()
    p.add_argument("--random", type=int)
    p.add_argument("--divisions", type=int)
    p.add_argument("--phis", type=int)
    p.add_argument("--seed", type=int, default=1)
    p.add_argument("--exhaustive", action="store_true")
    p.add_argument("--version", type=int, choices=[1, 2], default=1)
    a = p.parse_args()
    build()
    if a.random is not None:
        passed, failed = against_model(of_version(a.version, records(a.seed, a.random)))
    elif a.divisions is not None:
        passed, failed = against_model(of_version(a.version, divisions(a.seed, a.divisions)))
    elif a.phis is not None:
        passed, failed = against_model(of_version(a.version, phis(a.seed, a.phis)))
    elif a.exhaustive:
        families = operations(), short_blocks(), comparisons(), small_phis()
        passed, failed = map(sum, zip(*(against_model(of_version(a.version, f)) for f in families)))
    else:
        results = list(stored())
        for label, agree in results:
            if not agree:
                print(label, "differs")
        passed = sum(agree for _, agree in results)
        failed = len(results) - passed
    print("%d passed, %d failed" % (passed, failed))
    sys.exit(failed != 0)


if __name__ == "__main__":
    main()
