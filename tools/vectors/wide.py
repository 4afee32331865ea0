"""Records of version 2 with their rewritings: C1 to C16 with the ids that they
have, and some of the other stored ones with ids on each side of 2^32 and at
2^64-1. A rewriting is the stored one of version 1 with its ids replaced as the
record's are: the ids change nothing else. model.py is only asked whether it
agrees, and tools/oracle/check asks the Rust.

Usage: wide.py > vectors/wide.txt
"""

import sys
from pathlib import Path

from generate import new_ids
from model import rewrite
from record import from_bytes, in_version, to_bytes

VECTORS = Path(__file__).resolve().parents[2] / "vectors"
PHIS = ("phi", "own", "types")
EVERY = {"rewritings.txt": 9, "quotients.txt": 20}  # one line of so many
LONGEST = 180  # bytes of the records that are taken


def worked():
    """C1 to C16, and the ids as they are."""
    for line in (VECTORS / "worked.txt").read_text().splitlines():
        label, record, answer = line.split(" ", 2)
        yield label, record, answer, None


def chosen():
    """Some of the other stored records, to have other ids."""
    for line in (VECTORS / "phis.txt").read_text().splitlines():
        label, record, answer = line.split()
        if label in PHIS:
            yield "phis:" + label, record, answer, new_ids
    for name, every in EVERY.items():
        for n, line in enumerate((VECTORS / name).read_text().splitlines(), 1):
            record, answer = line.split()
            if n % every == 0 and len(record) <= 2 * LONGEST:
                yield "%s:%d" % (name[:-4], n), record, answer, new_ids


def version_2(data, ids):
    return to_bytes(in_version(from_bytes(data), 2, ids))


def lines():
    """Label, record and rewriting or refusal."""
    for label, record, answer, ids in (*worked(), *chosen()):
        record = bytes.fromhex(record)
        changed = ids(from_bytes(record)).get if ids else lambda n: n
        wide = version_2(record, changed)
        if answer.startswith("refused"):
            yield label, wide.hex(), answer
            continue
        out = version_2(bytes.fromhex(answer), changed)
        if rewrite(wide) != out:
            sys.exit("%s: model.py does not agree" % label)
        yield label, wide.hex(), out.hex()


def main():
    for line in lines():
        print(*line)


if __name__ == "__main__":
    main()
