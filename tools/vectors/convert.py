"""Widening and narrowing, from the sentences of document 02's Point 7."""

from check import check
from record import ID_BYTES, from_bytes, in_version, instr_bytes, to_bytes


def places(f):
    """Each instruction of a function with its offset in the record."""
    at = len(to_bytes(f)) - sum(4 + sum(len(instr_bytes(i, ID_BYTES[f.version])) for i in b.instrs) for b in f.blocks)
    for b in f.blocks:
        at += 4  # its two counts
        for i in b.instrs:
            yield at, i
            at += len(instr_bytes(i, ID_BYTES[f.version]))


def convert(record, version, room):
    """The record in a version, with so many bytes lent: the number, the value and the bytes written."""
    refusal = check(record)
    if refusal:
        return (*refusal, b"")
    f = from_bytes(record)
    for at, i in places(f):
        if i.id >= 256 ** ID_BYTES[version]:
            return 15, at, b""
    out = to_bytes(in_version(f, version))
    return (9, len(out), b"") if len(out) > room else (0, len(out), out)


def widen(record, room):
    return convert(record, 2, room)


def narrow(record, room):
    return convert(record, 1, room)
