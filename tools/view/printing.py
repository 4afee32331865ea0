"""The text of a function, and two functions side by side.

The text is Bril's. What a record has beyond it stands behind a # and is a
comment to Bril: `#version 2` behind the `{` is the version where it is not 1,
`#7` is an instruction's id, `#7 save` marks a save and `.b0: #saves 1` is a
block's saves field where it is not 0. `#names` lists names in the order of the
record. Names that it does not list follow in the order in which they are first
assigned, those with a reserved text behind the others.
"""

import struct
from itertools import zip_longest

from check import RESERVED
from record import BOOL, CHAR, EFFECT, INT, VALUE, signed, type_text

from reading import Fault

OPERATIONS = {0: "const", **VALUE, **EFFECT}
NAMES_IN_LINE = 8


def literal_text(kind, bits):
    """Every literal by its bits: floats shortest so that they read back, those that are not numbers in hex."""
    if kind == INT:
        return str(signed(bits))
    if kind == BOOL:
        return ("false", "true")[bits]
    if kind == CHAR:
        return "'%s'" % (chr(bits) if 32 <= bits < 127 else "\\u{%x}" % bits)
    value = struct.unpack(">d", bits.to_bytes(8, "big"))[0]
    return "0x%016x" % bits if value != value else repr(value)


def instr_text(f, i, made):
    words = []
    if i.dest is not None:
        words += ["%s =" % name_text(f.names[i.dest])]
    words.append(OPERATIONS[i.code])
    if i.code == 0:
        words.append(literal_text(i.kind, i.literal))
    if i.callee is not None:
        words.append("@f%d" % i.callee)
    words += [f.names[a][1] for a in i.args] + [".b%d" % t for t in i.targets]
    return "  %s; #%d%s" % (" ".join(words), i.id, " save" if i.dest in made else "")


def name_text(name):
    return "%s: %s" % (name[1], type_text(name[0]))


def reserved(f):
    return {n for n, (_, text) in enumerate(f.names) if RESERVED.fullmatch(text)}


def in_order(f):
    """The first name from which on no name has to be listed."""
    assigned = dict.fromkeys(i.dest for b in f.blocks for i in b.instrs if i.dest is not None)
    made = reserved(f)
    place = {n: (n in made, k) for k, n in enumerate(assigned)}
    first = len(f.names)
    while first > f.nargs and first - 1 in place and (first not in place or place[first - 1] < place[first]):
        first -= 1
    return first


def head(f):
    """The lines before the first block."""
    names = [name_text(n) for n in f.names]
    lines = ["@f(%s) {%s" % (", ".join(names[:f.nargs]), " #version %d" % f.version if f.version != 1 else "")]
    listed = names[f.nargs:in_order(f)]
    for k in range(0, len(listed), NAMES_IN_LINE):
        lines.append("  #names " + ", ".join(listed[k:k + NAMES_IN_LINE]))
    return lines


def label(number, block):
    return ".b%d:%s" % (number, " #saves %d" % block.saves if block.saves else "")


def view(f):
    """The lines of one function; saves are told by the text of their dest."""
    made, lines = reserved(f), head(f)
    for number, block in enumerate(f.blocks):
        lines.append(label(number, block))
        lines += [instr_text(f, i, made) for i in block.instrs]
    return lines + ["}"]


def pair_block(number, f, g):
    """The rows of one block: a save beside nothing, every other instruction beside the input's next."""
    made = range(len(f.names), len(g.names))
    left = list(f.blocks[number].instrs)
    rows = []
    for i in g.blocks[number].instrs:
        text = instr_text(g, i, made)
        if i.dest in made:
            rows.append(("", text))
        elif left and (left[0].id, left[0].dest) == (i.id, i.dest):
            rows.append((instr_text(f, left.pop(0), ()), text))
        else:
            raise Fault("offset %d: not a rewriting, the instruction has no partner in block %d of the input"
                        % (i.at, number))
    if left:
        raise Fault("not a rewriting, block %d lacks the instruction with id %d" % (number, left[0].id))
    return rows


def pair(f, g):
    """The rows of an input and its rewriting; saves are told by a dest that the input does not have."""
    if g.version != f.version:
        raise Fault("not a rewriting, its version is %d and the input's %d" % (g.version, f.version))
    if g.nargs != f.nargs or g.names[:len(f.names)] != f.names or len(g.blocks) != len(f.blocks):
        raise Fault("not a rewriting, its arguments, first names or blocks are not the input's")
    rows = list(zip_longest(head(f), head(g), fillvalue=""))
    for number, (b, c) in enumerate(zip(f.blocks, g.blocks)):
        rows.append((label(number, b), label(number, c)))
        rows += pair_block(number, f, g)
    return rows + [("}", "}")]


def columns(rows):
    """Rows as lines: `|` between texts that differ, `>` before one that stands alone."""
    width = max(len(left) for left, _ in rows)
    for left, right in rows:
        sign = " " if left == right else "|" if left else ">"
        yield ("%-*s  %s %s" % (width, left, sign, right)).rstrip()
