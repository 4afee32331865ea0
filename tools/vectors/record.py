"""Function records: the values, their bytes and a readable text of them.

A text has one line per item, indices by name and blocks by number:

    version 2                     ids have eight bytes; left out, version 1
    arg a int                     an argument
    name p ptr<ptr<int>>          any other name
    block                         starts a block; `block saves 1` in a rewriting
    7 x = const int -5            id, dest, literal kind, literal
    8 f = const float 7ff8000000000001   float literals are bits in hex
    9 x = call @300 a b           value code, callee, arguments
    10 br c .1 .2                 effect code, arguments, block numbers
    11 x = phi a b .0 .1          arguments, then a block number for each
"""

import struct
from dataclasses import dataclass, field, replace

VALUE = {
    1: "add", 2: "sub", 3: "mul", 4: "div", 5: "eq", 6: "lt", 7: "gt",
    8: "le", 9: "ge", 10: "not", 11: "and", 12: "or", 13: "id", 14: "ptradd",
    20: "call", 21: "fadd", 22: "fsub", 23: "fmul", 24: "fdiv", 25: "feq",
    26: "flt", 27: "fgt", 28: "fle", 29: "fge", 30: "ceq", 31: "clt",
    32: "cgt", 33: "cle", 34: "cge", 35: "char2int", 36: "int2char",
    37: "alloc", 38: "load", 39: "phi",
}
EFFECT = {
    64: "jmp", 65: "br", 66: "ret", 67: "call", 68: "print", 69: "nop",
    70: "store", 71: "free",
}
VALUE_CODE = {text: code for code, text in VALUE.items()}
EFFECT_CODE = {text: code for code, text in EFFECT.items()}
CALLS = (20, 67)
PHI = 39
TARGETS = {64: 1, 65: 2}
KINDS = ("int", "bool", "float", "char")
ID_BYTES = {1: 4, 2: 8}  # of each version

INT, BOOL, FLOAT, CHAR = range(4)
POINTER = 0x10


@dataclass
class Instr:
    id: int
    code: int
    dest: int = None
    kind: int = None
    literal: int = None  # the 8 bytes, unsigned
    args: list = field(default_factory=list)
    callee: int = None
    targets: list = field(default_factory=list)


@dataclass
class Block:
    instrs: list = field(default_factory=list)
    saves: int = 0


@dataclass
class Function:
    nargs: int = 0
    names: list = field(default_factory=list)  # (type, text)
    blocks: list = field(default_factory=list)
    version: int = 1


def in_version(f, version, ids=lambda n: n):
    """The function in a version, each id replaced by what `ids` gives of it."""
    blocks = [Block([replace(i, id=ids(i.id)) for i in b.instrs], b.saves) for b in f.blocks]
    return Function(f.nargs, f.names, blocks, version)


def target_count(code, count):
    """How many block numbers stand behind so many arguments."""
    return count if code == PHI else TARGETS.get(code, 0)


# Bytes

def instr_bytes(i, width):
    out = i.id.to_bytes(width, "big") + bytes([i.code])
    if i.code == 0:
        return out + struct.pack(">HBQ", i.dest, i.kind, i.literal)
    if i.code in VALUE:
        out += struct.pack(">H", i.dest)
    out += bytes([len(i.args)])
    words = list(i.args)
    if i.code in CALLS:
        words.append(i.callee)
    words += i.targets
    return out + b"".join(struct.pack(">H", w) for w in words)


def to_bytes(f):
    out = struct.pack(">BBH", f.version, f.nargs, len(f.names))
    for type_, text in f.names:
        out += bytes([type_, len(text)]) + text.encode()
    out += struct.pack(">H", len(f.blocks))
    for b in f.blocks:
        out += struct.pack(">HH", len(b.instrs), b.saves)
        out += b"".join(instr_bytes(i, ID_BYTES[f.version]) for i in b.instrs)
    return struct.pack(">I", len(out)) + out


class Cursor:
    def __init__(self, data):
        self.data, self.at = data, 0

    def take(self, size):
        part = self.data[self.at:self.at + size]
        if len(part) < size:
            raise ValueError("past the end at %d" % self.at)
        self.at += size
        return part

    def number(self, size):
        return int.from_bytes(self.take(size), "big")


def read_instr(c, width):
    i = Instr(c.number(width), c.number(1))
    if i.code == 0:
        i.dest, i.kind, i.literal = c.number(2), c.number(1), c.number(8)
        return i
    if i.code in VALUE:
        i.dest = c.number(2)
    elif i.code not in EFFECT:
        raise ValueError("code %d" % i.code)
    count = c.number(1)
    i.args = [c.number(2) for _ in range(count)]
    if i.code in CALLS:
        i.callee = c.number(2)
    i.targets = [c.number(2) for _ in range(target_count(i.code, count))]
    return i


def from_bytes(data):
    """Reads a well-formed record or rewriting; limits are check's."""
    c = Cursor(data)
    length, version = c.number(4), c.number(1)
    if length != len(data) - 4 or version not in ID_BYTES:
        raise ValueError("length or version")
    f = Function(c.number(1), version=version)
    for _ in range(c.number(2)):
        type_ = c.number(1)
        f.names.append((type_, c.take(c.number(1)).decode()))
    for _ in range(c.number(2)):
        n, saves = c.number(2), c.number(2)
        f.blocks.append(Block([read_instr(c, ID_BYTES[version]) for _ in range(n)], saves))
    if c.at != len(data):
        raise ValueError("bytes left over")
    return f


# Text

def type_text(t):
    return "ptr<" * (t >> 4) + KINDS[t & 15] + ">" * (t >> 4)


def type_byte(text):
    depth = text.count("ptr<")
    return depth * POINTER + KINDS.index(text.replace("ptr<", "").rstrip(">"))


def signed(u):
    return u - (1 << 64) if u >> 63 else u


def unsigned(i):
    return i & ((1 << 64) - 1)


def instr_text(f, i):
    def name(n):
        return f.names[n][1]
    words = [str(i.id)]
    if i.dest is not None:
        words += [name(i.dest), "="]
    if i.code == 0:
        lit = "%016x" % i.literal if i.kind == FLOAT else str(signed(i.literal))
        return " ".join(words + ["const", KINDS[i.kind], lit])
    words.append(VALUE.get(i.code) or EFFECT[i.code])
    if i.code in CALLS:
        words.append("@%d" % i.callee)
    words += [name(a) for a in i.args] + [".%d" % t for t in i.targets]
    return " ".join(words)


def to_text(f):
    lines = ["version %d" % f.version] * (f.version != 1)
    for n, (type_, text) in enumerate(f.names):
        lines.append("%s %s %s" % ("arg" if n < f.nargs else "name", text,
                                   type_text(type_)))
    for b in f.blocks:
        lines.append("block saves %d" % b.saves if b.saves else "block")
        lines += [instr_text(f, i) for i in b.instrs]
    return "\n".join(lines) + "\n"


def read_words(f, words):
    index = {text: n for n, (_, text) in enumerate(f.names)}
    i = Instr(int(words[0]), 0)
    if words[2:3] == ["="]:
        i.dest, op, rest = index[words[1]], words[3], words[4:]
        if op == "const":
            i.kind = KINDS.index(rest[0])
            i.literal = unsigned(int(rest[1], 16 if i.kind == FLOAT else 10))
            return i
        i.code = VALUE_CODE[op]
    else:
        i.code, rest = EFFECT_CODE[words[1]], words[2:]
    if i.code in CALLS:
        i.callee, rest = int(rest[0][1:]), rest[1:]
    split = len(rest) - target_count(i.code, len(rest) // 2)
    i.args = [index[w] for w in rest[:split]]
    i.targets = [int(w[1:]) for w in rest[split:]]
    return i


def from_text(text):
    f = Function()
    for line in text.splitlines():
        words = line.split()
        if not words:
            continue
        if words[0] == "version":
            f.version = int(words[1])
        elif words[0] in ("arg", "name"):
            f.nargs += words[0] == "arg"
            f.names.append((type_byte(words[2]), words[1]))
        elif words[0] == "block":
            f.blocks.append(Block(saves=int(words[2]) if words[1:] else 0))
        else:
            f.blocks[-1].instrs.append(read_words(f, words))
    return f
