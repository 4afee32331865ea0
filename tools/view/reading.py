"""Reads a record or a rewriting, or says what is wrong and at which offset.

Tested is what a text of the record needs: each field is there, each text, code
and literal can be written down, each name and block is in the record. Limits,
reserved texts, the place of jmp, br and ret, and types are left to check: a
record that it refuses for one of these can be looked at.
"""

import re
import sys
from pathlib import Path

from check import COUNTS, TEXT
from record import BOOL, CALLS, CHAR, ID_BYTES, Block, Function, Instr, target_count


REFUSAL = re.compile(rb"refused [0-9]+ at [0-9]+\n")


class Fault(Exception):
    """What is wrong, and where."""


def load(path, as_hex=False):
    """The bytes of a file, of standard input for `-`; of hex if so told."""
    try:
        data = sys.stdin.buffer.read() if path == "-" else Path(path).read_bytes()
    except OSError as e:
        raise Fault(e.strerror)
    if not as_hex:
        return data
    other = re.search(rb"[^0-9a-fA-F\s]", data)
    if other:
        raise Fault("offset %d: not a hex digit" % other.start())
    digits = b"".join(data.split()).decode()
    if len(digits) % 2:
        raise Fault("offset %d: half a byte of hex at the end" % len(data.rstrip()))
    return bytes.fromhex(digits)


def is_scalar(number):
    """Whether a number is a Unicode scalar value."""
    return number <= 0x10FFFF and not 0xD800 <= number <= 0xDFFF


def counted(number, what):
    return "%d %s%s" % (number, what, "" if number == 1 else "s")


class Reader:
    def __init__(self, data):
        self.data, self.at, self.field, self.texts = data, 0, 0, set()

    def fault(self, what):
        raise Fault("offset %d: %s" % (self.field, what))

    def take(self, size, what):
        self.field = self.at
        if self.at + size > len(self.data):
            self.fault("cut short, %s expected" % what)
        self.at += size
        return self.data[self.field:self.at]

    def number(self, size, what):
        return int.from_bytes(self.take(size, what), "big")

    def index(self, count, what):
        """A name or a block of the record, by number."""
        number = self.number(2, what + " number")
        if number >= count:
            self.fault("%s number %d, but the record has %d" % (what, number, count))
        return number

    def length(self):
        if REFUSAL.fullmatch(self.data):
            self.fault("not a record but a refusal: %s" % self.data.decode().rstrip())
        length, rest = self.number(4, "length"), len(self.data) - 4
        if length != rest:
            self.fault("%s: the length says %d, but %s follow it"
                       % ("cut short" if rest < length else "too long", length, counted(rest, "byte")))

    def function(self):
        self.length()
        version = self.number(1, "version")
        if version not in ID_BYTES:
            self.fault("version %d, not 1 or 2" % version)
        self.width = ID_BYTES[version]
        f = Function(self.number(1, "number of arguments"), version=version)
        names = self.number(2, "number of names")
        if f.nargs > names:
            self.fault("%s, but %s" % (counted(names, "name"), counted(f.nargs, "argument")))
        f.names = [self.name() for _ in range(names)]
        blocks = self.number(2, "number of blocks")
        f.blocks = [self.block(names, blocks) for _ in range(blocks)]
        self.field = self.at
        if self.at < len(self.data):
            self.fault("%s left over" % counted(len(self.data) - self.at, "byte"))
        return f

    def name(self):
        type_ = self.number(1, "type")
        if type_ & 15 > CHAR:
            self.fault("no type %02x" % type_)
        length = self.number(1, "text length")
        if length == 0:
            self.fault("a name without text")
        text = self.take(length, "text").decode("latin-1")
        if not TEXT.fullmatch(text):
            self.fault("no text of a name: %r" % text[:32])
        if text in self.texts:
            self.fault("a second name %s" % text)
        self.texts.add(text)
        return type_, text

    def block(self, names, blocks):
        n, saves = self.number(2, "number of instructions"), self.number(2, "number of saves")
        return Block([self.instr(names, blocks) for _ in range(n)], saves)

    def instr(self, names, blocks):
        at = self.at
        i = Instr(self.number(self.width, "id"), self.number(1, "code"))
        i.at = at  # where it stands, for messages
        if i.code not in COUNTS:
            self.fault("unknown code %d" % i.code)
        if i.code < 64:
            i.dest = self.index(names, "name")
        if i.code == 0:
            i.kind, i.literal = self.literal()
            return i
        count = self.number(1, "argument count")
        least, most = COUNTS[i.code]
        if not least <= count <= most:
            self.fault("code %d with %s" % (i.code, counted(count, "argument")))
        i.args = [self.index(names, "name") for _ in range(count)]
        if i.code in CALLS:
            i.callee = self.number(2, "callee")
        i.targets = [self.index(blocks, "block") for _ in range(target_count(i.code, count))]
        return i

    def literal(self):
        kind = self.number(1, "literal kind")
        if kind > CHAR:
            self.fault("no literal kind %d" % kind)
        literal = self.number(8, "literal")
        if kind == BOOL and literal > 1:
            self.fault("no bool literal: %d" % literal)
        if kind == CHAR and not is_scalar(literal):
            self.fault("no char literal: %d" % literal)
        return kind, literal


def read(data):
    return Reader(data).function()
