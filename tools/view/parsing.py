"""Makes a function of the text that view prints, or says what is wrong and in which line.

One item stands in each line. A # with a word right behind it is read: `#7` (an
id; left out, it is one more than the last, the first 1), `#saves 1`, `#names`,
and `#version 2` behind the `{` (left out, the version is 1).
A # with a space behind it, and what follows `#7 `, is for people. Names that
`#names` does not list follow in the order in which they are first assigned,
those with a reserved text behind the others. Labels may have any text. Limits
and types are left to check.
"""

import math
import re
import struct

from check import COUNTS, RESERVED, TEXT
from record import (BOOL, CALLS, CHAR, EFFECT_CODE, FLOAT, ID_BYTES, INT, PHI, TARGETS, VALUE_CODE, Block, Function, Instr,
                    target_count, type_byte, type_text, unsigned)

from reading import Fault, counted, is_scalar

PIECE = re.compile(r"\s*(#.*|'(?:\\u\{[0-9a-f]{1,6}\}|.)'|[(){},;:=]|[^\s(){},;:='#]+)")
TYPE = re.compile(r"(ptr<){0,15}(int|bool|float|char)>{0,15}")
LABEL = re.compile(r"\.[A-Za-z0-9_.]+")
INT_TEXT = re.compile(r"-?[0-9]{1,19}")
FLOAT_TEXT = re.compile(r"-?(inf|[0-9]+\.[0-9]+(e[-+]?[0-9]+)?|[0-9]+e[-+]?[0-9]+)")
BITS_TEXT = re.compile(r"0x[0-9a-f]{16}")
CHAR_TEXT = re.compile(r"'(?:\\u\{([0-9a-f]{1,6})\}|(.))'")
BYTE, WORD = (1 << 8) - 1, (1 << 16) - 1


def pieces(line):
    """Words and signs of a line, and what a # at its end tells us."""
    found, at, line = [], 0, line.rstrip()
    while at < len(line):
        m = PIECE.match(line, at)
        if not m:
            raise Fault("cannot be read from here on: %s" % line[at:].strip())
        found.append(m.group(1))
        at = m.end()
    mark = found.pop()[1:] if found and found[-1][0] == "#" else ""
    return found, "" if mark[:1] == "#" or mark[:1].isspace() else mark


def number(text, most, what):
    if not re.fullmatch("[0-9]{1,20}", text) or int(text) > most:
        raise Fault("%s is a number from 0 to %d, not %s" % (what, most, text or "nothing"))
    return int(text)


def type_of(text):
    if not TYPE.fullmatch(text) or text.count("<") != text.count(">"):
        raise Fault("no type: %s" % text)
    return type_byte(text)


def float_bits(text):
    value = float(text)
    if math.isinf(value) and "inf" not in text:
        raise Fault("%s is too large for a float" % text)
    return struct.unpack(">Q", struct.pack(">d", value))[0]


def literal(text):
    """Kind and bits."""
    if INT_TEXT.fullmatch(text) and -1 << 63 <= int(text) < 1 << 63:
        return INT, unsigned(int(text))
    if text in ("false", "true"):
        return BOOL, int(text == "true")
    if FLOAT_TEXT.fullmatch(text):
        return FLOAT, float_bits(text)
    if BITS_TEXT.fullmatch(text):
        return FLOAT, int(text, 16)
    char = CHAR_TEXT.fullmatch(text)
    if char:
        scalar = ord(char[2]) if char[2] else int(char[1], 16)
        if is_scalar(scalar):
            return CHAR, scalar
    raise Fault("no literal: %s" % text)


def put(items, item, most, what):
    if len(items) == most:
        raise Fault("more than %d %s" % (most, what))
    items.append(item)


class Parser:
    def __init__(self):
        self.f, self.labels, self.waiting = Function(), {}, []
        self.listed, self.made = {}, {}  # types by text; made: first assigned under a reserved text
        self.line_number, self.last_id, self.place = 0, 0, "before"

    def line(self, line):
        self.line_number += 1
        code, mark = pieces(line)
        if not code and mark:
            self.names(mark)
        elif self.place == "before" and code:
            self.header(code, mark)
        elif self.place == "behind" and code:
            raise Fault("nothing stands behind the closing }")
        elif code == ["}"] and not mark:
            self.place = "behind"
        elif code[1:] == [":"]:
            self.label(code[0], mark)
        elif code:
            self.instr(code, mark)

    def name(self, names, text, type_):
        if not TEXT.fullmatch(text) or len(text) > BYTE:
            raise Fault("no text of a name: %s" % text)
        if text in self.listed or text in self.made:
            raise Fault("a second name %s" % text)
        if len(self.listed) + len(self.made) == WORD:
            raise Fault("more than %d names" % WORD)
        names[text] = type_of(type_)

    def list_of_names(self, code):
        """`a: int, b: int`."""
        for k in range(0, len(code), 4):
            part = code[k:k + 4]
            if len(part) < 3 or part[1] != ":" or part[3:] not in ([], [","]) or k + 4 == len(code):
                raise Fault("name: type expected, with commas between")
            self.name(self.listed, part[0], part[2])

    def header(self, code, mark):
        if code[0][0] != "@" or code[1:2] != ["("] or code[-2:] != [")", "{"]:
            raise Fault("@f(name: type, ...) { expected")
        if mark:
            self.version(mark)
        self.list_of_names(code[2:-2])
        if len(self.listed) > BYTE:
            raise Fault("more than %d arguments" % BYTE)
        self.f.nargs, self.place = len(self.listed), "inside"

    def version(self, mark):
        word, _, rest = mark.partition(" ")
        if word != "version":
            raise Fault("#%s is not known here" % word)
        versions = {str(version): version for version in ID_BYTES}
        if rest.strip() not in versions:
            raise Fault("a version is 1 or 2, not %s" % (rest.strip() or "nothing"))
        self.f.version = versions[rest.strip()]

    def names(self, mark):
        word, _, rest = mark.partition(" ")
        if word != "names" or self.place != "inside":
            raise Fault("#%s is not known here" % word)
        self.list_of_names(pieces(rest)[0])

    def label(self, text, mark):
        if not LABEL.fullmatch(text) or text in self.labels:
            raise Fault("no label, or a second one: %s" % text)
        word, _, saves = mark.partition(" ")
        if word not in ("", "saves"):
            raise Fault("#%s is not known here" % word)
        self.labels[text] = len(self.f.blocks)
        put(self.f.blocks, Block(saves=number(saves.strip(), WORD, "saves") if word else 0), WORD, "blocks")

    def instr(self, code, mark):
        if code[-1] != ";":
            raise Fault("; expected at the end")
        words = code[:-1]
        most = 256 ** ID_BYTES[self.f.version] - 1
        self.last_id = number(mark.split()[0] if mark else str(self.last_id + 1), most, "an id of version %d" % self.f.version)
        dest = words[0] if words[1:2] == [":"] else None
        if dest is not None:
            words = self.assigned(words)
        codes = EFFECT_CODE if dest is None else {"const": 0, **VALUE_CODE}
        if not words or words[0] not in codes:
            raise Fault("no operation with%s a dest: %s" % ("out" * (dest is None), words[0] if words else "nothing"))
        i = Instr(self.last_id, codes[words[0]])
        args, targets = self.operands(i, words)
        self.waiting.append((self.line_number, i, dest, args, targets))
        if not self.f.blocks:
            self.f.blocks.append(Block())
        put(self.f.blocks[-1].instrs, i, WORD, "instructions in a block")

    def assigned(self, words):
        """What stands behind `x: int =`."""
        if len(words) < 5 or words[3] != "=":
            raise Fault("name: type = operation expected")
        text, type_ = words[0], words[2]
        names = self.listed if text in self.listed or not RESERVED.fullmatch(text) else self.made
        if text not in names:
            self.name(names, text, type_)
        if names[text] != type_of(type_):
            raise Fault("%s is of type %s" % (text, type_text(names[text])))
        return words[4:]

    def operands(self, i, words):
        """Takes literal and callee; gives back the texts of arguments and labels, which may be known only at the end."""
        rest = words[1:]
        if i.code == 0:
            if len(rest) != 1:
                raise Fault("const takes one literal")
            i.kind, i.literal = literal(rest[0])
            return [], []
        if i.code in CALLS:
            if not rest or rest[0][:2] != "@f":
                raise Fault("@f and a number expected behind call")
            i.callee = number(rest.pop(0)[2:], WORD, "a callee")
        split = len(rest) - target_count(i.code, len(rest) // 2)
        least, most = COUNTS[i.code]
        args, labels = rest[:split], rest[split:]
        if not least <= split <= most or i.code == PHI and not self.one_each(args, labels):
            takes = "" if least == most else "%d to " % least
            behind = " and as many labels" if i.code == PHI else ""
            if i.code in TARGETS:
                behind = " and %s" % counted(TARGETS[i.code], "label")
            raise Fault("%s takes %s%s%s" % (words[0], takes, counted(most, "argument"), behind))
        return args, labels

    @staticmethod
    def one_each(args, labels):
        """Whether there is a label for each argument; a name may look like a label."""
        return len(args) == len(labels) and all(LABEL.fullmatch(label) for label in labels)

    def end(self):
        if self.place != "behind":
            raise Fault("@f(name: type, ...) { expected" if self.place == "before" else "} expected")
        names = {**self.listed, **self.made}
        self.f.names = [(type_, text) for text, type_ in names.items()]
        index = {text: n for n, text in enumerate(names)}
        for line_number, i, dest, args, targets in self.waiting:
            self.line_number = line_number
            i.dest = index.get(dest)
            i.args = [self.found(index, a, "name") for a in args]
            i.targets = [self.found(self.labels, t, "label") for t in targets]
        return self.f

    def found(self, table, text, what):
        if text not in table:
            raise Fault("no such %s: %s" % (what, text))
        return table[text]


def parse(data):
    """The function of a text in bytes."""
    p = Parser()
    try:
        for line in data.decode().split("\n"):
            p.line(line)
        return p.end()
    except UnicodeDecodeError as e:
        raise Fault("line %d: not text" % (data[:e.start].count(b"\n") + 1))
    except Fault as e:
        raise Fault("line %d: %s" % (p.line_number, e))
