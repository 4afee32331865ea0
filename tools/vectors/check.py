"""Document 01's check: the first refusal of a record, or None if accepted.

Written from document 01 and Points 5 and 7 of document 02, with a reader of its own.
"""

import re

from record import BOOL, CHAR, FLOAT, ID_BYTES, INT, POINTER

RESERVED = re.compile(r"_.+_lvn[0-9]+", re.DOTALL)
TEXT = re.compile(r"[A-Za-z_.][A-Za-z0-9_.]*")

# Least and greatest argument count of each code.
COUNTS = {0: None}
COUNTS.update((c, (2, 2)) for c in (*range(1, 10), 11, 12, 14, *range(21, 35), 70))
COUNTS.update((c, (1, 1)) for c in (10, 13, *range(35, 39), 65, 71))
COUNTS.update((c, (0, 0)) for c in (64, 69))
COUNTS.update({20: (0, 8), 39: (0, 8), 67: (0, 8), 68: (0, 8), 66: (0, 1)})

# Types of the arguments and of dest, for codes where these are fixed.
FIXED = {c: ((INT, INT), INT) for c in range(1, 5)}
FIXED.update((c, ((INT, INT), BOOL)) for c in range(5, 10))
FIXED.update({10: ((BOOL,), BOOL), 11: ((BOOL, BOOL), BOOL), 12: ((BOOL, BOOL), BOOL)})
FIXED.update((c, ((FLOAT, FLOAT), FLOAT)) for c in range(21, 25))
FIXED.update((c, ((FLOAT, FLOAT), BOOL)) for c in range(25, 30))
FIXED.update((c, ((CHAR, CHAR), BOOL)) for c in range(30, 35))
FIXED.update({35: ((CHAR,), INT), 36: ((INT,), CHAR), 65: ((BOOL,), None)})


class Refusal(Exception):
    pass


class Check:
    def __init__(self, data):
        self.data, self.at, self.field = data, 0, 0

    def refuse(self, number, offset=None):
        raise Refusal(number, self.field if offset is None else offset)

    def take(self, size):
        """The next field: past the end comes before its value."""
        self.field = self.at
        if self.at + size > len(self.data):
            self.refuse(1)
        self.at += size
        return self.data[self.field:self.at]

    def number(self, size, limit=None, refusal=3):
        value = int.from_bytes(self.take(size), "big")
        if limit is not None and value > limit:
            self.refuse(refusal)
        return value

    def name(self):
        return self.number(2, self.names - 1, 6)

    def record(self):
        if len(self.data) < 4 or self.number(4) != len(self.data) - 4:
            self.refuse(1, 0)
        version = self.number(1)
        if version not in ID_BYTES:
            self.refuse(2)
        self.width = ID_BYTES[version]
        nargs = self.number(1, 16)
        self.names = self.number(2, 256)
        if nargs > self.names:
            self.refuse(3)
        self.types, texts = [], set()
        for _ in range(self.names):
            self.types.append(self.number(1))
            if self.types[-1] & 15 > 3:
                self.refuse(3)
            length = self.number(1, 32)
            if length == 0:
                self.refuse(3)
            text = self.take(length).decode("latin-1")
            if not TEXT.fullmatch(text) or RESERVED.fullmatch(text) or text in texts:
                self.refuse(4)
            texts.add(text)
        self.blocks = self.number(2, 64)
        instrs = []
        for _ in range(self.blocks):
            n = self.number(2, 256)
            self.number(2, 0)
            instrs += [self.instr(place == n - 1) for place in range(n)]
        if self.at < len(self.data):
            self.refuse(1, self.at)
        for offset, code, dest, kind, args in instrs:
            if not self.typed(code, dest, kind, args):
                self.refuse(7, offset)

    def instr(self, last):
        offset = self.at
        self.number(self.width)
        code = self.number(1)
        if code not in COUNTS:
            self.refuse(5)
        if code in (64, 65, 66) and not last:
            self.refuse(8)
        dest = self.name() if code < 64 else None
        if code == 0:
            kind = self.number(1, 3)
            literal = self.number(8)
            surrogate = 0xD800 <= literal <= 0xDFFF
            if kind == BOOL and literal > 1:
                self.refuse(3)
            if kind == CHAR and (literal > 0x10FFFF or surrogate):
                self.refuse(3)
            return offset, code, dest, kind, ()
        count = self.number(1)
        least, greatest = COUNTS[code]
        if not least <= count <= greatest:
            self.refuse(3)
        args = [self.name() for _ in range(count)]
        if code in (20, 67):
            self.number(2)
        for _ in range({39: count, 64: 1, 65: 2}.get(code, 0)):
            self.number(2, self.blocks - 1, 6)
        return offset, code, dest, None, args

    def typed(self, code, dest, kind, args):
        to = None if dest is None else self.types[dest]
        of = tuple(self.types[a] for a in args)
        if code == 0:
            return to == kind or (kind == INT and to == FLOAT)
        if code in FIXED:
            return FIXED[code] == (of, to)
        if code == 13:
            return of[0] == to
        if code == 14:
            return of[0] >= POINTER and of[1] == INT and to == of[0]
        if code == 37:
            return of[0] == INT and to >= POINTER
        if code == 38:
            return of[0] >= POINTER and to == of[0] - POINTER
        if code == 39:
            return all(t == to for t in of)
        if code == 70:
            return of[0] >= POINTER and of[1] == of[0] - POINTER
        if code == 71:
            return of[0] >= POINTER
        return True


def check(data):
    """None, or the number and offset of the refusal."""
    try:
        Check(data).record()
    except Refusal as r:
        return r.args
    return None
