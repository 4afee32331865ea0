"""A record laid out as a list of fields, and damages of it with the refusal of each.

Each field has its name, value and width. A damage changes one field, or cuts the
record in one, so that document 01 says which refusal follows and where: it is
written down here beside the damage and is not the answer of any check. L is made
right again after each damage but those of L itself.
"""

from record import CALLS, ID_BYTES, PHI, VALUE, target_count


def fields_of(f):
    """The fields of a record behind L: name, value, width; an id starts an instruction."""
    out = [("version", f.version, 1), ("A", f.nargs, 1), ("N", len(f.names), 2)]
    for type_, text in f.names:
        out += [("type", type_, 1), ("text length", len(text), 1), ("text", text.encode(), len(text))]
    out.append(("B", len(f.blocks), 2))
    for b in f.blocks:
        out += [("n", len(b.instrs), 2), ("saves", b.saves, 2)]
        for i in b.instrs:
            out += [("id", i.id, ID_BYTES[f.version]), ("code", i.code, 1)]
            if i.code in VALUE or i.code == 0:
                out.append(("dest", i.dest, 2))
            if i.code == 0:
                out += [("kind", i.kind, 1), ("literal", i.literal, 8)]
                continue
            out.append(("count", len(i.args), 1))
            out += [("argument", x, 2) for x in i.args]
            if i.code in CALLS:
                out.append(("callee", i.callee, 2))
            out += [("block", t, 2) for t in i.targets[:target_count(i.code, len(i.args))]]
    return out


def field_bytes(value, width):
    return value if isinstance(value, bytes) else value.to_bytes(width, "big")


def with_length(body):
    return len(body).to_bytes(4, "big") + body


class Record:
    def __init__(self, fields):
        self.fields = fields
        self.offsets, at = [], 4
        for _, _, width in fields:
            self.offsets.append(at)
            at += width

    def bytes(self):
        return with_length(b"".join(field_bytes(v, w) for _, v, w in self.fields))

    def changed(self, k, value):
        name, _, width = self.fields[k]
        return Record(self.fields[:k] + [(name, value, width)] + self.fields[k + 1:])

    def cut(self, k, inside):
        """The record up to field k and `inside` bytes of it."""
        body = b"".join(field_bytes(v, w) for _, v, w in self.fields[:k])
        name, value, width = self.fields[k]
        return with_length(body + field_bytes(value, width)[:inside])

    def of(self, number, name, nth=0):
        """The field of this name, the nth of them, in the instruction with this id."""
        start = next(k for k, field in enumerate(self.fields) if field[:2] == ("id", number))
        return [k for k in range(start, len(self.fields)) if self.fields[k][0] == name][nth]

    def start_of(self, k):
        """The offset of the instruction that field k belongs to."""
        while self.fields[k][0] != "id":
            k -= 1
        return self.offsets[k]


def cuts(r):
    """Every field past the end, by turns with none of its bytes and with all but one."""
    for k, (name, _, width) in enumerate(r.fields):
        yield r.cut(k, 0 if k % 2 else width - 1), (1, r.offsets[k])


def field_damages(r, names, blocks, many=60):
    """Values that a field's own test refuses; at most two of each field behind so many."""
    for k, (name, value, width) in enumerate(r.fields):
        at = r.offsets[k]
        bad = {
            "version": [(0, 2), (3, 2), (255, 2)],
            "A": [(17, 3), (255, 3)],
            "N": [(257, 3), (65535, 3), (r.fields[1][1] - 1, 3)],
            "type": [(4, 3), (0x1F, 3), (0xF4, 3)],
            "text length": [(0, 3), (33, 3), (255, 3)],
            "B": [(65, 3), (65535, 3)],
            "n": [(257, 3), (65535, 3)],
            "saves": [(1, 3), (65535, 3)],
            "code": [(15, 5), (19, 5), (40, 5), (63, 5), (72, 5), (255, 5)],
            "dest": [(names, 6), (65535, 6)],
            "kind": [(4, 3), (255, 3)],
            "argument": [(names, 6), (65535, 6)],
            "block": [(blocks, 6), (65535, 6)],
        }.get(name, [])
        for value, number in bad[:2] if k > many else bad:
            yield r.changed(k, value).bytes(), (number, at)


def text_damages(r):
    seen = []
    for k, (name, value, width) in enumerate(r.fields):
        if name != "text":
            continue
        for text in (b"1", b" ", b"-", b"\x00", b"\x80") if len(seen) < 2 else (b"/",):
            yield r.changed(k, text).bytes(), (4, r.offsets[k])
        for text in seen:
            yield r.changed(k, text).bytes(), (4, r.offsets[k])
        seen.append(value)


def more_damages(r):
    """Literals, counts, places, types and ends."""
    code = 0
    for k, (name, value, width) in enumerate(r.fields):
        at = r.offsets[k]
        if name == "code":
            code = value
        if name == "literal" and r.fields[k - 1][1] == 1:
            yield r.changed(k, 2).bytes(), (3, at)
            yield r.changed(k, 1 << 63).bytes(), (3, at)
        if name == "literal" and r.fields[k - 1][1] == 3:
            for scalar in (0xD800, 0xDFFF, 0x110000, 1 << 40):
                yield r.changed(k, scalar).bytes(), (3, at)
            yield r.changed(k, 0x10FFFF).bytes(), (0, 0)
            yield r.changed(k, 0xE000).bytes(), (0, 0)
        if name == "count":
            most = 8 if code in (20, PHI, 67, 68) else 1 if code == 66 else value
            yield r.changed(k, most + 1).bytes(), (3, at)
            if code not in (20, PHI, 67, 68, 66) and value > 0:
                yield r.changed(k, value - 1).bytes(), (3, at)
        if name == "callee":
            yield r.changed(k, 65535).bytes(), (0, 0)
        if name == "code" and value == 69 and r.fields[k + 2][0] == "id":  # nop before the last place becomes a terminator
            for terminator in (64, 65, 66):
                yield r.changed(k, terminator).bytes(), (8, at)
        if name == "id":
            yield r.changed(k, (1 << 8 * width) - 1).bytes(), (0, 0)
    yield with_length(r.bytes()[4:] + b"\x00"), (1, len(r.bytes()))
    yield with_length(r.bytes()[4:] + bytes(300)), (1, len(r.bytes()))


def type_damages(r, types):
    """An index of another type: refused at the instruction, and only if nothing stands behind the end."""
    code = 0
    any_type = (20, 66, 67, 68)
    for k, (name, value, width) in enumerate(r.fields):
        if name == "code":
            code = value
        if name not in ("dest", "argument") or code in any_type or r.fields[k][0] == "callee":
            continue
        if code == 37 and name == "dest":  # alloc gives any pointer type
            others = [x for x in range(len(types)) if types[x] < 16]
        else:
            others = [x for x in range(len(types)) if types[x] != types[value]]
        if code == 0:  # an int literal fits a float, and the other way round is refused
            kind = r.fields[k + 1][1]
            others = [x for x in others if not (kind == 0 and types[x] in (0, 2))]
        if code == 71:
            others = [x for x in others if types[x] < 16]
        passes = code == PHI and name == "dest" and r.fields[k + 1][1] == 0  # no argument, so any type
        for other in others[:1]:
            damaged = r.changed(k, other).bytes()
            yield damaged, (0, 0) if passes else (7, r.start_of(k))
            yield with_length(damaged[4:] + b"\x00"), (1, len(damaged))


def first_damages(r):
    whole = r.bytes()
    for size in range(4):
        yield whole[:size], (1, 0)
    for delta in (-1, 1, 256):
        yield (len(whole) - 4 + delta).to_bytes(4, "big") + whole[4:], (1, 0)
    yield b"\x00\x00\x00\x00", (1, 4)


def id_cuts(r):
    """Each id with fewer bytes than it has, the others with theirs."""
    for k, (name, _, width) in enumerate(r.fields):
        if name == "id":
            for inside in range(width):
                yield r.cut(k, inside), (1, r.offsets[k])
