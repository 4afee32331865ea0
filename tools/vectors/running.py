"""Point 6 of document 02 as a program: a record is run on the plain machine.

Written from document 01 ("The plain machine"), Points 4 to 7 of document 02
and nothing else. A value is a tuple of its type byte and one word, of a pointer
two; 04 stands for an int literal held by a float. A store is a list with a value
or None for each name, a list of answers has values, GO_ON and HALT.
"""

import struct

from check import check
from model import DIV, FOLD, ID, NOT, PTRADD
from record import BOOL, CALLS, CHAR, FLOAT, ID_BYTES, INT, POINTER, from_bytes, signed, unsigned

HELD = 4
NOTHING, GO_ON, HALT = 0xFF, 0xFE, 0xFD
END, RET, HALTED, UNSET, DIVISION, LIMIT = range(6)  # how a run ended
JMP, BR, RETURN, NOP = 64, 65, 66, 69


class Unfit(Exception):
    """13."""


# The house form

def framed(items):
    body = b"\x01" + items
    return struct.pack(">I", len(body)) + body


def value_bytes(value):
    return struct.pack(">B%dQ" % (len(value) - 1), *value)


def store_bytes(store):
    return framed(b"".join(bytes([NOTHING]) if v is None else value_bytes(v) for v in store))


def answers_bytes(answers):
    return framed(b"".join(bytes([a]) if a in (GO_ON, HALT) else value_bytes(a) for a in answers))


class House:
    """A reader of items in the house form, of which `alone` have no word."""

    def __init__(self, data, alone):
        self.data, self.at, self.alone = data, 5, alone
        if len(data) < 5 or int.from_bytes(data[:4], "big") != len(data) - 4 or data[4] != 1:
            raise Unfit

    def more(self):
        return self.at < len(self.data)

    def take(self, size):
        self.at += size
        if self.at > len(self.data):
            raise Unfit
        return int.from_bytes(self.data[self.at - size:self.at], "big")

    def item(self):
        """A value, or one of the bytes that stand alone."""
        type_ = self.take(1)
        if type_ in self.alone:
            return type_
        if type_ != HELD and type_ & 15 > CHAR:
            raise Unfit
        if type_ >= POINTER:
            return type_, self.take(8), self.take(8)
        word = self.take(8)
        scalar = word <= 0x10FFFF and not 0xD800 <= word <= 0xDFFF
        if type_ == BOOL and word > 1 or type_ == CHAR and not scalar:
            raise Unfit
        return type_, word


def has_type(value, type_):
    return value[0] == type_ or (value[0] == HELD and type_ == FLOAT)


def read_store(data, types):
    """A value or None for each of the types."""
    house, store = House(data, [NOTHING]), []
    for type_ in types:
        value = house.item()
        store.append(None if value == NOTHING else value)
        if value != NOTHING and not has_type(value, type_):
            raise Unfit
    if house.more():
        raise Unfit
    return store


def read_answers(data):
    house, answers = House(data, [GO_ON, HALT]), []
    while house.more():
        answers.append(house.item())
    return answers


# The machine

class Stopped(Exception):
    """How the run ended, and the id of a division."""


class Machine:
    """A run: `world(i)` gives the next answer to an instruction, None if there is none left."""

    def __init__(self, f, store, world):
        self.f, self.store, self.world = f, list(store), world
        self.events, self.steps = [], 0

    def run(self, limit):
        """How a run of at most so many steps ended, and the id of a division."""
        block, place = 0, 0
        try:
            while True:
                block, place = self.landed(block, place)
                if self.steps == limit:
                    return LIMIT, 0
                i = self.f.blocks[block].instrs[place]
                self.steps += 1
                target = self.step(i)
                block, place = (block, place + 1) if target is None else (target, 0)
        except Stopped as stop:
            return stop.args

    def landed(self, block, place):
        """The next instruction; a block that is done, or empty, is passed without a step."""
        blocks = self.f.blocks
        while block < len(blocks) and place == len(blocks[block].instrs):
            block, place = block + 1, 0
        if block == len(blocks):
            raise Stopped(END, 0)
        return block, place

    def step(self, i):
        """Does an instruction; the block that it goes to, if it does."""
        args = [self.store[a] for a in i.args]
        if None in args:
            raise Stopped(UNSET, 0)
        if i.code == 0:
            held = i.kind == INT and self.f.names[i.dest][0] == FLOAT
            self.store[i.dest] = (HELD if held else i.kind, i.literal)
        elif i.code <= PTRADD:
            self.store[i.dest] = self.operation(i, args)
        elif i.code == JMP:
            return i.targets[0]
        elif i.code == BR:
            return i.targets[0 if args[0][1] else 1]
        elif i.code != NOP:
            self.event(i, args)
        return None

    @staticmethod
    def operation(i, args):
        """What codes 1 to 14 give."""
        if i.code == ID:
            return args[0]
        if i.code == PTRADD:
            type_, base, offset = args[0]
            return type_, base, unsigned(offset + args[1][1])
        words = [bool(w) if type_ == BOOL else signed(w) for type_, w in args]
        if i.code == DIV and words[1] == 0:
            raise Stopped(DIVISION, i.id)
        result = FOLD[i.code](*words)
        return (BOOL, int(result)) if i.code > DIV else (INT, unsigned(result))

    def event(self, i, args):
        self.events.append((i.id, i.code, i.callee if i.code in CALLS else 0, args))
        if i.code == RETURN:
            raise Stopped(RET, 0)
        answer = self.world(i)
        if answer is None or answer == HALT:
            raise Stopped(HALTED, 0)
        if not fits(self.f, i, answer):
            raise Unfit
        if i.dest is not None:
            self.store[i.dest] = answer


def fits(f, i, answer):
    """Whether an answer, which is not HALT, is one to the instruction."""
    if i.dest is None or answer == GO_ON:
        return i.dest is None and answer == GO_ON
    return has_type(answer, f.names[i.dest][0])


def events_bytes(events, width):
    """The events, each id in so many bytes."""
    out = b""
    for id_, code, callee, args in events:
        out += id_.to_bytes(width, "big") + struct.pack(">BHB", code, callee, len(args)) + b"".join(map(value_bytes, args))
    return out


# The engine

def ran(record, store, answers, limit):
    """The machine of an accepted record after so many steps, and how it ended."""
    f = from_bytes(record)
    store = read_store(store, [t for t, _ in f.names])
    left = iter(read_answers(answers))
    m = Machine(f, store, lambda i: next(left, None))
    return m, m.run(limit)


def engine(record, store, answers, limit, events_room, store_room):
    """The number, the five values, and the bytes of events and store; nothing is written but with 0."""
    refusal = check(record)
    if refusal:
        return refusal[0], (refusal[1], 0, 0, 0, 0), b"", b""
    try:
        m, ended = ran(record, store, answers, limit)
    except Unfit:
        return 13, (0, 0, 0, 0, 0), b"", b""
    events, left = events_bytes(m.events, ID_BYTES[m.f.version]), store_bytes(m.store)
    sizes = len(events), len(left)
    if events_room < sizes[0] or store_room < sizes[1]:
        return 14, (*sizes, 0, 0, 0), b"", b""
    return 0, (*sizes, m.steps, *ended), events, left
