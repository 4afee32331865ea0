"""Calls of the engine, a function with a store, answers and a limit each: random
ones, the same for the same seed, of which most run and the others are to give 13
or check's refusals; and all with one item that begins with any byte.
"""

import random

from generate import CHARS, DIVISIONS, EDGES, FLOATS, INTS, PHIS, SMALL, Generator
from record import BOOL, CHAR, FLOAT, INT, Block, Function, Instr, to_bytes, unsigned
from running import GO_ON, HALT, HELD, LIMIT, Machine, answers_bytes, framed, store_bytes

MOST = 60  # answers that are drawn for a run
LONG = 400  # steps after which a run counts as one that does not end
LONGEST = 2000  # the limit of a call that was changed, and so may not end
TYPES = [INT, BOOL, FLOAT, CHAR, HELD, 0x10, 0x12, 0xF3]
ODD_BYTES = [0, 1, 2, 3, 4, 5, 0x0F, 0x10, 0x13, 0x14, 0x1F, 0xF3, 0xF4, 0xFC, 0xFD, 0xFE, 0xFF]
FOREVER = (1 << 64) - 1


class World:
    """Draws values, stores, answers and limits."""

    def __init__(self, rng):
        self.rng = rng

    def value(self, type_):
        """A value of a type."""
        rng = self.rng
        if type_ == FLOAT and rng.random() < 0.4:
            type_ = HELD
        if type_ in (INT, HELD):
            few = rng.choice([SMALL, SMALL, INTS, EDGES])
            return type_, unsigned(rng.choice(few) if rng.random() < 0.95 else rng.getrandbits(64))
        if type_ == BOOL:
            return type_, rng.getrandbits(1)
        if type_ == FLOAT:
            return type_, rng.choice(FLOATS + [rng.getrandbits(64)])
        if type_ == CHAR:
            return type_, rng.choice(CHARS + [rng.randrange(0xD800)])
        return type_, rng.randrange(4), unsigned(rng.choice(SMALL + INTS))

    def store(self, f):
        """A value or nothing for each name, mostly a value."""
        unset = self.rng.choice([0, 0, 0, 0.05, 0.2, 1])
        return [None if self.rng.random() < unset else self.value(t) for t, _ in f.names]

    def answer(self, f, i):
        """One that fits."""
        if self.rng.random() < 0.01:
            return HALT
        return GO_ON if i.dest is None else self.value(f.names[i.dest][0])

    def any_answer(self):
        return self.rng.choice([GO_ON, GO_ON, HALT, self.value(self.rng.choice(TYPES))])

    def answers(self, f, store):
        """Answers that fit, as far as a run from the store takes them; the steps that take one, and of that run."""
        drawn, taken = [], []

        def world(i):
            if len(drawn) == MOST:
                return None
            drawn.append(self.answer(f, i))
            taken.append(m.steps)
            return drawn[-1]

        m = Machine(f, store, world)
        ended, _ = m.run(LONG)
        return drawn, taken, FOREVER if ended == LIMIT else m.steps

    def changed(self, answers):
        """The list, in some cases with one that may not fit, cut, or with more behind."""
        rng, answers = self.rng, list(answers)
        what = rng.random()
        if what < 0.2 and answers:
            answers[rng.randrange(len(answers))] = self.any_answer()
        elif what < 0.3:
            answers = answers[:rng.randint(0, len(answers))]
        elif what < 0.5:
            answers += [self.any_answer() for _ in range(rng.randint(1, 3))]
        return answers

    def limit(self, taken, steps):
        """Around the end of a run of so many steps, around a step that takes an answer, or any."""
        rng = self.rng
        if steps == FOREVER:
            return rng.randint(0, LONG)
        what = rng.random()
        if what < 0.15 and taken:
            return rng.choice(taken) - rng.randint(0, 1)
        if what < 0.3:
            return max(steps + rng.randint(-1, 1), 0)
        return rng.randint(0, steps) if what < 0.5 else rng.choice([steps + 7, 1 << 32, 1 << 63, FOREVER])

    def damaged(self, data):
        """A house form with a byte changed, left out or put in, cut, or of another length or version."""
        rng, body = self.rng, bytearray(data[5:])
        at = rng.randint(0, len(body))
        what = rng.randrange(7)
        if what == 0:
            return data[:rng.randrange(len(data))]
        if what == 1:
            return data[:3] + bytes([data[3] ^ rng.randint(1, 255)]) + data[4:]
        if what == 2:
            return data[:4] + bytes([rng.choice([0, 2, 255])]) + data[5:]
        if what == 3 or not body:
            body.insert(at, rng.choice(ODD_BYTES))
        elif what == 4:
            del body[min(at, len(body) - 1)]
        elif what == 5:
            del body[at:]
        else:
            body[min(at, len(body) - 1)] = rng.choice(ODD_BYTES + [rng.getrandbits(8)])
        return framed(bytes(body))


def call(world, f):
    """Record, store, answers and limit of a call with a function."""
    rng, values = world.rng, world.store(f)
    answers, taken, steps = world.answers(f, values)
    limit = world.limit(taken, steps)
    record, store, drawn = to_bytes(f), store_bytes(values), answers_bytes(answers)
    answers = answers_bytes(world.changed(answers))
    what = rng.random()
    if what < 0.03:
        store = world.damaged(store)
    elif what < 0.06:
        answers = world.damaged(answers)
    elif what < 0.07 and values:
        values[rng.randrange(len(values))] = world.value(rng.choice(TYPES))
        store = store_bytes(values)
    elif what < 0.08:
        at = rng.randrange(len(record))
        record = record[:at] + bytes([rng.getrandbits(8)]) + record[at + 1:]
    if what < 0.08 or answers != drawn:
        limit = min(limit, LONGEST)
    return record, store, answers, limit


def calls(seed, count):
    """So many calls with random functions."""
    rng = random.Random(seed)
    world, plain, edges = World(rng), Generator(rng), Generator(rng, EDGES)
    for _ in range(count):
        what = rng.randrange(8)
        if what == 0:
            f = edges.of_profile(*DIVISIONS)
        elif what == 1:
            f = plain.of_profile(*PHIS)
        else:
            f = plain.function()
        yield call(world, f)


BEHIND = [bytes(n) for n in (0, 1, 7, 8, 9, 15, 16, 17)]
BEHIND += [n.to_bytes(8, "big") for n in (1, 2, 0xD800, 0xE000, 0x110000, FOREVER)] + [FOREVER.to_bytes(16, "big")]


def forms():
    """Each byte with some bytes behind it: as what the one name holds, as an answer that is taken, and as one that is not."""
    for good in ((INT, 5), (BOOL, 1), (FLOAT, 5), (CHAR, 5), (0x10, 5, 5), (0xF3, 5, 5)):
        instr = Instr(1, 20, 0, args=[0], callee=7)
        record = to_bytes(Function(1, [(good[0], "x")], [Block([instr])]))
        for item in (bytes([first]) + behind for first in range(256) for behind in BEHIND):
            yield record, framed(item), answers_bytes([HALT]), 1
            yield record, store_bytes([good]), framed(item), 1
            yield record, store_bytes([good]), framed(bytes([HALT]) + item), 1
