"""./lvn run RECORD [--set NAME=VALUE ..] [--answer VALUE ..] [--steps N]

Lends the proved program the record, a store and a list of answers in the house form and the limit, and prints what it answers: the events
as Bril's calls and prints, the final store by name, the steps and how the run ended. RECORD is a file, - for standard input.

A VALUE is a literal as in Bril's text: 5, true, 1.5, 'a', 0x and 16 digits for the bits of a float. Of a pointer it is its type, base and
offset, as ptr<int>:100+8, or without the offset if that is 0; of an int literal held by a float float:5. A name that is set may leave out
its own type: 100+8, and 5 for a float that holds the literal 5. Answers may also be go and halt. A name that is not set holds nothing;
an event for which no answer is left halts the run.

Without --steps the limit is 2^64-1, so a run that never ends is not stopped.

Ends with 0 if it ran, 1 if it was refused and the line that says so was written, 2 for a bad value or wrong use, 3 if not all could be
written, 130 if it was interrupted.
"""

import os
import re
import subprocess
import sys
from pathlib import Path

sys.dont_write_bytecode = True
TOP = Path(__file__).resolve().parents[2]
sys.path[:0] = [str(TOP / "tools" / part) for part in ("view", "vectors")]

from parsing import literal, type_of
from printing import OPERATIONS, literal_text
from reading import Fault, read
from record import FLOAT, INT, signed, type_text

HELD, GO_ON, HALT, NOTHING, POINTER = 4, 0xFE, 0xFD, 0xFF, 0x10
CALLS = 20, 67
ENDS = "end", "ret", "halt", "unset", "division", "limit"
PLACE = re.compile(r"([0-9]{1,20})(?:([+-])([0-9]{1,20}))?")
MOST = 2**64 - 1
NOTES = {  # by what running/Program says: how much is read, and how much is lent for the events
    10: "record, store, answers and limit (8 bytes) may have 262,144 bytes together; the library's run takes more",
    14: "1,048,576 bytes are lent for the events; the library's run can be lent more",
}
PROGRAM = TOP / "crates/lvn_run/out/lvn_run"
USAGE = __doc__.splitlines()[0].removeprefix("./lvn ")


class Bad(Exception):
    """A word that cannot be read, with what is wrong with it."""


# ---- values

def words(kind, *numbers):
    return bytes([kind]) + b"".join(number.to_bytes(8, "big") for number in numbers)


def pointer(kind, text):
    place = PLACE.fullmatch(text)
    if not place or int(place[1]) > MOST or int(place[3] or 0) > MOST:
        raise Fault("no base and offset of a pointer: %s" % text)
    offset = int(place[3] or 0)
    return words(kind, int(place[1]), -offset % 2**64 if place[2] == "-" else offset)


def typed(kind, text):
    """The bytes of a value of a type that is known."""
    if not text:
        raise Fault("no value")
    if kind >= POINTER:
        return pointer(kind, text)
    found, bits = literal(text)
    if found == kind:
        return words(kind, bits)
    if found == INT and kind == FLOAT:
        return words(HELD, bits)
    raise Fault("%s is no %s" % (text, type_text(kind)))


def says_type(text):
    return ":" in text and text[0] != "'"


def value(text):
    """The bytes of a value that says its type, or of a literal."""
    if says_type(text):
        of, rest = text.split(":", 1)
        return typed(type_of(of), rest)
    if not text:
        raise Fault("no value")
    return words(*literal(text))


def answer(text):
    if text in ("go", "halt"):
        return bytes([GO_ON if text == "go" else HALT])
    return value(text)


def value_text(kind, number, offset):
    if kind >= POINTER:
        return "%s:%d%+d" % (type_text(kind), number, signed(offset))
    return "float:%d" % signed(number) if kind == HELD else literal_text(kind, number)


# ---- the house form

def form(items):
    return (len(items) + 1).to_bytes(4, "big") + b"\x01" + items


def starting(names, settings):
    """The store in which each named name has its value, and the others nothing."""
    items = {text: bytes([NOTHING]) for _, text in names}
    types = {text: kind for kind, text in names}
    for setting in settings:
        name, sign, text = setting.partition("=")
        if not sign:
            raise Bad("--set %s: NAME=VALUE is needed" % setting)
        if name not in types:
            raise Bad("--set %s: the record has no name %s" % (setting, name))
        try:
            items[name] = value(text) if says_type(text) else typed(types[name], text)
        except Fault as e:
            raise Bad("--set %s: %s" % (setting, e)) from None
        if items[name][0] != types[name] and (items[name][0], types[name]) != (HELD, FLOAT):
            raise Bad("--set %s: %s is of type %s" % (setting, name, type_text(types[name])))
    return form(b"".join(items[text] for _, text in names))


def told(answers):
    items = []
    for text in answers:
        try:
            items.append(answer(text))
        except Fault as e:
            raise Bad("--answer %s: %s" % (text, e)) from None
    return items


class Bytes:
    """What was written, taken from its start."""

    def __init__(self, data):
        self.data, self.at = data, 0

    def number(self, size):
        self.at += size
        return int.from_bytes(self.data[self.at - size:self.at], "big")

    def value(self):
        """The text of a value, None for nothing."""
        kind = self.number(1)
        if kind == NOTHING:
            return None
        number = self.number(8)
        return value_text(kind, number, self.number(8) if kind >= POINTER else 0)


def event_lines(data, width):
    """width: the bytes of an id, which are as many as in the record."""
    found = Bytes(data)
    while found.at < len(data):
        id_, code, callee, count = found.number(width), found.number(1), found.number(2), found.number(1)
        callee = ["@f%d" % callee] if code in CALLS else []
        yield "%s; #%d" % (" ".join([OPERATIONS[code], *callee, *(found.value() for _ in range(count))]), id_)


def store_lines(data, names):
    found = Bytes(data)
    found.number(5)
    for kind, text in names:
        held = found.value()
        yield "%s: %s%s" % (text, type_text(kind), " is not set" if held is None else " = %s" % held)


# ---- the program

def build():
    """Has the script make the program where it is stale; what goes wrong there is said there."""
    status = subprocess.run([TOP / "lvn", "run", "--build"]).returncode
    if status:
        sys.exit(status)


def ran(record, store, items, limit):
    """Number, values and what follows them, as the program answers."""
    lent = record + store + form(b"".join(items)) + limit.to_bytes(8, "big")
    out = subprocess.run([PROGRAM], input=lent, stdout=subprocess.PIPE).stdout
    if not out:
        raise Bad("the program ended without an answer")
    count = {0: 5, 14: 2}.get(out[0], 1)
    found = Bytes(out[1:])
    return out[0], [found.number(8) for _ in range(count)], out[1 + 8 * count:]


def unfit(record, store, items, limit):
    """The number of the first answer with which the run is refused."""
    few = 1
    while ran(record, store, items[:few], limit)[0] != 13:
        few += 1
    return few


def unfit_text(number, text, item, names):
    said = "refused 13: answer %d, %s, does not fit its instruction" % (number, text)
    if item[0] == INT and FLOAT in (kind for kind, _ in names):  # as an answer it has to say that it is for a float
        literal_ = signed(int.from_bytes(item[1:], "big"))
        said += "; for a float the int literal is float:%d and the number %d.0" % (literal_, literal_)
    return said


def whole(record):
    """Whether its L is the rest. The program takes so many bytes for the record and what follows for the store: it would divide another
    one in the wrong place, and answer to that."""
    return len(record) >= 4 and int.from_bytes(record[:4], "big") == len(record) - 4


def shown(record, settings, answers, limit):
    """Status, lines, and a note where one is needed."""
    items = told(answers)
    if not whole(record):
        return 1, ["refused 1 at 0"], None  # check's first test
    try:
        names = read(record).names
    except Fault:
        names, settings = [], []  # check refuses it
    store = starting(names, settings)
    build()
    number, values, rest = ran(record, store, items, limit)
    if number == 13:
        k = unfit(record, store, items, limit)
        return 1, [unfit_text(k, answers[k - 1], items[k - 1], names)], None
    if number == 14:
        return 1, ["refused 14: the events need %d bytes and the store %d" % tuple(values)], NOTES[14]
    if number:
        return 1, ["refused %d at %d" % (number, values[0])], NOTES.get(number)
    events, size, steps, ended, id_ = values
    width = 8 if record[4] == 2 else 4  # by its version
    lines = [*event_lines(rest[:events], width), *store_lines(rest[events:events + size], names)]
    return 0, [*lines, "steps %d" % steps, "ended by %s%s" % (ENDS[ended], " #%d" % id_ if ended == 4 else "")], None


def wanted(words):
    """Record, settings, answers and limit of the words behind run."""
    record, settings, answers, limit, left = None, [], [], MOST, list(words)
    while left:
        word = left.pop(0)
        if word in ("--set", "--answer", "--steps") and not left:
            raise Bad("%s: a word is missing behind it" % word)
        if word == "--set":
            settings.append(left.pop(0))
        elif word == "--answer":
            answers.append(left.pop(0))
        elif word == "--steps":
            text = left.pop(0)
            if not re.fullmatch("[0-9]{1,20}", text) or int(text) > MOST:
                raise Bad("--steps %s: a number from 0 to %d is needed" % (text, MOST))
            limit = int(text)
        elif record is None and not word.startswith("--"):
            record = word
        else:
            raise Bad("%s: not understood; %s" % (word, USAGE))
    if record is None:
        raise Bad("a record is needed: %s" % USAGE)
    return record, settings, answers, limit


def answered(words):
    """Status, lines and note for the words behind run."""
    if words[:1] in (["--help"], ["-h"]):
        return 0, __doc__.splitlines(), None
    path, settings, answers, limit = wanted(words)
    try:
        record = sys.stdin.buffer.read() if path == "-" else Path(path).read_bytes()
    except (AttributeError, OSError) as e:
        raise Bad("%s: %s" % (path, getattr(e, "strerror", None) or "cannot be read")) from None
    return shown(record, settings, answers, limit)


def main(words):
    try:
        status, lines, note = answered(words)
    except Bad as bad:
        print("lvn: %s" % " ".join(str(bad).splitlines()), file=sys.stderr)  # a word may have several lines
        sys.exit(2)
    out = "".join(line + "\n" for line in lines).encode()
    try:
        while out:
            out = out[os.write(1, out):]
    except OSError:
        print("lvn: not all could be written", file=sys.stderr)
        sys.exit(3)
    if note:
        print("lvn: %s" % note, file=sys.stderr)
    sys.exit(status)


if __name__ == "__main__":
    try:
        main(sys.argv[1:])
    except KeyboardInterrupt:
        sys.exit(130)  # as a shell says that a command was interrupted
