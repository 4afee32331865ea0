"""Local value numbering of Bril function records: check, rewrite, figures, name text, run, widen and narrow, over the proved library.

A record is bytes, a bytearray, a memoryview or another buffer. One that is refused raises `Refused`, and then nothing is written.
What the library answers is proved in crates/exports; include/lvn.h says it in words. Calls may run in several threads at once.
"""

import ctypes
import operator
from typing import Any, List, NamedTuple, Tuple, Union

import lvn_library

__all__ = ["ENDS", "Ended", "Figures", "Part", "Ran", "Refused", "Rewritten", "Room", "Short", "TooFew", "Totals", "Unfit", "check", "figures",
           "figures_into", "name_part", "name_text", "narrow", "narrow_into", "rewrite", "rewrite_into", "run", "run_into", "widen", "widen_into"]

Bytes = Union[bytes, bytearray, memoryview]


class Refused(Exception):
    """The record is refused. number: 1 to 8 of check, 6 or 11 of name text, 15 of narrowing. offset: where the fault is; 0 for those of
    name text."""

    def __init__(self, number: int, offset: int) -> None:
        super().__init__(number, offset)
        self.number, self.offset = number, offset

    def __str__(self) -> str:
        return "refused %d at %d" % (self.number, self.offset)


class Room(Exception):
    """The output is too short (refusal 9). needed: the bytes of what was to be written."""

    number = 9

    def __init__(self, needed: int) -> None:
        super().__init__(needed)
        self.needed = needed

    def __str__(self) -> str:
        return "the output needs %d bytes" % self.needed


class TooFew(Exception):
    """There are fewer places than blocks (refusal 12)."""

    number = 12

    def __str__(self) -> str:
        return "fewer places than blocks"


class Unfit(Exception):
    """Store or answers do not read, a stored value is not of its name's type, or an answer that was taken does not fit (refusal 13)."""

    number = 13

    def __str__(self) -> str:
        return "store or answers do not fit"


class Short(Exception):
    """Too few bytes were lent (refusal 14). events, store: the bytes that each needs."""

    number = 14

    def __init__(self, events: int, store: int) -> None:
        super().__init__(events, store)
        self.events, self.store = events, store

    def __str__(self) -> str:
        return "the events need %d bytes and the store %d" % (self.events, self.store)


class Rewritten(NamedTuple):
    """A rewriting, and all saves that it added."""
    rewriting: bytes
    saves: int


class Totals(NamedTuple):
    """Of a rewriting: its bytes, and all saves that it adds."""
    bytes: int
    saves: int


class Figures(NamedTuple):
    """Of a rewriting: its bytes, all saves that it adds, and the instructions of each block."""
    bytes: int
    saves: int
    blocks: List[int]


class Part(NamedTuple):
    """Where a text stands: in the rewriting or in the input, from where, and how many bytes it has."""
    in_rewriting: bool
    start: int
    count: int


class Ends(Tuple[str, ...]):
    """How a run ended, by number."""


ENDS = Ends(("end", "ret", "halt", "unset", "division", "limit"))


class Ended(NamedTuple):
    """Of a run: the bytes of its events and of its final store, its steps, how it ended (a number of ENDS), and the id of the division
    that stopped it, else 0."""
    events: int
    store: int
    steps: int
    ended: int
    id: int


class Ran(NamedTuple):
    """A run: its events and its final store as bytes, its steps, how it ended, and the id of the division that stopped it, else 0."""
    events: bytes
    store: bytes
    steps: int
    ended: str
    id: int


class _Rewritten(ctypes.Structure):
    _fields_ = [(field, ctypes.c_size_t) for field in ("count", "saves")]


class _Named(ctypes.Structure):
    _fields_ = [(field, ctypes.c_size_t) for field in ("offset", "in_rewriting", "start", "count")]


class _Ran(ctypes.Structure):
    _fields_ = [(field, ctypes.c_uint64) for field in ("events", "store", "steps", "ended", "id")]


_INPUT = ctypes.c_char_p, ctypes.c_size_t
_LENT = ctypes.c_void_p, ctypes.c_size_t
_LIBRARY = lvn_library.load()


def _entry(name: str, *types: Any) -> Any:
    try:
        function = getattr(_LIBRARY, name)
    except AttributeError:
        raise ImportError("%s: has no %s; run `rt lib` in crates/exports" % (_LIBRARY._name, name)) from None
    function.argtypes, function.restype = types, ctypes.c_uint8
    return function


_check = _entry("lvn_check", *_INPUT, ctypes.POINTER(ctypes.c_size_t))
_rewrite = _entry("lvn_rewrite", *_INPUT, *_LENT, ctypes.POINTER(_Rewritten))
_figures = _entry("lvn_figures", *_INPUT, *_LENT, ctypes.POINTER(_Rewritten))
_run = _entry("lvn_run", *_INPUT, *_INPUT, *_INPUT, ctypes.c_uint64, *_LENT, *_LENT, ctypes.POINTER(_Ran))
_name_text = _entry("lvn_name_text", *_INPUT, *_INPUT, ctypes.c_size_t, ctypes.POINTER(_Named))
_widen = _entry("lvn_widen", *_INPUT, *_LENT, ctypes.POINTER(ctypes.c_size_t))
_narrow = _entry("lvn_narrow", *_INPUT, *_LENT, ctypes.POINTER(ctypes.c_size_t))


def _bytes(buffer: Bytes) -> bytes:
    """What is read is bytes or a copy: it cannot change during a call, nor overlap with what the call writes."""
    return buffer if isinstance(buffer, bytes) else memoryview(buffer).tobytes()


def _written(entry: Any, record: Bytes, buffer: Any, item: Any, answer: Any) -> int:
    """The number of an entry that writes to a lent buffer of such items, and leaves its values in answer.

    The refusals are raised by its callers: where one is caught no frame holds the buffer, so that it can be made longer there.
    """
    record = _bytes(record)
    count = memoryview(buffer).nbytes // ctypes.sizeof(item)
    lent = (item * count).from_buffer(buffer) if count else item()  # of no items too a pointer that is not null
    if ctypes.addressof(lent) % ctypes.alignment(item):
        raise ValueError("the buffer is not aligned for items of %d bytes" % ctypes.sizeof(item))
    return entry(record, len(record), ctypes.byref(lent), count, ctypes.byref(answer))


def check(record: Bytes) -> None:
    """Returns if the bytes are the record of a function; otherwise raises Refused with the first fault."""
    record, offset = _bytes(record), ctypes.c_size_t()
    number = _check(record, len(record), ctypes.byref(offset))
    if number:
        raise Refused(number, offset.value)


def rewrite(record: Bytes) -> Rewritten:
    """The rewriting of a record, and all saves that it added. Raises Refused."""
    record = _bytes(record)
    check(record)
    output = bytearray(8 * len(record))  # no rewriting is longer, and with so much room the blocks are numbered once
    totals = rewrite_into(record, output)
    return Rewritten(bytes(output[:totals.bytes]), totals.saves)


def rewrite_into(record: Bytes, output: Any) -> Totals:
    """Writes the rewriting to the start of output, a buffer such as a bytearray; the bytes beyond stay as they were.

    Raises Refused, or Room if output is too short; then all of output stays as it was.
    """
    answer = _Rewritten()
    number = _written(_rewrite, record, output, ctypes.c_uint8, answer)
    if number == Room.number:
        raise Room(answer.count)
    if number:
        raise Refused(number, answer.count)
    return Totals(answer.count, answer.saves)


def figures(record: Bytes) -> Figures:
    """What rewrite would give, without its output: bytes, all saves, and the instructions of each block. Raises Refused."""
    unwritten = 0xFFFF  # no figure: these are at most 512
    places = (ctypes.c_uint16 * 64)(*[unwritten] * 64)  # check refuses more than 64 blocks
    totals = figures_into(record, places)
    return Figures(*totals, [place for place in places if place != unwritten])


def figures_into(record: Bytes, places: Any) -> Totals:
    """As figures, but the blocks' instructions go to the first places of a buffer of 16-bit numbers, such as array("H").

    The places from the count of blocks on stay as they were. Raises Refused, or TooFew if there are fewer places than blocks; then all
    places stay as they were.
    """
    if memoryview(places).format.lstrip("@=<") != "H":
        raise TypeError("places of 16-bit numbers are needed, such as array('H')")
    answer = _Rewritten()
    number = _written(_figures, record, places, ctypes.c_uint16, answer)
    if number == TooFew.number:
        raise TooFew
    if number:
        raise Refused(number, answer.count)
    return Totals(answer.count, answer.saves)


def name_part(record: Bytes, rewriting: Bytes, index: int) -> Part:
    """Where the text of a name of a record and its rewriting stands, by the name's index.

    Raises Refused: a refusal of check on the record; 11 if the rewriting is not one of this record; 6 if it has no name of that index.
    """
    record, rewriting, answer = _bytes(record), _bytes(rewriting), _Named()
    index = operator.index(index)
    if not 0 <= index < 2**64:
        index = 2**64 - 1  # no name's index either
    number = _name_text(record, len(record), rewriting, len(rewriting), index, ctypes.byref(answer))
    if number:
        raise Refused(number, answer.offset)
    return Part(bool(answer.in_rewriting), answer.start, answer.count)


def name_text(record: Bytes, rewriting: Bytes, index: int) -> bytes:
    """The text of a name of a record and its rewriting, by the name's index. Raises Refused as name_part does."""
    part = name_part(record, rewriting, index)
    return _bytes(rewriting if part.in_rewriting else record)[part.start:part.start + part.count]


def _lent(buffer: Any) -> Tuple[Any, int]:
    """A lent buffer of bytes and its length; of no bytes too a pointer that is not null."""
    count = memoryview(buffer).nbytes
    return (ctypes.c_uint8 * count).from_buffer(buffer) if count else ctypes.c_uint8(), count


def _overlap(one: Any, count: int, two: Any, more: int) -> bool:
    first, second = ctypes.addressof(one), ctypes.addressof(two)
    return first < second + more and second < first + count


def run_into(record: Bytes, store: Bytes, answers: Bytes, limit: int, events: Any, left: Any) -> Ended:
    """Runs a record from a starting store with a list of answers, both in the house form, for at most limit steps.

    The events go to the start of one buffer, such as a bytearray, with ids as wide as the record's, and the final store to that of
    another; the bytes beyond stay as they were. Raises Refused, Unfit, or Short if a buffer is too short; then both stay as they were.
    Buffers that overlap are a ValueError.
    """
    record, store, answers, answer = _bytes(record), _bytes(store), _bytes(answers), _Ran()
    limit = operator.index(limit)
    if not 0 <= limit < 2**64:
        raise ValueError("a limit is a number of 64 bits")
    told, room = _lent(events)
    final, more = _lent(left)
    if _overlap(told, room, final, more):
        raise ValueError("the buffers for the events and for the final store overlap")
    number = _run(record, len(record), store, len(store), answers, len(answers), limit, ctypes.byref(told), room, ctypes.byref(final), more,
                  ctypes.byref(answer))
    del told, final
    if number == Unfit.number:
        raise Unfit
    if number == Short.number:
        raise Short(answer.events, answer.store)
    if number:
        raise Refused(number, answer.events)
    return Ended(answer.events, answer.store, answer.steps, answer.ended, answer.id)


def run(record: Bytes, store: Bytes, answers: Bytes, limit: int = 2**64 - 1) -> Ran:
    """As run_into, with buffers that are long enough: the events and the final store themselves. Raises Refused or Unfit."""
    events, left = bytearray(4096), bytearray(4357)  # no store is longer
    try:
        done = run_into(record, store, answers, limit, events, left)
    except Short as short:
        events = bytearray(short.events)
        done = run_into(record, store, answers, limit, events, left)
    return Ran(bytes(events[:done.events]), bytes(left[:done.store]), done.steps, ENDS[done.ended], done.id)


def _converted(entry: Any, record: Bytes, output: Any) -> int:
    answer = ctypes.c_size_t()
    number = _written(entry, record, output, ctypes.c_uint8, answer)
    if number == Room.number:
        raise Room(answer.value)
    if number:
        raise Refused(number, answer.value)
    return answer.value


def widen(record: Bytes) -> bytes:
    """The record in version 2, whose ids have eight bytes; one of version 2 is unchanged. Raises Refused."""
    record = _bytes(record)
    output = bytearray(2 * len(record))  # no widening is longer: an instruction of six bytes, the fewest, becomes one of ten
    return bytes(output[:widen_into(record, output)])


def widen_into(record: Bytes, output: Any) -> int:
    """Writes the record in version 2 to the start of output, a buffer such as a bytearray: how many bytes it has. The bytes beyond stay as
    they were.

    Raises Refused, or Room if output is too short; then all of output stays as it was.
    """
    return _converted(_widen, record, output)


def narrow(record: Bytes) -> bytes:
    """The record in version 1, whose ids have four bytes; one of version 1 is unchanged. Raises Refused, with 15 if an id has no room there,
    at the first such instruction."""
    record = _bytes(record)
    output = bytearray(len(record))  # no narrowing is longer than the record
    return bytes(output[:narrow_into(record, output)])


def narrow_into(record: Bytes, output: Any) -> int:
    """As widen_into, in version 1. Raises Refused as narrow does, before Room."""
    return _converted(_narrow, record, output)
