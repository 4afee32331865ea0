"""The entries over all stored records: their answers, and what they write and do not write to lent buffers."""

import ctypes
import doctest
import os
import sys
import unittest
from array import array
from concurrent.futures import ThreadPoolExecutor
from pathlib import Path

TOP = Path(__file__).resolve().parents[2]
sys.path[:0] = [str(TOP / "tools" / part) for part in ("view", "vectors")]

import lvn
from reading import read

GUARD, MARK = 0xA5, 0xA5A5


def lines(path):
    return [line.split(" ") for line in (TOP / path).read_text().splitlines()]


def accepted():
    """Records with their rewritings: the examples, as files, those of phis and those by the Rust."""
    for label, record, rewriting, *rest in lines("vectors/worked.txt"):
        if not rest:
            yield (TOP / "examples" / (label.lower() + ".rec")).read_bytes(), bytes.fromhex(rewriting)
    for *_, record, rewriting in lines("vectors/phis.txt") + lines("vectors/rewritings.txt"):
        yield bytes.fromhex(record), bytes.fromhex(rewriting)


def refused():
    """Records with the number and offset of their refusal: C16b, damaged ones, the first bytes of C1."""
    yield (TOP / "examples/c16b.rec").read_bytes(), (3, 6)
    for record, number, offset in lines("crates/replay_check/stdin"):
        if number != "0":
            yield bytes.fromhex(record), (int(number), int(offset))
    for size in range(len(C1)):
        yield C1[:size], (1, 0)


def figures_of(rewriting):
    """Bytes, saves and instructions of the blocks, as the rewriting has them."""
    blocks = read(rewriting).blocks
    return len(rewriting), sum(block.saves for block in blocks), [len(block.instrs) for block in blocks]


def refusal(function, *lent):
    try:
        function(*lent)
    except lvn.Refused as e:
        return e.number, e.offset


C1 = (TOP / "examples/c1.rec").read_bytes()
C1_OUT = bytes.fromhex(lines("vectors/worked.txt")[0][2])
C1_WIDE = bytes.fromhex("00000033 02 02 0003 000161 000162 000178 0001 0002 0000"
                        "0000000000000007 01 0002 02 0000 0001 0000000000000008 01 0002 02 0001 0000")
NONE = bytes.fromhex("00000006 01 00 0000 0000")  # no block
NO_ITEMS = bytes.fromhex("00000001 01")  # a store of no names, or no answers


class Answers(unittest.TestCase):
    def test_c1(self):
        self.assertIsNone(lvn.check(C1))
        self.assertEqual(lvn.rewrite(C1), (C1_OUT, 1))
        self.assertEqual(lvn.figures(C1), (64, 1, [3]))
        self.assertEqual(lvn.name_text(C1, C1_OUT, 3), b"_x_lvn0")
        self.assertEqual((lvn.widen(C1), lvn.narrow(C1_WIDE)), (C1_WIDE, C1))

    def test_no_block(self):
        self.assertEqual(lvn.rewrite(NONE), (NONE, 0))
        self.assertEqual(lvn.figures(NONE), (10, 0, []))
        self.assertEqual(lvn.figures_into(NONE, array("H")), (10, 0))

    def test_accepted(self):
        count = 0
        for record, rewriting in accepted():
            size, saves, blocks = figures_of(rewriting)
            self.assertIsNone(lvn.check(record))
            self.assertEqual(lvn.rewrite(record), (rewriting, saves))
            self.assertEqual(lvn.figures(record), (size, saves, blocks))
            count += 1
        self.assertEqual(count, 449)

    def test_refused(self):
        for record, answer in refused():
            output, places = bytearray([GUARD] * 100), array("H", [MARK] * 70)
            self.assertEqual(refusal(lvn.check, record), answer)
            self.assertEqual(refusal(lvn.rewrite, record), answer)
            self.assertEqual(refusal(lvn.figures, record), answer)
            self.assertEqual(refusal(lvn.rewrite_into, record, output), answer)
            self.assertEqual(refusal(lvn.rewrite_into, record, bytearray()), answer)
            self.assertEqual(refusal(lvn.figures_into, record, places), answer)
            self.assertEqual(refusal(lvn.figures_into, record, array("H")), answer)
            self.assertEqual(refusal(lvn.name_text, record, C1_OUT, 0), answer)
            self.assertEqual(set(output) | set(places), {GUARD, MARK})

    def test_name_texts(self):
        for record, rewriting, index, number, offset, side, start, count, *text in lines("crates/replay_name_text/stdin"):
            lent = bytes.fromhex(record), bytes.fromhex(rewriting), int(index)
            if number == "0":
                self.assertEqual(lvn.name_part(*lent), (side == "1", int(start), int(count)))
                self.assertEqual(lvn.name_text(*lent), bytes.fromhex(text[0]))
            else:
                self.assertEqual(refusal(lvn.name_part, *lent), (int(number), int(offset)))
                self.assertEqual(refusal(lvn.name_text, *lent), (int(number), int(offset)))

    def test_indexes(self):
        for index in (4, 2**16, 2**32, 2**64 - 1, 2**64, 2**64 + 3, -1, -2**64):
            self.assertEqual(refusal(lvn.name_text, C1, C1_OUT, index), (6, 0))
            self.assertEqual(refusal(lvn.name_text, C1, b"", index), (11, 0))
        self.assertRaises(TypeError, lvn.name_text, C1, C1_OUT, 1.0)

    def test_threads(self):
        pairs = list(accepted())[:60] * 10

        def same(pair):
            record, rewriting = pair
            return lvn.rewrite(record).rewriting == rewriting and lvn.figures(record) == figures_of(rewriting)

        with ThreadPoolExecutor(8) as pool:
            self.assertTrue(all(pool.map(same, pairs)))


class Buffers(unittest.TestCase):
    def test_outputs(self):
        for record, rewriting in accepted():
            needed, saves, _ = figures_of(rewriting)
            for size in (0, 1, needed - 1, needed, needed + 1, needed + 40):
                output = bytearray([GUARD] * (size + 2))
                written = rewriting if size >= needed else b""
                with memoryview(output)[1:-1] as lent:
                    if written:
                        self.assertEqual(lvn.rewrite_into(record, lent), (needed, saves))
                    else:
                        with self.assertRaises(lvn.Room) as caught:
                            lvn.rewrite_into(record, lent)
                        self.assertEqual((caught.exception.number, caught.exception.needed), (9, needed))
                self.assertEqual(output, bytes([GUARD]) + written + bytes([GUARD] * (size + 1 - len(written))))

    def test_places(self):
        for record, rewriting in accepted():
            needed, saves, blocks = figures_of(rewriting)
            for count in {0, max(len(blocks) - 1, 0), len(blocks), len(blocks) + 1, 64, 100}:
                places = array("H", [MARK] * (count + 2))
                written = blocks if count >= len(blocks) else []
                with memoryview(places)[1:-1] as lent:
                    if count >= len(blocks):
                        self.assertEqual(lvn.figures_into(record, lent), (needed, saves))
                    else:
                        with self.assertRaises(lvn.TooFew) as caught:
                            lvn.figures_into(record, lent)
                        self.assertEqual(caught.exception.number, 12)
                self.assertEqual(list(places), [MARK] + written + [MARK] * (count + 1 - len(written)))

    def test_kinds_of_input(self):
        for lend in (bytes, bytearray, memoryview, lambda b: memoryview(bytearray(b)), lambda b: array("B", b),
                     lambda b: memoryview(bytes(x for y in b for x in (y, 0)))[::2]):
            self.assertIsNone(lvn.check(lend(C1)))
            self.assertEqual(lvn.rewrite(lend(C1)), (C1_OUT, 1))
            self.assertEqual(lvn.figures(lend(C1)), (64, 1, [3]))
            self.assertEqual(lvn.name_text(lend(C1), lend(C1_OUT), 0), b"a")
            self.assertEqual(lvn.name_text(lend(C1), lend(C1_OUT), 3), b"_x_lvn0")
            self.assertEqual(lvn.widen(lend(C1)), C1_WIDE)
            self.assertEqual(lvn.narrow(lend(C1_WIDE)), C1)
            self.assertEqual(refusal(lvn.check, lend(b"")), (1, 0))
            self.assertEqual(refusal(lvn.name_text, lend(C1), lend(b""), 0), (11, 0))

    def test_kinds_of_output(self):
        for output in (bytearray(64), array("B", bytes(64)), array("Q", bytes(64)), (ctypes.c_uint8 * 64)()):
            self.assertEqual(lvn.rewrite_into(C1, output), (64, 1))
            self.assertEqual(bytes(output), C1_OUT)
            self.assertEqual(lvn.widen_into(C1, output), 55)
            self.assertEqual(bytes(output), C1_WIDE + C1_OUT[55:])
        for places in (array("H", [0]), memoryview(bytearray(2)).cast("H"), (ctypes.c_uint16 * 1)()):
            self.assertEqual(lvn.figures_into(C1, places), (64, 1))
            self.assertEqual(list(places), [3])

    def test_what_cannot_be_lent(self):
        for record in (None, 47, "text", [1, 2]):
            self.assertRaises(TypeError, lvn.check, record)
        for output in (bytes(64), memoryview(bytearray(128))[::2], [0] * 64, None):
            for into in (lvn.rewrite_into, lvn.widen_into, lvn.narrow_into):
                self.assertRaises(TypeError, into, C1, output)
        for places in (bytes(2), bytearray(2), array("h", [0]), array("I", [0]), memoryview(bytes(2)).cast("H"), [0], None):
            self.assertRaises(TypeError, lvn.figures_into, C1, places)
        odd = memoryview(bytearray(16))
        self.assertRaises(ValueError, lvn.figures_into, C1, odd[1:15].cast("H"))
        self.assertEqual(bytes(odd), bytes(16))

    def test_one_buffer_for_both(self):
        both = bytearray(C1) + bytearray([GUARD] * 40)
        with memoryview(both) as view:
            self.assertEqual(lvn.rewrite_into(view[:len(C1)], view), (64, 1))
        self.assertEqual(both, C1_OUT + bytes([GUARD] * (len(C1) + 40 - 64)))
        both[:55] = C1_WIDE
        with memoryview(both) as view:
            self.assertEqual(lvn.narrow_into(view[:55], view), 47)
        self.assertEqual(both[:55], C1 + C1_WIDE[47:])

    def test_longer_where_caught(self):
        output, places, two = bytearray(), array("H"), bytearray()
        try:
            lvn.rewrite_into(C1, output)
        except lvn.Room as e:
            output.extend(bytes(e.needed))
        try:
            lvn.figures_into(C1, places)
        except lvn.TooFew:
            places.append(0)
        try:
            lvn.widen_into(C1, two)
        except lvn.Room as e:
            two.extend(bytes(e.needed))
        self.assertEqual((lvn.rewrite_into(C1, output), lvn.figures_into(C1, places)), ((64, 1), (64, 1)))
        self.assertEqual((lvn.widen_into(C1, two), two), (55, C1_WIDE))
        output.append(0)


class Runs(unittest.TestCase):
    """The stored runs (crates/replay_run/stdin), and what they leave in lent buffers."""

    def stored(self):
        for record, store, answers, limit, number, *values, events, left in lines("crates/replay_run/stdin"):
            parts = [b"" if part == "-" else bytes.fromhex(part) for part in (record, store, answers, events, left)]
            yield parts[:3] + [int(limit)], int(number), [int(value) for value in values], *parts[3:]

    def test_stored(self):
        for lent, number, values, events, left in self.stored():
            if number == 0:
                self.assertEqual(lvn.run(*lent), (events, left, values[2], lvn.ENDS[values[3]], values[4]))
            elif number == 13:
                self.assertRaises(lvn.Unfit, lvn.run, *lent)
            else:
                self.assertEqual(refusal(lvn.run, *lent), (number, values[0]))

    def test_buffers(self):
        for lent, number, values, events, left in self.stored():
            for room, more in ((len(events), len(left)), (len(events) + 9, len(left) + 9), (len(events) - 1, len(left)),
                               (len(events), len(left) - 1), (0, 0)):
                told, final = bytearray([GUARD] * max(room, 0)), bytearray([GUARD] * max(more, 0))
                fits = number == 0 and len(told) >= len(events) and len(final) >= len(left)
                try:
                    self.assertEqual(lvn.run_into(*lent, told, final), tuple(values))
                    self.assertTrue(fits)
                except lvn.Short as short:
                    self.assertEqual((number, fits, short.events, short.store), (0, False, len(events), len(left)))
                except (lvn.Unfit, lvn.Refused) as refused:
                    self.assertEqual(refused.number, number)
                self.assertEqual(told, (events if fits else b"") + bytes([GUARD] * (len(told) - fits * len(events))))
                self.assertEqual(final, (left if fits else b"") + bytes([GUARD] * (len(final) - fits * len(left))))

    def test_limits(self):
        self.assertRaises(ValueError, lvn.run, NONE, NO_ITEMS, NO_ITEMS, -1)
        self.assertRaises(ValueError, lvn.run, NONE, NO_ITEMS, NO_ITEMS, 2**64)
        self.assertRaises(TypeError, lvn.run, NONE, NO_ITEMS, NO_ITEMS, 1.0)
        self.assertEqual(lvn.run(NONE, NO_ITEMS, NO_ITEMS, 0), (b"", NO_ITEMS, 0, "end", 0))

        class Nine:
            def __index__(self):
                return 9

        for limit in (True, 2**64 - 1, Nine()):
            self.assertEqual(lvn.run(NONE, NO_ITEMS, NO_ITEMS, limit), (b"", NO_ITEMS, 0, "end", 0))

    def test_overlaps(self):
        """One buffer for both, and parts of one that share a byte, are refused; parts side by side, and none, are not."""
        both = bytearray([GUARD] * 40)
        view = memoryview(both)
        lent = NONE, NO_ITEMS, NO_ITEMS, 9
        for events, left in ((both, both), (view, both), (view[:21], view[20:]), (view[20:], view[:21]), (view, view[7:12]), (view[7:12], view)):
            self.assertRaises(ValueError, lvn.run_into, *lent, events, left)
        self.assertEqual(set(both), {GUARD})
        for events, left in ((view[:20], view[20:]), (view[20:], view[:20]), (view[7:7], view), (bytearray(), both)):
            both[:] = bytes([GUARD] * 40)
            self.assertEqual(lvn.run_into(*lent, events, left), (0, 5, 0, 0, 0))
            self.assertEqual((left[:5], both.count(GUARD)), (NO_ITEMS, 35))
        with self.assertRaises(lvn.Short):
            lvn.run_into(*lent, view[:0], view[:0])


class Words(unittest.TestCase):
    def test_exceptions(self):
        self.assertEqual(str(lvn.Refused(5, 27)), "refused 5 at 27")
        self.assertEqual(str(lvn.Room(64)), "the output needs 64 bytes")
        self.assertEqual(str(lvn.TooFew()), "fewer places than blocks")
        self.assertEqual(str(lvn.Unfit()), "store or answers do not fit")
        self.assertEqual(str(lvn.Short(34, 14)), "the events need 34 bytes and the store 14")
        self.assertEqual(repr(lvn.Refused(5, 27)), "Refused(5, 27)")

    def test_readme(self):
        self.addCleanup(os.chdir, os.getcwd())
        os.chdir(TOP)
        failed, tried = doctest.testfile(str(Path(__file__).with_name("README.md")), False, optionflags=doctest.IGNORE_EXCEPTION_DETAIL)
        self.assertEqual((failed, tried), (0, 11))

    def test_every_entry_is_described(self):
        for name in lvn.__all__:
            self.assertTrue(getattr(lvn, name).__doc__, name)


if __name__ == "__main__":
    unittest.main()
