"""Records of version 2 in every entry, and the conversions from each version to each, over all stored records."""

import unittest

import lvn
import test_entries
from reading import read
from run_command import event_lines
from test_entries import C1_WIDE, GUARD, accepted, figures_of, lines, refusal, refused


def wide(record):
    """A record of version 1, or a rewriting of one, in version 2: four bytes of zeros before each id."""
    out, last = b"\2", 5
    for block in read(record).blocks:
        for instr in block.instrs:
            out += record[last:instr.at] + bytes(4)
            last = instr.at
    out += record[last:]
    return len(out).to_bytes(4, "big") + out


class Versions(unittest.TestCase):
    def test_version_2(self):
        for record, rewriting in accepted():
            _, saves, blocks = figures_of(rewriting)
            record, rewriting = wide(record), wide(rewriting)
            self.assertIsNone(lvn.check(record))
            self.assertEqual(lvn.rewrite(record), (rewriting, saves))
            self.assertEqual(lvn.figures(record), (len(rewriting), saves, blocks))

    def test_converted(self):
        for record, _ in accepted():
            two = wide(record)
            for function, into, given, out in ((lvn.widen, lvn.widen_into, record, two), (lvn.narrow, lvn.narrow_into, two, record),
                                               (lvn.widen, lvn.widen_into, two, two), (lvn.narrow, lvn.narrow_into, record, record)):
                self.assertEqual(function(given), out)
                for size in (0, 1, len(out) - 1, len(out), len(out) + 1, len(out) + 40):
                    self.outputs(into, given, out, size)

    def outputs(self, into, given, out, size):
        """Of a length; only what is written changes."""
        output = bytearray([GUARD] * (size + 2))
        written = out if size >= len(out) else b""
        with memoryview(output)[1:-1] as lent:
            if written:
                self.assertEqual(into(given, lent), len(out))
            else:
                with self.assertRaises(lvn.Room) as caught:
                    into(given, lent)
                self.assertEqual((caught.exception.number, caught.exception.needed), (9, len(out)))
        self.assertEqual(output, bytes([GUARD]) + written + bytes([GUARD] * (size + 1 - len(written))))

    def refuses(self, record, answer, *entries):
        output = bytearray([GUARD] * 100)
        for function, into in entries:
            self.assertEqual(refusal(function, record), answer)
            self.assertEqual(refusal(into, record, output), answer)
            self.assertEqual(refusal(into, record, bytearray()), answer)
        self.assertEqual(set(output), {GUARD})

    def test_refused(self):
        both = (lvn.widen, lvn.widen_into), (lvn.narrow, lvn.narrow_into)
        for record, answer in refused():
            self.refuses(record, answer, *both)
        for at, new, *answer in ((3, "32", 1, 0), (4, "03", 2, 4), (4, "01", 3, 30), (5, "11", 3, 5), (10, "31", 4, 10), (31, "28", 5, 31),
                                 (32, "0003", 6, 32), (47, "05", 7, 39), (31, "40", 8, 31)):
            new = bytes.fromhex(new)
            record = C1_WIDE[:at] + new + C1_WIDE[at + len(new):]
            self.assertEqual(refusal(lvn.check, record), tuple(answer))
            self.refuses(record, tuple(answer), *both)

    def test_stored(self):
        for record, version, number, value, *out in lines("crates/replay_convert/stdin"):
            record, number, value = bytes.fromhex(record), int(number), int(value)
            function, into = ((lvn.narrow, lvn.narrow_into), (lvn.widen, lvn.widen_into))[version == "2"]
            if number == 0:
                out = bytes.fromhex(*out)
                self.assertEqual((function(record), len(out)), (out, value))
                for size in (value - 1, value, value + 9):
                    self.outputs(into, record, out, size)
            else:
                self.refuses(record, (number, value), (function, into))

    def test_wide_ids(self):
        for ids, offset in (((7, 2**32 - 1), None), ((7, 2**32), 39), ((2**32, 7), 23), ((2**64 - 1, 2**32), 23), ((7, 5 * 2**32 + 8), 39)):
            one, two = (id_.to_bytes(8, "big") for id_ in ids)
            record = C1_WIDE[:23] + one + C1_WIDE[31:39] + two + C1_WIDE[47:]
            self.assertEqual(lvn.widen(record), record)
            if offset is None:
                self.assertEqual(lvn.widen(lvn.narrow(record)), record)
            else:
                self.refuses(record, (15, offset), (lvn.narrow, lvn.narrow_into))
            damaged = record[:-2] + b"\0\3"  # check's refusals come first
            self.refuses(damaged, (6, 53), (lvn.narrow, lvn.narrow_into))

    def test_events(self):
        """Ids of events and of divisions are as wide as in the record; store and answers keep their form."""
        for lent, number, values, events, left in test_entries.Runs().stored():
            if number == 0 and lent[0][4] == 1:
                ran = lvn.run(wide(lent[0]), *lent[1:])
                self.assertEqual([*event_lines(ran.events, 8)], [*event_lines(events, 4)])
                self.assertEqual(len(ran.events) - len(events), 4 * len([*event_lines(events, 4)]))
                self.assertEqual(ran[1:], (left, values[2], lvn.ENDS[values[3]], values[4]))


if __name__ == "__main__":
    unittest.main()
