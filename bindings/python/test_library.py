"""How the shared object is found and linked, in a tree of its own, and what is said where something is missing."""

import os
import shutil
import subprocess
import sys
import tempfile
import unittest
from pathlib import Path

HERE = Path(__file__).resolve().parent
ARCHIVE = HERE.parents[1] / "crates/exports/out/libexports.a"
SAY = "import lvn; print(*lvn.figures(bytes.fromhex('000000060100000000' + '00')))"


@unittest.skipUnless(ARCHIVE.is_file(), "%s is not there" % ARCHIVE)
class Linking(unittest.TestCase):
    def setUp(self):
        self.top = Path(tempfile.mkdtemp())
        self.addCleanup(shutil.rmtree, self.top)
        (self.top / "bindings").mkdir()
        shutil.copytree(HERE, self.top / "bindings/python", ignore=shutil.ignore_patterns("__pycache__"))
        self.archive = self.top / "crates/exports/out/libexports.a"
        self.archive.parent.mkdir(parents=True)
        shutil.copy(ARCHIVE, self.archive)
        self.shared = self.top / "target/python/liblvn.so"

    def start(self, **variables):
        words = [sys.executable, "-B", "-c", SAY]
        kept = {name: value for name, value in os.environ.items() if name != "LVN_LIBRARY"}
        return subprocess.Popen(words, cwd=self.top / "bindings/python", env={**kept, **variables}, text=True,
                                stdin=subprocess.DEVNULL, stdout=subprocess.PIPE, stderr=subprocess.PIPE)

    def said(self, **variables):
        """What the program prints, or the last line of its error."""
        out, error = self.start(**variables).communicate()
        return out.strip() or error.splitlines()[-1]

    def test_linked_once(self):
        self.assertEqual(self.said(), "10 0 []")
        first = self.shared.stat()
        self.assertEqual(self.said(), "10 0 []")
        self.assertEqual(self.shared.stat().st_ino, first.st_ino)
        self.assertEqual(first.st_mtime_ns, self.archive.stat().st_mtime_ns)
        self.assertEqual(os.listdir(self.shared.parent), [self.shared.name])

    def test_linked_anew(self):
        self.said()
        first = self.shared.stat()
        for time in (first.st_mtime_ns + 1000, first.st_mtime_ns - 10**9):
            os.utime(self.archive, ns=(time, time))
            self.assertEqual(self.said(), "10 0 []")
            self.assertEqual(self.shared.stat().st_mtime_ns, time)
        self.shared.write_bytes(b"")
        self.assertEqual(self.said(), "10 0 []")

    def test_many_at_once(self):
        for process in [self.start() for _ in range(12)]:
            self.assertEqual(process.communicate(), ("10 0 []\n", ""))
        self.assertEqual(os.listdir(self.shared.parent), [self.shared.name])

    def test_another_one(self):
        self.said()
        other = self.top / "bindings/python/other.so"
        self.shared.rename(other)
        self.archive.unlink()
        self.assertEqual(self.said(LVN_LIBRARY=str(other)), "10 0 []")
        self.assertEqual(self.said(LVN_LIBRARY="other.so"), "10 0 []")
        self.assertFalse(self.shared.exists())
        self.assertIn("nowhere.so: cannot open shared object file", self.said(LVN_LIBRARY=str(self.top / "nowhere.so")))

    def test_missing(self):
        self.assertEqual(self.said(PATH=str(self.top)), "ImportError: no cc, gcc or clang in PATH to link %s with" % self.archive)
        self.archive.write_bytes(b"no archive")
        self.assertRegex(self.said(), "^ImportError: %s: not linked by .*: ." % self.archive)
        self.archive.write_bytes(b"!<arch>\n")
        self.assertEqual(self.said(), "ImportError: %s: has no lvn_check; run `rt lib` in crates/exports" % self.shared)
        self.archive.unlink()
        self.assertEqual(self.said(), "ImportError: %s: not there; run `rt lib` in crates/exports, or set LVN_LIBRARY" % self.archive)


if __name__ == "__main__":
    unittest.main()
