"""The shared object that the module lvn calls: found, linked where needed, and loaded.

`LVN_LIBRARY` names a file that is loaded as it is. Without it that is target/python/liblvn.so, which is linked from the static library
unless it already is that library's: it bears the same time.
"""

import ctypes
import os
import shutil
import subprocess
import tempfile
from pathlib import Path

TOP = Path(__file__).resolve().parents[2]
ARCHIVE = TOP / "crates/exports/out/libexports.a"
SHARED = TOP / "target/python/liblvn.so"


def load() -> ctypes.CDLL:
    """The library; ImportError says in one line what is missing."""
    named = os.environ.get("LVN_LIBRARY")
    try:
        return ctypes.CDLL(os.path.abspath(named) if named else str(_linked()))
    except OSError as e:
        raise ImportError(str(e)) from None


def _linked() -> Path:
    if not ARCHIVE.is_file():
        raise ImportError("%s: not there; run `rt lib` in crates/exports, or set LVN_LIBRARY" % ARCHIVE)
    time = ARCHIVE.stat().st_mtime_ns
    if not SHARED.is_file() or SHARED.stat().st_mtime_ns != time:
        _link(time)
    return SHARED


def _link(time: int) -> None:
    """Links beside the place and moves the whole file there, so that several processes may do so at once."""
    compiler = shutil.which("cc") or shutil.which("gcc") or shutil.which("clang")
    if not compiler:
        raise ImportError("no cc, gcc or clang in PATH to link %s with" % ARCHIVE)
    SHARED.parent.mkdir(parents=True, exist_ok=True)
    with tempfile.TemporaryDirectory(dir=SHARED.parent) as folder:
        new = Path(folder) / SHARED.name
        words = [compiler, "-shared", "-o", new, "-Wl,--whole-archive", ARCHIVE, "-Wl,--no-whole-archive"]
        r = subprocess.run(words, stdin=subprocess.DEVNULL, capture_output=True, text=True)
        if r.returncode:
            raise ImportError("%s: not linked by %s: %s" % (ARCHIVE, compiler, (r.stderr.splitlines() or [""])[0]))
        os.utime(new, ns=(time, time))
        os.replace(new, SHARED)
