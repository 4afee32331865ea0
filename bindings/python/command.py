"""What ./lvn does for a command: command.py WORD, with the record on standard input; command.py view or asm, with words for that tool.

Ends with 0 if that is done, 1 if the record was refused and the line that says so was written, 3 if not all could be written, and 2 if
there was nothing to read or to call; a line on standard error says what 2 and 3 come from.
"""

import os
import subprocess
import sys
from pathlib import Path

sys.dont_write_bytecode = True
TOOLS = Path(__file__).resolve().parents[2] / "tools"


def fail(status, what):
    print("lvn: %s" % what, file=sys.stderr)
    sys.exit(status)


# The commands over the library, each from a record to what is written.

def check(lvn, record):
    lvn.check(record)
    return b"accepted\n"


def figures(lvn, record):
    found = lvn.figures(record)
    lines = ["bytes %d" % found.bytes, "saves %d" % found.saves]
    lines += ["block %d %d" % of_block for of_block in enumerate(found.blocks)]
    return "".join(line + "\n" for line in lines).encode()


def widen(lvn, record):
    return lvn.widen(record)


def narrow(lvn, record):
    return lvn.narrow(record)


COMMANDS = {"check": check, "figures": figures, "widen": widen, "narrow": narrow}
TOOL_OF = {"view": "recview", "asm": "recasm"}


def answer(word):
    """Status and output of a command."""
    try:
        import lvn
    except ImportError as e:
        fail(2, e)
    try:
        record = sys.stdin.buffer.read()
    except (AttributeError, OSError):  # it has no stdin if that is closed
        fail(2, "standard input: cannot be read")
    try:
        return 0, COMMANDS[word](lvn, record)
    except lvn.Refused as refused:
        return 1, b"%s\n" % str(refused).encode()


def tool(word, words):
    """Status and output of a tool, which says itself what is wrong."""
    done = subprocess.run([sys.executable, TOOLS / TOOL_OF[word], *words], stdout=subprocess.PIPE)
    return done.returncode, done.stdout


def main(word, *words):
    status, out = tool(word, words) if word in TOOL_OF else answer(word)
    try:
        while out:
            out = out[os.write(1, out):]
    except OSError:
        fail(3, "not all could be written")
    sys.exit(status)


if __name__ == "__main__":
    main(*sys.argv[1:])
