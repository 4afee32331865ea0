"""What tools/test_lvn tries: records, words behind the commands, and what is then said."""

import sys
from pathlib import Path

TOP = Path(__file__).resolve().parent.parent
sys.path[:0] = [str(TOP / part) for part in ("tools/view", "tools/vectors")]

from parsing import parse
from record import to_bytes


def bril(text):
    return to_bytes(parse(text.encode()))


CALL = bytes.fromhex("00000021 01 01 0001 000161 0001 0002 0000 00000001 14 0000 01 0000 0003 00000002 44 01 0000")
CALL_WIDE = bytes.fromhex("00000029 02 01 0001 000161 0001 0002 0000 FFFFFFFFFFFFFFFF 14 0000 01 0000 0003 0000000100000002 44 01 0000")
DIVISION_WIDE = bytes.fromhex("0000001D 02 01 0001 000161 0001 0001 0000 0000000100000002 04 0000 02 0000 0000")
C1_WIDE = bytes.fromhex("00000033 02 02 0003 000161 000162 000178 0001 0002 0000"
                        "0000000000000007 01 0002 02 0000 0001 0000000000000008 01 0002 02 0001 0000")
C1_WIDE_OUT = bytes.fromhex("00000048 02 02 0004 000161 000162 000178 00075F785F6C766E30 0001 0003 0001 0000000000000007 01 0002 02 0000 0001"
                            "0000000000000008 0D 0003 01 0002 0000000000000008 0D 0002 01 0003")
NOPS = bytes.fromhex("00018106 01 00 0000 0040") + (bytes.fromhex("0100 0000") + bytes.fromhex("00000000 45 00") * 256) * 64
NOPS_WIDE = bytes.fromhex("00028106 02 00 0000 0040") + (bytes.fromhex("0100 0000") + bytes.fromhex("0000000000000000 45 00") * 256) * 64

RUNS = (  # words behind run, status, and what is said; a record is a file of examples or CALL, -
    (["c1", "--set", "a=2", "--set", "b=3"], 0, "a: int = 2\nb: int = 3\nx: int = 5\nsteps 2\nended by end\n"),
    (["c1", "--set", "a=2"], 0, "a: int = 2\nb: int is not set\nx: int is not set\nsteps 1\nended by unset\n"),
    (["c1", "--set", "b=-3", "--set", "a=2", "--steps", "1"], 0, "a: int = 2\nb: int = -3\nx: int = -1\nsteps 1\nended by limit\n"),
    (["c1", "--steps", "0"], 0, "a: int is not set\nb: int is not set\nx: int is not set\nsteps 0\nended by limit\n"),
    (["-", "--set", "a=5", "--answer", "6", "--answer", "go"], 0,
     "call @f3 5; #1\nprint 6; #2\na: int = 6\nsteps 2\nended by end\n"),
    (["-", "--set", "a=5", "--answer", "6", "--answer", "halt"], 0,
     "call @f3 5; #1\nprint 6; #2\na: int = 6\nsteps 2\nended by halt\n"),
    (["-", "--set", "a=5"], 0, "call @f3 5; #1\na: int = 5\nsteps 1\nended by halt\n"),
    (["-", "--set", "a=5", "--answer", "true"], 1, "refused 13: answer 1, true, does not fit its instruction\n"),
    (["-", "--set", "a=5", "--answer", "6", "--answer", "7"], 1, "refused 13: answer 2, 7, does not fit its instruction\n"),
    (["c16b"], 1, "refused 3 at 6\n"),
)

DIVISION = "@f(a: int, b: int) {\n.b0:\n  c: int = div a b; #9\n  ret c; #10\n}\n"

OF_ALL = """@f(i: int, b: bool, f: float, c: char, p: ptr<int>) {
.b0:
  print i b f c p; #1
  f: float = fadd f f; #2
  c: char = int2char i; #3
  p: ptr<int> = alloc i; #4
  b: bool = call @f7; #5
}
"""
SET_ALL = "--set i=-1 --set b=false --set f=float:5 --set c='a' --set p=ptr<int>:100+8".split()
PRINTED = "print -1 false float:5 'a' ptr<int>:100+8; #1\n"
FOR_FLOAT = "; for a float the int literal is float:%s and the number %s.0\n"

LOOP = "@f(p: ptr<int>) {\n.b0:\n  print p p p p p p p p; #1\n  jmp .b0; #2\n}\n"  # events of 144 bytes; 7,281 fit
LONG = "@f(a: int) {\n%s}\n" % "".join(".b%d:\n" % block + "  print a a a a a a a a;\n" * 256 for block in range(64))

TEXT_RUNS = (  # a function, words behind run, status, what is said, and the line on standard error
    (DIVISION, ["--set", "a=7", "--set", "b=0"], 0, "a: int = 7\nb: int = 0\nc: int is not set\nsteps 1\nended by division #9\n", ""),
    (DIVISION, ["--set", "a=-7", "--set", "b=2"], 0, "ret -3; #10\na: int = -7\nb: int = 2\nc: int = -3\nsteps 2\nended by ret\n", ""),
    (OF_ALL, [*SET_ALL, *"--answer go --answer 2.5 --answer '\\u{e9}' --answer ptr<int>:16-8 --answer true".split()], 0,
     PRINTED + "fadd float:5 float:5; #2\nint2char -1; #3\nalloc -1; #4\ncall @f7; #5\n"
     "i: int = -1\nb: bool = true\nf: float = 2.5\nc: char = '\\u{e9}'\np: ptr<int> = ptr<int>:16-8\nsteps 5\nended by end\n", ""),
    (OF_ALL, [*SET_ALL, "--answer", "go", "--answer", "float:-3"], 0, PRINTED + "fadd float:5 float:5; #2\nint2char -1; #3\n"
     "i: int = -1\nb: bool = false\nf: float = float:-3\nc: char = 'a'\np: ptr<int> = ptr<int>:100+8\nsteps 3\nended by halt\n", ""),
    (OF_ALL, [*SET_ALL, "--answer", "go", "--answer", "-3"], 1, "refused 13: answer 2, -3, does not fit its instruction" + FOR_FLOAT % (-3, -3), ""),
    (OF_ALL, [*SET_ALL, "--answer", "true"], 1, "refused 13: answer 1, true, does not fit its instruction\n", ""),
    (LOOP, ["--set", "p=1", *["--answer", "go"] * 7281], 1, "refused 14: the events need 1048608 bytes and the store 22\n",
     "lvn: 1,048,576 bytes are lent for the events; the library's run can be lent more\n"),
    (LONG, [], 1, "refused 10 at 262144\n",
     "lvn: record, store, answers and limit (8 bytes) may have 262,144 bytes together; the library's run takes more\n"),
)

BAD_RUNS = (  # words behind run, and the line on standard error
    ([], "a record is needed: run RECORD [--set NAME=VALUE ..] [--answer VALUE ..] [--steps N]"),
    (["c1", "--set", "a=true"], "--set a=true: true is no int"),
    (["c1", "--set", "a=float:5"], "--set a=float:5: a is of type int"),
    (["c1", "--set", "a=zwei"], "--set a=zwei: no literal: zwei"),
    (["c1", "--set", "d=1"], "--set d=1: the record has no name d"),
    (["c1", "--set", "a"], "--set a: NAME=VALUE is needed"),
    (["c1", "--set"], "--set: a word is missing behind it"),
    (["c1", "--answer", "went"], "--answer went: no literal: went"),
    (["c1", "--answer", "ptr<int>:x"], "--answer ptr<int>:x: no base and offset of a pointer: x"),
    (["c1", "--set", "a="], "--set a=: no value"),
    (["c1", "--answer", ""], "--answer : no value"),
    (["c1", "--answer", "'"], "--answer ': no literal: '"),
    (["c1", "--answer", "5\n6"], "--answer 5 6: no literal: 5 6"),
    (["c1", "--answer", b"'\xff'"], r"--answer '\udcff': no literal: '\udcff'"),
    (["c1", "--steps", "-1"], "--steps -1: a number from 0 to 18446744073709551615 is needed"),
    (["c1", "--stop"], "--stop: not understood; run RECORD [--set NAME=VALUE ..] [--answer VALUE ..] [--steps N]"),
    (["nowhere.rec"], "nowhere.rec: No such file or directory"),
)

NAMES = "@f(i: int, b: bool, f: float, c: char, p: ptr<int>, q: ptr<ptr<char>>) {\n}\n"  # a name of each type

READ_BACK = (  # a name, its value as a word, and as the store shows it
    ("i", "-9223372036854775808", "-9223372036854775808"), ("i", "int:7", "7"), ("b", "true", "true"), ("b", "bool:false", "false"),
    ("f", "1.5", "1.5"), ("f", "-1e-3", "-0.001"), ("f", "inf", "inf"), ("f", "0x7ff8000000000000", "0x7ff8000000000000"),
    ("f", "5", "float:5"), ("f", "float:-5", "float:-5"), ("f", "5.0", "5.0"), ("c", "'a'", "'a'"), ("c", "':'", "':'"), ("c", "'''", "'''"),
    ("c", "'\\'", "'\\'"), ("c", "char:':'", "':'"), ("c", r"'\u{e9}'", r"'\u{e9}'"), ("c", "'\xe9'", r"'\u{e9}'"), ("c", r"'\u{00041}'", "'A'"),
    ("c", r"'\u{10ffff}'", r"'\u{10ffff}'"), ("p", "100+8", "ptr<int>:100+8"), ("p", "ptr<int>:1-8", "ptr<int>:1-8"),
    ("p", "ptr<int>:5", "ptr<int>:5+0"), ("q", "ptr<ptr<char>>:18446744073709551615+0", "ptr<ptr<char>>:18446744073709551615+0"),
)

BAD_VALUES = (  # a value, the name to which it is given, and what is said of it; an answer that is bad in itself is bad in the same way
    ("", "ibfcpq", "no value"),
    ("int:", "i", "no value"), ("float:", "f", "no value"), ("ptr<int>:", "p", "no value"), ("ptr<ptr<char>>:", "q", "no value"),
    *((text, "c", "no literal: " + text) for text in (
        "'", "''", "'a", "'ab", "'ab'", "'abcdef'", "''''", "a'", "'a'b", "'a' ", "':5", "5 ", r"'\u'", r"'\u{}'", r"'\u{0", r"'\u{41}",
        r"'\u{0000041}'", r"'\u{E9}'", r"'\u{g}'", r"'\n'", r"'\x41'", r"'\u{d800}'", r"'\u{dfff}'", r"'\u{110000}'", r"'\u{ffffff}'")),
    *((text, "if", "no literal: " + text) for text in (
        "-", "+5", "0x5", "1_0", "5.", ".5", "1e", "1e+", "e5", "5.0.0", "nan", "--inf", "9223372036854775808", "-9223372036854775809",
        "9" * 5000, "True", "\u0665", "null", " 5")),
    ("0x7FF8000000000000", "f", "no literal: 0x7FF8000000000000"), ("0x7ff800000000000", "f", "no literal: 0x7ff800000000000"),
    ("1e309", "f", "1e309 is too large for a float"), ("-1e" + "9" * 5000, "f", "-1e%s is too large for a float" % ("9" * 5000)),
    ("float:1e", "f", "no literal: 1e"), ("int:true", "i", "true is no int"), ("bool:1", "b", "1 is no bool"), ("float:'a'", "f", "'a' is no float"),
    ("int:int:5", "i", "no literal: int:5"), (":5", "i", "no type: "), ("str:5", "i", "no type: str"), ("ptr<int:5", "p", "no type: ptr<int"),
    ("ptr<>:5", "p", "no type: ptr<>"), ("%sint%s:5" % ("ptr<" * 16, ">" * 16), "p", "no type: %sint%s" % ("ptr<" * 16, ">" * 16)),
    *(("ptr<int>:" + place, "p", "no base and offset of a pointer: " + place) for place in (
        "x", "1+", "+1", "-1", "1+-1", "1+2+3", "1.0", "1 + 2", "18446744073709551616", "1+18446744073709551616", "9" * 5000, "1-" + "9" * 5000)),
    ("5\n6", "if", "no literal: 5 6"), ("'\n'", "c", "no literal: ' '"),
)

BAD_IDS = (  # of C1 in version 2: the bytes from an offset on, and what is said of its narrowing; None: as check says, and so of its widening
    (43, "00000000", b"accepted\n"), (39, "00000000FFFFFFFF", b"accepted\n"),
    (39, "0000000100000000", b"refused 15 at 39\n"), (39, "8000000000000000", b"refused 15 at 39\n"),
    (42, "01", b"refused 15 at 39\n"), (39, "FF", b"refused 15 at 39\n"), (26, "01", b"refused 15 at 23\n"),
    (23, "FF" * 8, b"refused 15 at 23\n"), (3, "34FF", None), (4, "01", None), (4, "03FF", None), (5, "11", None), (10, "31", None),
    (31, "28", None), (32, "0003", None), (47, "05", None), (31, "40", None),
)

IN_C = (  # an example in C, its words, a record, status, and what is said and written to standard error
    ("run", ["2", "3"], None, 0, "steps 2\nended by end\n", ""),
    ("run", ["-9223372036854775808"], None, 0, "steps 1\nended by unset\n", ""),
    ("run", ["5"], CALL, 0, "steps 1\nended by halt\n", ""),
    ("run", ["-7", "2"], bril(DIVISION), 0, "steps 2\nended by ret\n", ""),
    ("run", ["7", "0"], bril(DIVISION), 0, "steps 1\nended by division #9\n", ""),
    ("run", [], bril(NAMES), 0, "steps 0\nended by end\n", ""),
    ("run", ["1", "2"], bril(NAMES), 1, "", "run: refused 13\n"),
    ("run", ["1", "2", "3", "4"], None, 2, "", "run: ints for the first of 3 names are needed\n"),
    ("run", ["two"], None, 2, "", "run: ints for the first of 3 names are needed\n"),
    ("run", ["9223372036854775808"], None, 2, "", "run: ints for the first of 3 names are needed\n"),
    ("run", [], b"", 1, "", "run: standard input: refused 1 at 0\n"),
    ("rewrite", [], b"", 1, "", "rewrite: standard input: refused 1 at 0\n"),
    ("convert", [], b"", 1, "", "convert: standard input: refused 1 at 0\n"),
    ("convert", [], C1_WIDE[:42] + b"\1" + C1_WIDE[43:], 1, "", "convert: standard input: refused 15 at 39\n"),
)
