"""C1 to C16 of document 01 as records, with the answers it gives.

The outputs are written out by hand from document 01, not from the Rust.
Usage: worked.py > vectors/worked.txt
"""

from record import from_text, to_bytes

AB = "arg a int\narg b int\n"

# Label, names of the input, names made, blocks of the input, blocks of the
# output.
CASES = [
    ("C1", AB + "name x int", "name _x_lvn0 int", """
block
7 x = add a b
8 x = add b a
""", """
block saves 1
7 x = add a b
8 _x_lvn0 = id x
8 x = id _x_lvn0
"""),
    ("C2", "name x int", "name _x_lvn0 int", """
block
1 x = const int 5
2 x = id x
""", """
block saves 1
1 x = const int 5
2 _x_lvn0 = id x
2 x = const int 5
"""),
    ("C3", AB + "name z int", "", """
block
1 z = const int 0
2 a = add a z
""", """
block
1 z = const int 0
2 a = id a
"""),
    ("C4", "name f float\nname n int\nname g float", "", """
block
1 f = const int 0
2 n = const int 0
3 g = const int 0
""", """
block
1 f = const int 0
2 n = const int 0
3 g = id f
"""),
    ("C5", "name x int\nname y int", "name _x_lvn0 int", """
block
1 x = const int 5
2 y = const int 5
3 x = const int 6
4 print y
""", """
block saves 1
1 x = const int 5
2 y = const int 5
3 _x_lvn0 = id x
3 x = const int 6
4 print _x_lvn0
"""),
    ("C6", "name x int\nname y int\nname z int", "", """
block
1 x = const int 9223372036854775807
2 y = const int 1
3 z = add x y
""", """
block
1 x = const int 9223372036854775807
2 y = const int 1
3 z = const int -9223372036854775808
"""),
    ("C7", "name x int\nname y int\nname z int", "", """
block
1 x = const int 7
2 y = const int 0
3 z = div x y
""", """
block
1 x = const int 7
2 y = const int 0
3 z = div x y
"""),
    ("C8", AB + "name t int\nname y int\nname w int", "", """
block
1 t = const int 2
2 y = mul t a
3 w = add a a
""", """
block
1 t = const int 2
2 y = add a a
3 w = id y
"""),
    ("C9", AB + "name x bool", "", """
block
1 x = eq a a
""", """
block
1 x = const bool 1
"""),
    ("C10", "name x int\nname y int\nname z int", "", """
block
1 x = const int -7
2 y = const int 2
3 z = div x y
""", """
block
1 x = const int -7
2 y = const int 2
3 z = const int -3
"""),
    ("C11", "", "", """
block
""", """
block
"""),
    ("C12", "name x int", "name _x_lvn0 int", """
block
1 print x
2 x = const int 1
""", """
block saves 1
1 print x
2 _x_lvn0 = id x
2 x = const int 1
"""),
    ("C13", "name x int", "", """
block
1 x = const int 1
""", """
block
1 x = const int 1
"""),
    ("C14", "arg p ptr<int>\nname x int\nname y int", "", """
block
1 x = load p
2 y = load p
""", """
block
1 x = load p
2 y = load p
"""),
    ("C15", "name x int", "name _x_lvn0 int\nname _x_lvn1 int", """
block
1 print x
2 x = const int 1
block
3 print x
4 x = const int 2
""", """
block saves 1
1 print x
2 _x_lvn0 = id x
2 x = const int 1
block saves 1
3 print x
4 _x_lvn1 = id x
4 x = const int 2
"""),
]

# Document 01's own bytes of C1.
C1_IN = """0000002B 01 02 0003 000161 000162 000178 0001 0002 0000
00000007 01 0002 02 0000 0001 00000008 01 0002 02 0001 0000"""
C1_OUT = """0000003C 01 02 0004 000161 000162 000178 00075F785F6C766E30 0001
0003 0001 00000007 01 0002 02 0000 0001 00000008 0D 0003 01 0002
00000008 0D 0002 01 0003"""


def hexed(text):
    return to_bytes(from_text(text)).hex()


def many_names(count):
    """count names; the first block sets the name 255."""
    texts = [chr(97 + n // 16) + chr(97 + n % 16) for n in range(256)]
    texts += ["z%d" % n for n in range(256, count)]
    lines = ["name %s int" % t for t in texts[:count]]
    return "\n".join(lines + ["block", "1 %s = const int 1" % texts[255]])


def lines():
    for label, names, made, before, after in CASES:
        record = hexed("\n".join([names, before]))
        yield label, record, hexed("\n".join([names, made, after]))
    record = hexed(many_names(256))
    yield "C16a", record, record
    yield "C16b", hexed(many_names(257)), "refused 3 at 6"


def main():
    cases = list(lines())
    for text, got in ((C1_IN, cases[0][1]), (C1_OUT, cases[0][2])):
        assert "".join(text.split()).lower() == got
    for case in cases:
        print(*case)


if __name__ == "__main__":
    main()
