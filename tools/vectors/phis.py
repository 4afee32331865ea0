"""Records of phis with their rewritings, which are written out by hand from
document 01 and Point 5 of document 02. The Rust is asked too: unless it gives
the same, nothing is printed.

Usage: phis.py > vectors/phis.txt
"""

import sys

from compare import build, oracle
from worked import AB, hexed

LONG = "the_one_name_that_every_phi_sets"
MANY = 137

# Label, names of the input, names made, blocks of the input, blocks of the
# output. The first is examples/phi.bril.
CASES = [
    ("phi", "arg n int\nname z int\nname o int\nname i int\nname m int\nname c bool",
     "name _i_lvn0 int\nname _i_lvn1 int", """
block
1 z = const int 0
2 o = const int 1
3 i = id n
4 jmp .1
block
5 m = id n
6 i = phi m i .0 .1
7 print i
8 i = sub i o
9 c = lt z i
10 br c .1 .2
block
11 ret i
""", """
block
1 z = const int 0
2 o = const int 1
3 i = id n
4 jmp .1
block saves 2
5 m = id n
6 _i_lvn0 = id i
6 i = phi n i .0 .1
7 print i
8 _i_lvn1 = id i
8 i = sub i o
9 c = lt z i
10 br c .1 .2
block
11 ret i
"""),
    ("none", "name x int\nname y int", "name _y_lvn0 int", """
block
1 x = phi
2 y = phi
3 print x y
4 y = phi
""", """
block saves 1
1 x = phi
2 y = phi
3 print x y
4 _y_lvn0 = id y
4 y = phi
"""),
    ("one", AB + "name x int\nname y int", "", """
block
1 x = phi a .0
2 y = id x
3 print a x y
""", """
block
1 x = phi a .0
2 y = id x
3 print a x x
"""),
    ("eight", AB + "name x int\nname y int\nname z int", "name _y_lvn0 int", """
block
1 x = id b
block
2 x = id b
3 z = phi a b x y x b a y .0 .1 .0 .1 .1 .0 .1 .0
4 y = phi z z z z z z z x .0 .0 .0 .0 .0 .0 .0 .1
""", """
block
1 x = id b
block saves 1
2 x = id b
3 z = phi a b b y b b a y .0 .1 .0 .1 .1 .0 .1 .0
4 _y_lvn0 = id y
4 y = phi z z z z z z z b .0 .0 .0 .0 .0 .0 .0 .1
"""),
    ("equal", AB + "name x int\nname y int\nname z int", "name _x_lvn0 int", """
block
1 x = phi a b .0 .1
2 y = phi a b .0 .1
3 z = sub x y
4 x = phi a b .0 .1
5 print x y z
block
""", """
block saves 1
1 x = phi a b .0 .1
2 y = phi a b .0 .1
3 z = sub x y
4 _x_lvn0 = id x
4 x = phi a b .0 .1
5 print x y z
block
"""),
    ("last", AB + "name x int\nname y int", "name _x_lvn0 int", """
block
1 x = add a b
2 x = phi x a .0 .1
block
3 y = add a b
4 x = phi y b .1 .1
""", """
block saves 1
1 x = add a b
2 _x_lvn0 = id x
2 x = phi x a .0 .1
block
3 y = add a b
4 x = phi y b .1 .1
"""),
    ("own", "arg a int\nname x int", "name _x_lvn0 int\nname _x_lvn1 int\nname _a_lvn2 int", """
block
1 x = phi x .0
2 x = phi x x .0 .0
3 a = phi a x .0 .0
4 x = id x
""", """
block saves 3
1 _x_lvn0 = id x
1 x = phi x .0
2 _x_lvn1 = id x
2 x = phi x x .0 .0
3 _a_lvn2 = id a
3 a = phi a x .0 .0
4 x = id x
"""),
    ("saved", AB + "name x int\nname y int", "name _x_lvn0 int\nname _y_lvn1 int", """
block
1 x = add a b
2 y = id x
3 x = phi a y .0 .0
4 print y
5 y = phi y x .0 .0
6 y = add b a
""", """
block saves 2
1 x = add a b
2 y = id x
3 _x_lvn0 = id x
3 x = phi a x .0 .0
4 print _x_lvn0
5 y = phi _x_lvn0 x .0 .0
6 _y_lvn1 = id y
6 y = id _x_lvn0
"""),
    ("unseen", "name u int\nname v int\nname x int\nname y int", "", """
block
1 x = phi v u u .0 .0 .0
2 y = add u v
3 print y
""", """
block
1 x = phi v u u .0 .0 .0
2 y = add v u
3 print y
"""),
    ("constants", "name x int\nname y int\nname z int\nname w int\nname v int", "", """
block
1 x = const int 5
2 y = const int 5
3 z = phi x y .0 .0
4 w = add z y
5 v = id z
6 v = id y
""", """
block
1 x = const int 5
2 y = const int 5
3 z = phi x x .0 .0
4 w = add x z
5 v = id z
6 v = const int 5
"""),
    ("types", "arg p ptr<int>\narg f float\narg h char\narg c bool\nname q ptr<int>\nname g float",
     "name _p_lvn0 ptr<int>\nname _f_lvn1 float\nname _h_lvn2 char\nname _c_lvn3 bool\nname _g_lvn4 float", """
block
1 q = id p
2 p = phi q p .0 .1
3 f = phi f .1
4 h = phi h h .1 .1
5 c = phi
6 g = const int 0
7 g = phi g f .0 .0
8 br c .0 .1
block
""", """
block saves 5
1 q = id p
2 _p_lvn0 = id p
2 p = phi p p .0 .1
3 _f_lvn1 = id f
3 f = phi f .1
4 _h_lvn2 = id h
4 h = phi h h .1 .1
5 _c_lvn3 = id c
5 c = phi
6 g = const int 0
7 _g_lvn4 = id g
7 g = phi g f .0 .0
8 br c .0 .1
block
"""),
    ("far", "arg a int\nname x int", "name _a_lvn0 int\nname _a_lvn1 int", """
block
1 x = phi a a .63 .0
2 a = phi x .63
""" + 62 * "block\n" + """
block
3 a = phi a .63
4 jmp .0
""", """
block saves 1
1 x = phi a a .63 .0
2 _a_lvn0 = id a
2 a = phi x .63
""" + 62 * "block\n" + """
block saves 1
3 _a_lvn1 = id a
3 a = phi a .63
4 jmp .0
"""),
]


def many():
    """Phis of no argument into one argument: each has 8 bytes and owes a save, so
    the rewriting has over seven times the bytes of the record."""
    made = ["_%s_lvn%d" % (LONG, n) for n in range(MANY)]
    phis = ["%d %s = phi" % (n, LONG) for n in range(MANY)]
    saves = ["%d %s = id %s" % (n, text, LONG) for n, text in enumerate(made)]
    after = [line for pair in zip(saves, phis) for line in pair]
    return ("many", "arg %s int" % LONG, "\n".join("name %s int" % text for text in made),
            "\n".join(["block", *phis]), "\n".join(["block saves %d" % MANY, *after]))


def lines():
    for label, names, made, before, after in [*CASES, many()]:
        yield label, hexed("\n".join([names, before])), hexed("\n".join([names, made, after]))


def main():
    build()
    cases = list(lines())
    for (label, _, out), answer in zip(cases, oracle([record for _, record, _ in cases])):
        if answer != out:
            sys.exit("%s: the Rust gives %s" % (label, answer))
    for case in cases:
        print(*case)


if __name__ == "__main__":
    main()
