#!/usr/bin/env python3
"""Respells the repository's own names as today's Rattle has them: words in snake case, facts in upper camel case.

usage: tools/port_names.py        at the top of the repository, once, after /opt/rattle/port/port.py; rewrites files below crates/
       tools/port_names.py list   prints what would be renamed, a name and its new spelling a line

Definitions, lemmas, fields, constructors and variables of specs/ and proofs/, and the same names in clauses, ghost items and ghost imports of src/.
A dash behind the name of a type stays, as in Val-discrete. What Rattle makes (returns-2, invariant-loop, a step's name behind a dot of a Proof.antt) is left, and so are code, strings and
comments, but for names in backticks. It stops where two names of a file would fall together.
"""

import glob
import os
import re
import sys

KIT = "/opt/rattle/rattle"
WORD = r"[A-Za-zℕ𝓤-𝓩][\w'₀-₉]*"
DASHED = re.compile(r"(?<![\w'₀-₉-])(\.?)(" + WORD + r"(?:-[\w'₀-₉]+)+)")
CAMEL = re.compile(r"(?<![\w'₀-₉-])(\.?)([a-z][a-z0-9_'-]*[A-Z][\w'₀-₉-]*)")
DECLARED = re.compile(r"^\s*(?:(?:pub|abbrev|unfoldable|opaque|private)\s+)*([^\s:(){}.,;λ=]+)(?:\s+[^:=]*?)?\s*:(?:\s|$)")
MADE = re.compile(r"^(?:returns|invariant|decreases|loop|overflow_\w+|nonzero_\w+|bounds|slice_bounds|Need|Then|After|the)-|-requires(-\d+)?$|-(init|preserved|smaller)$")
# a suffix of a word's name that is one capital, and an older name of the library's get_or
SPELLED = {"getD": "get_or", "toZ": "to_z"}
# names that would fall together with another of their file, and two that read like names that Rattle makes
APART = {"as-int": "was_int", "as-bool": "was_bool", "bool-byte": "bool_byte_is", "in-range": "ranges", "loop-rewritten": "loop_rewritten", "loop-case": "loop_case"}
# facts whose names were in lower case: (file below crates/ in which it is declared, name, new spelling)
FACTS = [("exports/specs/Values.antt", "lies_within", "LiesWithin"), ("name_text/specs/Found.antt", "within", "IsWithin"), ("name_text/proofs/Laws.antt", "inside", "IsInside"),
         ("name_text/proofs/Laws.antt", "lies", "Lies"), ("pairing/proofs/Continued.antt", "with-dest", "WithDest")]
IMPORT = re.compile(r"\buse ([\w.'+]+)\.\{([^}]*)\}")


def antt():
    return sorted(f for f in glob.glob("crates/*/specs/**/*.antt", recursive=True) + glob.glob("crates/*/proofs/**/*.antt", recursive=True) if "/out/" not in f)


def rt():
    return sorted(f for f in glob.glob("crates/*/src/**/*.rt", recursive=True))


def bare(line):
    """A line of antt without its comment."""
    i = 0 if line.startswith("--") else line.find(" --")
    return line if i < 0 else line[:i]


def words(text):
    return [m.group(2) for m in DASHED.finditer(text)] + [m.group(2) for m in CAMEL.finditer(text)]


def kit_words():
    found = set()
    for f in glob.glob(KIT + "/**/*.antt", recursive=True):
        with open(f, encoding="utf-8", errors="replace") as it:
            found.update(words(it.read()))
    return found


def spelled(name):
    if name in APART:
        return APART[name]
    for old, new in SPELLED.items():
        name = re.sub(r"(?<![A-Za-z])" + old + r"(?![a-z])", new, name)
    head, dash, rest = "", "", name
    if name[0].isupper():
        head, dash, rest = name.partition("-")
    rest = re.sub(r"([a-z0-9])([A-Z])", lambda m: m.group(1) + "_" + m.group(2).lower(), rest) if rest[:1].islower() else rest
    return head + dash + rest.replace("-", "_")


def own(module):
    return module.startswith("Rattle.") and os.path.isdir(os.path.join("crates", module.split(".")[1]))


def imports(text):
    for m in IMPORT.finditer(text):
        for n in m.group(2).split(","):
            yield m.group(1), n.strip().split(" as ")[0].strip()


def collect():
    """The repository's own names: those declared, and those that stand in it and nowhere in the kit."""
    kit, declared, seen = kit_words(), set(), set()
    for f in antt():
        proof = f.endswith("/Proof.antt")
        with open(f, encoding="utf-8") as it:
            for line in it:
                line = bare(line.rstrip("\n"))
                m = DECLARED.match(line)
                if m:
                    declared.add(m.group(1))
                if not proof:
                    seen.update(words(line))
    names = {n for n in declared if "-" in n or CAMEL.fullmatch(n)} | (seen - kit)
    return {n: spelled(n) for n in names if (n in APART or not MADE.search(n)) and spelled(n) != n}


def turned(part, names, skip, proof):
    """part with its names respelled; skip: names that this file has from the kit; proof: a name behind a dot stays, but for a module's alias."""
    def one(m):
        dot, n = m.group(1), m.group(2)
        if n not in names or n in skip or (dot and proof and MADE.search(n)):
            return m.group(0)
        return dot + names[n]
    return CAMEL.sub(one, DASHED.sub(one, part))


def in_ticks(comment, names, skip):
    return re.sub(r"`[^`]*`", lambda m: turned(m.group(0), names, skip, False), comment)


def clash(f, old, new):
    """Two different words of a file that became one; comments and paths of modules do not count, and a field is apart from a name."""
    chain, pairs, rust = re.compile(r"[^\s(){}\[\],;:+*`]+"), {}, f.endswith(".rt")
    for x, y in zip(old.split("\n"), new.split("\n")):
        if x == y and rust:
            continue
        x, y = (x.split("//")[0], y.split("//")[0]) if rust else (bare(x), bare(y))
        for a, b in zip(chain.findall(x), chain.findall(y), strict=True):
            if a.startswith("Rattle.") or a.startswith("tie."):
                continue
            for k, (v, w) in enumerate(zip(a.split("."), b.split("."), strict=True)):
                pairs.setdefault((w, k > 0), set()).add(v)
    return [f"{f}: {' and '.join(sorted(v))} would both be {w}" for (w, k), v in sorted(pairs.items()) if len(v) > 1]


def turn_antt(f, text, names):
    skip = {n for m, n in imports(text) if not own(m)}
    facts = {old: new for where, old, new in FACTS if f == "crates/" + where or f"{where.split('/')[0]}.{'.'.join(where[:-5].split('/')[1:])}.{{" in text}
    proof = f.endswith("/Proof.antt")
    out = []
    for line in text.split("\n"):
        code = bare(line)
        for old, new in facts.items():
            code = re.sub(r"(?<![\w'.-])" + re.escape(old) + r"(?![\w'-])", new, code) if uses(f, text, old) else code
        out.append(turned(code, names, skip, proof) + in_ticks(line[len(bare(line)):], names, skip))
    return "\n".join(out)


def uses(f, text, fact):
    """Whether the fact of that name is declared or imported here."""
    for where, old, new in FACTS:
        module = "Rattle." + where[:-5].replace("/", ".")
        if old == fact and (f == "crates/" + where or any(m == module and n == fact for m, n in imports(text))):
            return True
    return False


def turn_rt(f, text, names):
    """Clauses, ghost items and ghost imports: what stands in a ghost use line, or between the braces of a line that begins with requires, ensures, ghost or invariant."""
    out, depth, ghost = [], 0, False
    facts = [(old, new) for where, old, new in FACTS if uses(f, text, old)]
    skip = {n for m, n in imports(text) if not own(m)}
    for line in text.split("\n"):
        s = line.strip()
        if not ghost and re.match(r"(pub )?(requires|ensures|ghost|also_owns|also_shares)\b", s):
            ghost, depth = True, 0
        if ghost and not s.startswith("//"):
            depth += line.count("{") - line.count("}")
            for old, new in facts:
                line = re.sub(r"(?<![\w'.-])" + re.escape(old) + r"(?![\w'-])", new, line)
            line = turned(line, names, skip, False)
            if depth <= 0:
                ghost = False
        elif "//" in line:
            i = line.index("//")
            line = line[:i] + in_ticks(line[i:], names, skip)
        out.append(line)
    return "\n".join(out)


def main(argv):
    names = collect()
    if argv == ["list"]:
        for n in sorted(names):
            print(n, names[n])
        return 0
    if argv:
        print(__doc__)
        return 2
    made, said = {}, []
    for f in antt() + rt():
        with open(f, encoding="utf-8") as it:
            old = it.read()
        new = turn_antt(f, old, names) if f.endswith(".antt") else turn_rt(f, old, names)
        said += clash(f, old, new)
        if new != old:
            made[f] = new
    if said:
        print("\n".join(said))
        print(f"nothing was written: {len(said)} names would fall together")
        return 1
    for f, new in made.items():
        with open(f, "w", encoding="utf-8") as it:
            it.write(new)
    print(f"{len(names)} names, {len(made)} files")
    return 0


if __name__ == "__main__":
    sys.exit(main(sys.argv[1:]))
