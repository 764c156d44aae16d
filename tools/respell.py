#!/usr/bin/env python3
"""Brings the names of definitions and lemmas to today's spelling, in every crate.

usage: python3 tools/respell.py [FOLDER]     the top of a repository; by default this one

Functions, lemmas, record fields and antt's constructors are in snake case: `yearLength` becomes `year_length`, `one-place` becomes `one_place`.
A dash stays where it joins the names of two definitions, as in `length-slots`. Types are in upper camel case: `Stage-is` becomes `StageIs`.
Only names that the files of specs/ and proofs/ define are respelled, and none that Rattle makes (`returns-..`, `loop-..-preserved`, ..).
Names of src/, strings, inputs and outputs keep their spelling. It says which names fall together, and then writes nothing.
Run it once, right after the toolchain's own port.py.
"""

import os
import re
import sys

# names that Rattle makes, in Answers.antt and Invariants.antt
MADE = re.compile(r"^(returns|loop|invariant|decreases|overflow|bounds|slice_bounds|nonzero)-|-requires$|-requires-|^overflow_")
# a dash that joins the names of two definitions
JOINED = {"length-slots", "letters-length", "slice_get-get_or", "length-read"}
# names that would fall together with another
GIVEN = {"same-letter": "same_letter_eq", "same_text": "same_text_eq", "key-at": "key_at_place", "name-at": "name_place", "value-at": "value_place"}
DEFINES = re.compile(r"^[ \t]*(?:(?:pub|abbrev|unfoldable|opaque|record|data)[ \t]+)*([A-Za-z][\w'-]*)(?:[ \t]*\([^\n]*\)|[ \t]*\{[^\n]*\})*[ \t]*:(?=[ \t\n])", re.M)
CAMEL = re.compile(r"^[a-z][A-Za-z0-9]*$")


def respelled(name):
    if MADE.search(name) or name in JOINED:
        return name
    if name in GIVEN:
        return GIVEN[name]
    if "-" in name:
        if name[0].isupper():
            return "".join(p[0].upper() + p[1:] for p in name.split("-"))
        name = name.replace("-", "_")
    if name[0].islower():
        name = re.sub(r"(?<=[a-z0-9])([A-Z])", lambda m: "_" + m.group(1).lower(), name)
    return name


def files(top, ending):
    for folder, dirs, names in os.walk(os.path.join(top, "crates")):
        dirs[:] = sorted(d for d in dirs if d not in ("out", "target"))
        for n in sorted(names):
            if n.endswith(ending):
                yield os.path.join(folder, n)


def read(path):
    with open(path, encoding="utf-8") as f:
        return f.read()


def defined(top):
    """The names that specs/ and proofs/ define, each with the files that do."""
    found = {}
    for p in files(top, ".antt"):
        for m in DEFINES.finditer(read(p)):
            found.setdefault(m.group(1), set()).add(p)
    return found


def parts(text, rt):
    """The text in pieces, and of which kind each is: code, comment or string."""
    pattern = r'(//[^\n]*)|("(?:\\.|[^"\\])*")' if rt else r'(--[^\n]*)|("(?:\\.|[^"\\])*")'
    if not rt:
        pattern = r'((?:^|(?<=\s))--[^\n]*)|("(?:\\.|[^"\\])*")'
    at = 0
    for m in re.finditer(pattern, text, re.M):
        yield text[at : m.start()], "code"
        yield m.group(0), "comment" if m.group(1) else "string"
        at = m.end()
    yield text[at:], "code"


def main(argv):
    top = os.path.abspath(argv[0]) if argv else os.path.dirname(os.path.dirname(os.path.abspath(__file__)))
    names = defined(top)
    turned = {n: respelled(n) for n in names if respelled(n) != n}
    clash = []
    # a definition may have the name of the function that it is the meaning of: a clause sees no function
    functions = set(re.findall(r"fn ([a-z_]\w*)", "".join(map(read, files(top, ".rt")))))
    for p in list(files(top, ".antt")) + list(files(top, ".rt")):
        words = set(re.findall(r"[A-Za-z][\w'-]*", read(p)))
        come = {}
        for n in words:
            come.setdefault(turned.get(n, n), []).append(n)
        clash += [f"{' and '.join(sorted(ns))} become {t}, in {p}" for t, ns in come.items() if len(ns) > 1 and t not in functions]
    if clash:
        print("\n".join("falls together: " + c for c in clash))
        return 1
    word = re.compile(r"(?<![\w'\-])(" + "|".join(sorted(map(re.escape, turned), key=len, reverse=True)) + r")(?![\w'\-])")
    changed = 0
    for ending in (".antt", ".rt"):
        for p in files(top, ending):
            old = read(p)
            new = ""
            for piece, kind in parts(old, ending == ".rt"):
                if kind == "code":
                    piece = word.sub(lambda m: turned[m.group(1)], piece)
                elif kind == "comment":
                    piece = word.sub(lambda m: turned[m.group(1)] if CAMEL.match(m.group(1)) and re.search("[A-Z]", m.group(1)) else m.group(1), piece)
                new += piece
            if new != old:
                changed += 1
                with open(p, "w", encoding="utf-8") as f:
                    f.write(new)
    print(f"respell: {len(turned)} names in {changed} files")
    return 0


if __name__ == "__main__":
    raise SystemExit(main(sys.argv[1:]))
