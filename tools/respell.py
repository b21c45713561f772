#!/usr/bin/env python3
"""Brings the definitions and lemmas of crates/ to the spelling that port.py leaves undone.

usage: python3 tools/respell.py    at the top of the repository, once, after port.py

A definition or lemma is in snake case. A dash stays in a lemma's name only between two names that are
themselves declared or the library's, as in `length-frame_bits`; other words are joined by `_`. Names of
src/, of the library and of what Rattle makes from them keep their spelling. It prints each name that it
changes, and stops where two would fall together.
"""

import glob
import re
import sys

NAME = re.compile(r"[^\W\d][\w'-]*")
DECLARED = re.compile(r"^(?:(?:abbrev|unfoldable|pub|ruleset) )*([^\W\d][\w'-]*) (?::(?!=)|=)")
INNER = re.compile(r"^\s+(?:pub )?([^\W\d][\w'-]*) : ")
IMPORT = re.compile(r"^(?:ghost )?use ([^{\n]*)\{([^}]*)\}")
# Names of the library that a lemma's name may join by a dash.
LIBRARY = {"length", "get_or", "take", "drop", "append", "replicate", "map", "set", "suc", "add", "mul", "sub", "div",
           "mod", "pow", "cond", "nat_eq", "nat_lt", "eqb", "ltb", "leb", "ones", "fold", "sum", "items"}


# Lemmas in snake case already, which a definition in camel case would fall together with in these files.
BY_HAND = {"goes_on": "crates/invariant/", "kept_then": "crates/invariant/"}


def read(path):
    with open(path, encoding="utf-8") as f:
        return f.read()


def declared(paths):
    names = set()
    for path in paths:
        for line in read(path).split("\n"):
            m = DECLARED.match(line) or INNER.match(line)
            if m:
                names.add(m.group(1))
    return names


def imported(paths):
    """Names that a file takes from the library, which keep their spelling."""
    names = set()
    for path in paths:
        for line in read(path).split("\n"):
            m = IMPORT.match(line)
            own = m and m.group(1).startswith("Rattle.") and not m.group(1).startswith("Rattle.std")
            if m and not own:
                for item in m.group(2).split(","):
                    names.add(item.split(" as ")[0].strip())
    return names


def snake(name):
    name = re.sub(r"getD\b|getD(?=-)|get_d(?=[_-])", "get_or", name)
    return re.sub(r"(?<=[a-z0-9])([A-Z])", lambda m: "_" + m.group(1).lower(), name)


def spelled(name, known):
    """The name in snake case, its dashes kept between known names alone."""
    parts = snake(name).split("-")
    out = parts[0]
    i = 0
    done = []
    while i < len(parts):
        for j in range(len(parts), i, -1):
            word = "_".join(parts[i:j])
            if word in known or j == i + 1:
                done.append((word, word in known))
                i = j
                break
    out = done[0][0]
    for (a, left), (b, right) in zip(done, done[1:]):
        out += ("-" if left and right else "_") + b
    return out


def main():
    specs = glob.glob("crates/*/specs/**/*.antt", recursive=True)
    lemmas = glob.glob("crates/*/proofs/*.antt")
    answers = glob.glob("crates/*/proofs/*/**/*.antt", recursive=True)
    code = glob.glob("crates/*/src/**/*.rt", recursive=True)
    edits = glob.glob("crates/*/must-fail/*.edit")
    pages = ["README.md"] + glob.glob("docs/**/*.md", recursive=True)

    definitions = declared(specs)
    library = imported(specs + lemmas + answers + code)
    known = {snake(n) for n in definitions if "-" not in n} | LIBRARY
    turned = {}
    for name in sorted(definitions | declared(lemmas)):
        if name in library or not (re.search(r"^[a-z].*[A-Z]", name) or "-" in name):
            continue
        new = spelled(name, known)
        if new != name:
            turned[name] = new
    # A lemma that would have its definition's name gets _lem.
    defined = {turned.get(name, name) for name in definitions}
    for name in declared(lemmas) - definitions:
        if turned.get(name, name) in defined and name in turned:
            turned[name] += "_lem"
    taken = {}
    for name in sorted(definitions | declared(lemmas)):
        new = turned.get(name, name)
        if new in taken and new not in BY_HAND:
            print(f"respell: {taken[new]} and {name} would both be {new}", file=sys.stderr)
        taken.setdefault(new, name)

    camel = {a: b for a, b in turned.items() if re.search("[A-Z]", a)}

    def by(table):
        return lambda m: table.get(m.group(0), m.group(0))

    def antt(text, path=""):
        for name, folder in BY_HAND.items():
            if path.startswith(folder):
                text = re.sub(rf"(?<![\w'.-]){name}(?![\w'-])", name + "_lem", text)
        lines = []
        for line in text.split("\n"):
            cut = line.find("--")
            if cut >= 0 and (cut == 0 or line[cut - 1] == " "):
                lines.append(NAME.sub(by(turned), line[:cut]) + NAME.sub(by(camel), line[cut:]))
            else:
                lines.append(NAME.sub(by(turned), line))
        return "\n".join(lines)

    def source(text, path=""):
        text = re.sub(r"«([^»]*)»", lambda m: "«" + turned.get(m.group(1), m.group(1)) + "»", text)
        return re.sub(r'"(?:[^"\\]|\\.)*"|' + NAME.pattern,
                      lambda m: m.group(0) if m.group(0)[0] == '"' else camel.get(m.group(0), m.group(0)), text)

    def edit(text, path=""):
        in_antt = re.search(r"^file: .*\.antt", text, re.M)
        return "\n".join((antt(x) if in_antt else source(x)) if x.startswith(("old:", "new:")) else x
                         for x in text.split("\n"))

    def page(text, path=""):
        return re.sub(r"`[^`\n]*`", lambda m: NAME.sub(by(camel), m.group(0)), text)

    for paths, turn in ((specs + lemmas + answers, antt), (code, source), (edits, edit), (pages, page)):
        for path in paths:
            old = read(path)
            new = turn(old, path)
            if new != old:
                with open(path, "w", encoding="utf-8") as f:
                    f.write(new)
    for a, b in sorted(turned.items()):
        print(f"{a} -> {b}")


if __name__ == "__main__":
    main()
