#!/usr/bin/env python3
"""Respells the repository's own definitions and lemmas in snake case: usage: python3 tools/respell.py [FOLDER]

It is run once, at the top of a checkout, after the toolchain's own converter. In each .antt, .rt and .edit file below
crates/ a name with dashes is respelled where it is one of ours there: declared in that file, imported from one of our
modules, or a field of one of our records. Names that the toolchain makes (goals, loops, steps), names of the standard
library, functions, strings, comments and inputs stay. A name that would fall together with another is told, and stays.
"""

import os
import re
import sys

DECLARED = re.compile(r"^\s*(?:(?:pub|abbrev|unfoldable|axiom) )*([^\s:(){}\[\].,;]+)((?: [({][^:]*:[^)}]*[)}])*) : (.*)$")
USE = re.compile(r"^\s*(?:ghost )?(?:pub )?use Rattle\.(\w+)\.([\w.+-]+)\.\{([^}]*)\}", re.M)
PIECE = re.compile(r'"(?:\\.|[^"\\])*"|//[^\n]*|(?:(?<=\s)|^)--[^\n]*|[^\s(){}\[\].,;:"|⌜⌝«»]+', re.M)
KEPT = {}  # names that stay as they are: none so far


def files(ends):
    for folder, dirs, names in os.walk("crates"):
        dirs[:] = sorted(d for d in dirs if d not in ("out", "data"))
        for name in sorted(names):
            if name.endswith(ends):
                yield os.path.join(folder, name)


def read(path):
    with open(path, encoding="utf-8") as f:
        return f.read()


def snake(name):
    return name.replace("-", "_")


def declared(text):
    """The names that a file declares, but for those that the toolchain asks for."""
    found = set()
    for line in text.split("\n"):
        m = DECLARED.match(line)
        if m and not m[3].startswith("goal.") and re.match(r"[A-Za-z]", m[1]):
            found.add(m[1])
    return found


def fields(text):
    """The fields of the records that a file declares."""
    found, inside = set(), False
    for line in text.split("\n"):
        if re.match(r"^(?:pub )?record ", line):
            inside = True
        elif line and not line[0].isspace():
            inside = False
        elif inside and (m := DECLARED.match(line)):
            found.add(m[1])
    return found


def imported(text, ours):
    """The names that a file imports from our own modules, and those that it imports from elsewhere."""
    own, other = set(), set()
    for crate, module, names in USE.findall(text):
        for name in names.split(","):
            name = name.split(" as ")[-1].strip()
            (own if crate in ours and not re.search(r"proofs\..+\.(Goals|Given)$", module) else other).add(name)
    return own, other


def respell(text, own, of_records):
    def turn(m):
        name = m[0]
        if name[0] in '"' or name.startswith(("//", "--")) or "-" not in name:
            return name
        behind_dot = m.start() > 0 and text[m.start() - 1] == "."
        if name in own and not behind_dot or name in of_records and (behind_dot or name in own):
            return snake(name)
        return name

    return PIECE.sub(turn, text)


def main(top):
    os.chdir(top)
    ours = set(os.listdir("crates"))
    texts = {p: read(p) for p in files((".antt", ".rt"))}
    of_records = set().union(*(fields(t) for t in texts.values()))
    everything = set().union(*(declared(t) for t in texts.values()))
    together = {n for n in everything if "-" in n and snake(n) in everything}
    for n in sorted(together):
        print(f"stays, since there is another: {n}")
    visible = {}
    for p, t in texts.items():
        own, other = imported(t, ours)
        own |= declared(t) | (of_records if p.endswith(".antt") else set())
        both = {n for n in own if "-" in n and snake(n) in other}
        for n in sorted(both):
            print(f"look: {p}: {n} falls together with an imported {snake(n)}")
        visible[p] = {n for n in own if n not in together and n not in KEPT and n not in other}
    changed = 0
    for p in [*texts, *files((".edit",))]:
        t = texts.get(p) or read(p)
        names = visible.get(p)
        if names is None:
            m = re.search(r"^file: (.*)$", t, re.M)
            names = visible.get(os.path.join(os.path.dirname(os.path.dirname(p)), m[1])) if m else None
        if names is None:
            continue
        new = respell(t, names, of_records)
        if new != t:
            with open(p, "w", encoding="utf-8") as f:
                f.write(new)
            changed += 1
    print(f"{changed} files respelled")


main(sys.argv[1] if len(sys.argv) > 1 else ".")
