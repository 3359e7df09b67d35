#!/usr/bin/env python3
"""Brings the repository's own names in specs, proofs and clauses to one spelling.

usage: python3 tools/rename.py [--dry]     at the top of the repository

Definitions, lemmas, fields and variables go to snake case, types and facts to upper camel case, since a
dash joins two names and is no part of a word. Names that the toolchain makes (goals, steps) and names of
its library stay. It stops where two names would fall together.
"""

import os
import re
import sys

# a name: letters, digits, primes and dashes between them
NAME = re.compile(r"(?<![\w'₀-₉.-])(?:[A-Za-z_][\w'₀-₉]*)(?:-[\w'₀-₉]+)*")
TOKEN = re.compile(r"(?<![\w'₀-₉-])([A-Za-z_][\w'₀-₉]*(?:-[\w'₀-₉]+)+)(?![\w'₀-₉-])")
SIGNATURE = re.compile(r"^\s*(?:(?:abbrev|unfoldable|pub|record|data|ruleset)\s+)*([A-Za-z_][\w'₀-₉-]*)\s*(?::|\()")
RECORD = re.compile(r"^\s*(?:pub\s+)?(?:record|data|ruleset)\s+([A-Za-z_][\w'₀-₉-]*)")


def files(ending):
    for folder, dirs, names in os.walk("crates"):
        dirs[:] = sorted(d for d in dirs if d != "out")
        for name in sorted(names):
            if name.endswith(ending):
                yield os.path.join(folder, name)


def text(path):
    with open(path, encoding="utf-8") as f:
        return f.read()


def crates():
    return {c for c in os.listdir("crates") if os.path.isdir(os.path.join("crates", c))}


def imported(own):
    """Names that files import from the toolchain's library."""
    found = set()
    for path in list(files(".antt")) + list(files(".rt")):
        for module, names in re.findall(r"(?m)^(?:ghost )?use ([\w.+'-]+?)\.\{([^}]*)\}", text(path)):
            parts = module.split(".")
            if not (parts[0] == "Rattle" and len(parts) > 1 and parts[1] in own):
                found |= {n.strip().split(" as ")[0] for n in names.split(",")}
    return found


def bound(line):
    """Variables that a line of a proof or a definition binds."""
    found = set()
    for group in re.findall(r"λ ([^.]*)\.", line) + re.findall(r"[({]([^(){}:]*) : ", line):
        found |= set(re.findall(r"[\w'₀-₉-]+", group))
    found |= set(re.findall(r"\blet ([\w'₀-₉-]+)", line))
    return found


def defined():
    """The repository's own names that hold a dash."""
    found = set()
    for path in files(".antt"):
        of_function = re.search(r"/(Answers|Invariants)\.antt$", path)
        for line in text(path).splitlines():
            if line.startswith("use "):
                continue
            m = RECORD.match(line) or SIGNATURE.match(line)
            if m and not (of_function and re.search(r":\s*goal\.", line)):
                found.add(m.group(1))
            found |= bound(line)
    for path in files(".rt"):
        for line in text(path).splitlines():
            if re.match(r"\s*(pub )?(ghost|requires|ensures)", line):
                found |= bound(line)
    return {n for n in found if "-" in n.strip("-") and re.match(r"[A-Za-z_]", n)}


def respelled(name):
    if name[0].isupper():
        return "".join(p[0].upper() + p[1:] for p in name.split("-") if p)
    return name.replace("-", "_")


def used():
    found = set()
    for path in list(files(".antt")) + list(files(".rt")):
        found |= set(NAME.findall(text(path)))
    return found


def turn(line, to):
    return TOKEN.sub(lambda m: to.get(m.group(1), m.group(1)), line)


def main(argv):
    own = crates()
    names = defined()
    library = imported(own)
    to = {n: respelled(n) for n in names if n not in library}
    kept = sorted(n for n in names if n in library)
    if kept:
        print("kept, since a file imports a name of the library that is spelled so:", ", ".join(kept))
    others = used() - set(to)
    for n, new in sorted(to.items()):
        if new in others:
            print(f"look: {n} falls together with {new}")
    if len(set(to.values())) < len(to):
        print("two names fall together")
        return 1
    if "--dry" in argv:
        print(len(to), "names")
        return 0
    for path in files(".antt"):
        lines = text(path).split("\n")
        # a goal of a function keeps its name, and so do the names behind `goal.`
        lines = [turn(l, to) for l in lines]
        with open(path, "w", encoding="utf-8") as f:
            f.write("\n".join(lines))
    for path in files(".rt"):
        inside, lines = False, []
        for l in text(path).split("\n"):
            ghost = inside or re.match(r"\s*(pub )?(ghost\b|requires\b|ensures\b)", l)
            lines.append(turn(l, to) if ghost else l)
            inside = bool(ghost) and l.count("{") > l.count("}")
        with open(path, "w", encoding="utf-8") as f:
            f.write("\n".join(lines))
    print(len(to), "names turned")
    return 0


if __name__ == "__main__":
    raise SystemExit(main(sys.argv[1:]))
