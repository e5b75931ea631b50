#!/usr/bin/env python3
"""Respells this repository's own antt names: words in snake case, types and facts in upper camel case.

usage: python3 tools/spell_names.py [--dry]     at the top of the repository, after the toolchain's own port script

A name counts as ours if a signature, a record, a data type, a constructor or a field in specs/ or proofs/ declares it.
Names of goals, which answer files declare under `goal.`, are the toolchain's and stay, as do names that a library has.
Only whole names in antt files and in the clauses and `ghost use` lines of .rt files are turned: no comment, no string, no file name.
"""

import os
import re
import sys

NAME = r"[^\s(){};.,:λ∷|@\"\\`⌜⌝◌]+"
HEAD = re.compile(rf"^(?P<indent> *)(?:(?:abbrev|unfoldable|mutual) )*(?:pub )?(?P<kind>data |record |module )?(?P<names>{NAME}(?: {NAME})*?)(?P<rest> (?:\(|\{{|: ).*| :)$")
WORDS = {"use", "where", "let", "in", "elim", "open", "mod", "unfolding", "pub", "abbrev", "unfoldable", "_", "λ", "→", "="}


def files(root):
    for folder, dirs, names in os.walk(os.path.join(root, "crates")):
        dirs[:] = sorted(d for d in dirs if d != "out")
        for n in sorted(names):
            if n.endswith((".antt", ".rt")):
                yield os.path.join(folder, n)


def respelt(name):
    parts = re.sub(r"(?<=[a-z0-9])(?=[A-Z])", "-", name).split("-")
    if name[0].isupper():
        return "".join(p[:1].upper() + p[1:] for p in parts)
    return "_".join(p.lower() for p in parts)


def is_old(name):
    """Whether the spelling is not today's: a dash, or a hump in a name that begins with a small letter."""
    if not re.fullmatch(r"[A-Za-z][A-Za-z0-9_'?-]*", name):
        return False
    return "-" in name or (name[0].islower() and re.search(r"[a-z0-9][A-Z]", name) is not None)


def declared(path, text):
    """The names that a file of antt declares, but for answers to goals."""
    for line in text.splitlines():
        if line.lstrip().startswith("--"):
            continue
        m = HEAD.match(line)
        if not m or re.search(r"\bgoal\.", m.group("rest")):
            continue
        names = m.group("names").split()
        if WORDS & set(names) or "=" in m.group("names"):
            continue
        yield from names


def imported(text):
    """The names that a file imports from a library."""
    for m in re.finditer(r"use ((?:Rattle\.(?:std|core)|Prim|mathlib|native|lib|borrow|denote|logic)\b[^\n{]*)\{([^}]*)\}", text):
        for it in m.group(2).split(","):
            yield it.split(" as ")[0].strip()


TOKEN = re.compile(rf"{NAME}")


STEP = re.compile(rf"(?<![\w.'-])(c|goal)\.({NAME})")


def turn_code(code, names):
    """Turns a piece of code. What stands behind `c.` or `goal.` is a step or a goal, which the toolchain names."""
    steps = {m.start(2) for m in STEP.finditer(code)}
    return TOKEN.sub(lambda m: m.group(0) if m.start() in steps else names.get(m.group(0), m.group(0)), code)


def turn(path, text, names):
    """Turns the names outside comments and strings."""
    mark = "--" if path.endswith(".antt") else "//"
    out = []
    for line in text.split("\n"):
        pieces = re.split(r"(\"(?:[^\"\\]|\\.)*\")", line)
        done, comment = [], False
        for p in pieces:
            if comment or p.startswith('"'):
                done.append(p)
                continue
            at = re.search(rf"(?:^|(?<=\s)){re.escape(mark)}", p)
            if at:
                done.append(turn_code(p[: at.start()], names) + p[at.start():])
                comment = True
            else:
                done.append(turn_code(p, names))
        out.append("".join(done))
    return "\n".join(out)


def main(argv):
    texts = {p: open(p, encoding="utf-8").read() for p in files(".")}
    ours, library, seen = set(), set(), set()
    for p, t in texts.items():
        if p.endswith(".antt"):
            ours |= set(declared(p, t))
        library |= set(imported(t))
        seen |= set(TOKEN.findall(t))
    names = {n: respelt(n) for n in sorted(ours) if is_old(n) and n not in library}
    met = {}
    for old, new in names.items():
        if new in seen:
            met.setdefault(new, []).append(old)
    for new, olds in sorted(met.items()):
        print(f"meets: {', '.join(olds)} -> {new}, which stands already")
    twice = {}
    for old, new in names.items():
        twice.setdefault(new, []).append(old)
    for new, olds in sorted(twice.items()):
        if len(olds) > 1:
            print(f"falls together: {', '.join(olds)} -> {new}")
    for n in sorted(n for n in ours if is_old(n) and n in library):
        print(f"left: {n}, which a library has too")
    print(f"{len(names)} names")
    if "--dry" in argv:
        print("\n".join(f"  {o} -> {n}" for o, n in names.items()))
        return
    changed = 0
    for p, t in texts.items():
        now = turn(p, t, names)
        if now != t:
            open(p, "w", encoding="utf-8").write(now)
            changed += 1
    print(f"{changed} files turned")


if __name__ == "__main__":
    main(sys.argv[1:])
