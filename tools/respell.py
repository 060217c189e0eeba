#!/usr/bin/env python3
"""Brings this repository's own definitions and lemmas to the spelling of today's Rattle: words in snake case, facts and types in camel case.

usage: python3 tools/respell.py [TOP]     in a tree that port.py has turned; rewrites specs/, proofs/, clauses of src/ and must-fail edits in place

A name is one that specs/ or proofs/ defines or binds, has a dash, and is not the library's own. Functions of src/, strings, comments, inputs and outputs
stay, and so do the names that Rattle makes (goals and steps of a proof).
It was run once; it stays so that what it did can be done again.
"""
import os
import re
import sys

TOP = sys.argv[1] if len(sys.argv) > 1 else "."
KIT = "/opt/rattle"
WORD = r"[^\s(){}\[\].,;·«»\"|:]"
DEF = re.compile(
    r"^\s*(?:(?:abbrev|unfoldable|package|pub|record|data|module|open)\s+)*"
    r"(?P<name>" + WORD + r"*-" + WORD + r"*)\s+(?:[:({]|Type|where)"
)
# names that a term binds: after let, as, in parentheses before a colon, and after a λ
BOUND = re.compile(r"(?:\blet|\bas) (" + WORD + r"*-" + WORD + r"*)|[({]([^(){}:.,]*-[^(){}:.,]*) : |λ ([^().:]*-[^().:]*)\.")
MADE = re.compile(r"^(returns|loop|invariant|decreases|in|if|then|else|ghost|overflow)-")
GOAL = re.compile(r":\s*(?:goal|given|Goals|Given)\.")
# A name after `as` that a definition's new name would meet in the same file.
ALIASES = {"PageAnswer": "PageReply"}


def files(*endings):
    for folder, dirs, names in os.walk(os.path.join(TOP, "crates")):
        dirs[:] = sorted(d for d in dirs if d != "out")
        for n in sorted(names):
            if n.endswith(endings):
                yield os.path.join(folder, n)


def kit_words():
    """The names that a file here imports from the library."""
    words = set()
    for p in files(".antt", ".rt"):
        for path, names in re.findall(r"^\s*(?:ghost )?use ([\w.'+-]+)\.\{([^}]*)\}", open(p, encoding="utf-8").read(), re.M):
            parts = path.split(".")
            if parts[0] == "Rattle" and os.path.isdir(os.path.join(TOP, "crates", parts[1])):
                continue
            words.update(n.strip().split(" as ")[0] for n in names.split(","))
    return words


def new_spelling(name):
    if name[0].isupper():
        return "".join(p[:1].upper() + p[1:] for p in name.split("-"))
    return name.replace("-", "_")


def main():
    kit = kit_words()
    defined, left = {}, set()

    def add(name, p):
        if not re.match(r"^[A-Za-z][\w'ℕℤ-]*$", name):
            return
        if name in kit:
            left.add(name)
            return
        defined.setdefault(name, p)

    for p in files(".antt"):
        for line in open(p, encoding="utf-8"):
            m = DEF.match(line)
            found = [w for groups in BOUND.findall(line) for g in groups for w in g.split() if "-" in w and not MADE.match(w)]
            if m and not GOAL.search(line):
                found.append(m.group("name"))
            if line.strip().startswith("--"):
                continue
            for name in found:
                add(name, p)
    for p in files(".rt"):
        for line in open(p, encoding="utf-8"):
            if line.startswith("ghost use"):
                for name in re.findall(r"\bas (" + WORD + r"*-" + WORD + r"*)", line):
                    add(name, p)
    if not defined:
        sys.exit("respell: no name is left to turn")
    pattern = re.compile(r"(?<![\w'◌-])(" + "|".join(sorted(map(re.escape, defined), key=len, reverse=True)) + r")(?![\w'◌-])")

    aliases = re.compile(r"(?<![\w'-])(" + "|".join(ALIASES) + r")(?![\w'-])")

    def turn(text):
        text = aliases.sub(lambda m: ALIASES[m.group(1)], text)
        return pattern.sub(lambda m: new_spelling(m.group(1)), text)

    for p in files(".antt", ".rt", ".edit"):
        text = open(p, encoding="utf-8").read()
        comment = "//" if p.endswith(".rt") else "--"
        out = []
        for line in text.split("\n"):
            if line.strip().startswith(comment) and not p.endswith(".edit"):
                out.append(line)
            elif p.endswith(".rt"):
                out.append("".join(part if part.startswith('"') else turn(part) for part in re.split(r'("(?:[^"\\]|\\.)*")', line)))
            else:
                out.append(turn(line))
        new = "\n".join(out)
        if new != text:
            open(p, "w", encoding="utf-8").write(new)
    print(f"respell: {len(defined)} names", file=sys.stderr)
    for n in sorted(left):
        print("left, a name of the library:", n, file=sys.stderr)
    for n in sorted(defined):
        print(n, new_spelling(n), os.path.relpath(defined[n], TOP))


main()
