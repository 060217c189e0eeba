#!/usr/bin/env python3
"""Gives the goals and steps that proofs/F/ cites their names of today: a name from the source keeps its spelling, a word of Rattle's is in snake case.

usage: python3 tools/respell_steps.py [TOP]     once, after respell.py
"""
import os
import re
import sys

TOP = sys.argv[1] if len(sys.argv) > 1 else "."
WORDS = ["in_default", "In_default", "in_ok", "in_err", "In_ok", "In_err", "overflow_mul", "overflow_add", "overflow_sub", "overflow_cast", "overflow_step", "overflow_shl", "slice_bounds", "nonzero_div", "nonzero_rem", "offset_bounds"]


def main():
    for crate in sorted(os.listdir(os.path.join(TOP, "crates"))):
        src = os.path.join(TOP, "crates", crate, "src")
        names = set(WORDS)
        for n in sorted(os.listdir(src)):
            text = re.sub(r"//.*", "", open(os.path.join(src, n), encoding="utf-8").read())
            names.update(re.findall(r"(?:ensures|requires|ghost) ([a-z0-9]+(?:_[a-z0-9]+)+)", text))
            text = "\n".join(l for l in text.split("\n") if not re.match(r"\s*(ghost|requires|ensures)\b", l))
            names.update(w for w in re.findall(r"[A-Za-z][A-Za-z0-9]*(?:_[A-Za-z0-9]+)+", text))
        olds = {n.replace("_", "-"): n for n in names}
        by = re.compile(r"(?<![A-Za-z0-9'_])(" + "|".join(sorted(map(re.escape, olds), key=len, reverse=True)) + r")(?![A-Za-z0-9'_])")
        made = re.compile(r"(?:(?<=[.\s({,])|^)([A-Za-z][A-Za-z0-9_']*(?:-[A-Za-z0-9_']+)+)")
        for folder, dirs, files in os.walk(os.path.join(TOP, "crates", crate, "proofs")):
            for f in files:
                if f not in ("Answers.antt", "Invariants.antt"):
                    continue
                p = os.path.join(folder, f)
                text = open(p, encoding="utf-8").read()
                out = []
                for line in text.split("\n"):
                    if line.startswith("use ") and ".Goals.{" not in line and ".Given.{" not in line:
                        out.append(line)
                        continue
                    out.append(made.sub(lambda m: by.sub(lambda k: olds[k.group(1)], m.group(1)), line))
                new = re.sub(r"\.-([a-z])", r"._\1", "\n".join(out))
                if new != text:
                    open(p, "w", encoding="utf-8").write(new)


main()
