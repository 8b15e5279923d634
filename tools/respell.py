#!/usr/bin/env python3
"""Brings the repository's own names in crates/ to snake case, once, after the kit's port.py: a hyphen in a name becomes an underscore.

What a file imports from the kit keeps its name, and so do names that the check makes of a function's code (goals, loops, the parts of `Need`).
Sources, specs, proofs and must-fail edits are turned alike. Nothing is turned twice: a second run changes nothing.
"""
import os
import re
import sys

ROOT = os.path.join(os.path.dirname(os.path.realpath(__file__)), "..", "crates")
NAME = re.compile(r"[A-Za-z0-9_#?!'.]*[A-Za-z0-9_?!'](?:-[A-Za-z0-9_?!'][A-Za-z0-9_?!'.]*)+")
USE = re.compile(r"^\s*(?:pub )?(?:ghost )?use ([^\s{;]+?)\.?(?:\{([^}]*)\})?(?: as \S+?)?;?\s*$", re.M)
MADE = re.compile(r"^(Need|After|In|At)-|^(invariant|decreases)-loop\d*$|^loop\d*-test$")


def own(path):
    return path.startswith("Rattle.") and not re.search(r"\.proofs\..*\.(Goals|Given|Tie|Statement|Lts)$", path) and not path.startswith("Rattle.std")


def foreign(text):
    """The names that a file has from the kit, or from what the check makes of a function."""
    found = set()
    for path, names in USE.findall(text):
        if not own(path):
            found.update(n.split(" as ")[0].strip() for n in names.split(","))
    return found


def turned(text, kept, comment):
    def word(match):
        parts = match.group(0).split(".")
        return ".".join(p if p in kept or MADE.match(p) else p.replace("-", "_") for p in parts)

    lines = []
    for line in text.split("\n"):
        code, mark, rest = line.partition(comment)
        words = re.sub(r"`[^`]*`", lambda m: m.group(0) if " " in m.group(0).strip("`") else NAME.sub(word, m.group(0)), rest)
        lines.append(NAME.sub(word, code) + mark + words)
    return "\n".join(lines)


def main():
    changed = 0
    for folder, folders, files in os.walk(ROOT):
        folders[:] = sorted(f for f in folders if f != "out")
        for name in sorted(files):
            if not name.endswith((".rt", ".antt", ".edit")):
                continue
            path = os.path.join(folder, name)
            with open(path, encoding="utf-8") as file:
                text = file.read()
            new = turned(text, foreign(text), "//" if name.endswith(".rt") else "--")
            if new != text:
                changed += 1
                with open(path, "w", encoding="utf-8") as file:
                    file.write(new)
    print(f"{changed} files changed")
    return 0


if __name__ == "__main__":
    sys.exit(main())
