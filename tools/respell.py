#!/usr/bin/env python3
"""Spells the repository's own definitions and lemmas as the library spells its names.

usage: python3 tools/respell.py      at the top of the repository, once, after the kit's own script

What is a type of facts is in upper camel case, everything else in snake case. A name keeps its dash where the dash joins
two names. A name that would fall together with a field of a struct gets `_of`. Code, strings and outputs are left alone.
It prints each name with what it became, and stops where two names would become one.
"""

import glob
import re
import sys

# The outer call, and what it is applied to: both are names.
JOINED = {"reached-cons", "sitter-turned"}

# A struct of the same crate has a field of that name.
OTHERWISE = {
    "trick-points": "trick_points_of",
    "game-premium": "game_premium_of",
    "slam-premium": "slam_premium_of",
    "insult-premium": "insult_premium_of",
    "overtrick-points": "overtrick_points_of",
}

# Files whose names follow the code: what they declare is not ours to name.
MADE = ("Answers.antt", "Invariants.antt", "Choices.antt")

HEAD = re.compile(r" *(?:(?:abbrev|opaque|unfoldable|pub)\s+)*(?:(?:record|data)\s+)?([^\s:(){},.=|]+)(?:\s+[({][^)}]*[)}])*\s*:(?:\s|$)")
LOCAL = re.compile(r"\blet ([^\s:(){},.=|]+-[^\s:(){},.=|]+)(?= [:=])")
EDGE = r"[^\s(){}.,;«»`⟦⟧]"


def texts(*patterns):
    return sorted(p for pattern in patterns for p in glob.glob(pattern, recursive=True) if "/out/" not in p)


def read(path):
    with open(path, encoding="utf-8") as f:
        return f.read()


def own_names():
    found = set()
    for path in texts("crates/*/specs/**/*.antt", "crates/*/proofs/**/*.antt"):
        lines = read(path).splitlines()
        if not path.endswith(MADE):
            found |= {m[1] for m in map(HEAD.match, lines) if m}
            found |= {name for line in lines for name in LOCAL.findall(line)}
    return found


def spelled(name):
    if name in OTHERWISE:
        return OTHERWISE[name]
    parts = name.split("-")
    return "".join(p[0].upper() + p[1:] for p in parts) if name[0].isupper() else "_".join(parts)


def turned(text, table):
    names = "|".join(map(re.escape, sorted(table, key=len, reverse=True)))
    return re.sub(rf"(?<!{EDGE})(?:{names})(?!{EDGE})", lambda m: table[m[0]], text)


def main():
    own = own_names()
    table = {name: spelled(name) for name in sorted(own) if "-" in name and name not in JOINED}
    new = list(table.values())
    clashes = [n for n in new if new.count(n) > 1 or n in own]
    if clashes:
        sys.exit(f"respell: two names would be one: {', '.join(sorted(set(clashes)))}")
    for path in texts("crates/**/*.antt", "crates/*/src/**/*.rt", "crates/*/must-fail/*.edit"):
        old = read(path)
        text = turned(old, table)
        if text != old:
            with open(path, "w", encoding="utf-8") as f:
                f.write(text)
    for name, to in table.items():
        print(f"{name}  {to}")


if __name__ == "__main__":
    main()
