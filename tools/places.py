#!/usr/bin/env python3
"""Lists the places in src/ where one form of the language or another was chosen, point by point, as docs/DESIGN-PASS.md
counts them.  `places.py` prints the counts, `places.py N` the places of point N."""
import collections
import difflib
import pathlib
import re
import sys

ROOT = pathlib.Path(__file__).resolve().parent.parent
SOURCES = sorted(ROOT.glob("crates/*/src/*.rt"))


def name(path):
    return path.relative_to(ROOT / "crates").as_posix()


def lines(pattern):
    """Every line of code that the pattern finds."""
    for path in SOURCES:
        for number, line in enumerate(path.read_text().splitlines(), 1):
            if re.search(pattern, line) and not line.lstrip().startswith("//"):
                yield f"{name(path)}:{number}: {line.strip()}"


def functions():
    """Each function with a body: its file, its head with the clauses, and its body."""
    for path in SOURCES:
        text = re.sub(r"//[^\n]*", "", path.read_text())
        for match in re.finditer(r"\bfn (\w+)", text):
            at = text.find("\n", match.start())
            opening = re.compile(r"\{\s*$|\n\s*\{\s*\n", re.M).search(text, match.start())
            if not opening or ";\n" in text[match.start():opening.start()].split("ensures")[0]:
                continue
            start = opening.end()
            depth, end = 1, start
            while depth and end < len(text):
                depth += {"{": 1, "}": -1}.get(text[end], 0)
                end += 1
            yield path, match.group(1), text[match.start():opening.start()], text[start:end - 1]


def twins():
    """Groups of functions whose bodies differ only in types, numbers and texts, or hardly at all."""
    found = []
    for path, function, _, body in functions():
        plain = re.sub(r'b?"[^"]*"|b?\'[^\']*\'|\b\d[\d_]*\b', "0", body)
        plain = re.sub(r"\b[A-Z]\w*(::[A-Z]\w*)*", "T", plain)
        words = re.findall(r"\w+|[^\w\s]", plain)
        if len(words) >= 14:
            found.append((f"{name(path)} {function}", words))
    groups = []
    for place, words in found:
        for group in groups:
            if difflib.SequenceMatcher(None, group[0][1], words, autojunk=False).ratio() > 0.85:
                group.append((place, words))
                break
        else:
            groups.append([(place, words)])
    for group in groups:
        if len(group) > 1:
            yield " = ".join(place for place, _ in group)


def repeated():
    """Clauses that stand in three contracts or more, and parameters that travel together in three functions or more."""
    clauses, groups = collections.defaultdict(set), collections.defaultdict(set)
    for path, function, head, _ in functions():
        place = f"{name(path)} {function}"
        for clause in re.findall(r"(?:requires|ensures)\s*\w*\s*\{(.*)\}", head):
            shape = re.sub(r"\b\d+\b", "0", re.sub(r"specs?\.\w+", "", clause)).strip()
            shape = re.sub(r"\b\w+_sizes\b|\b\w+_range\b", "QUESTIONS", shape)
            clauses[shape].add(place)
        parameters = re.search(r"\(([^)]*)\)", head, re.S)
        names = [p.split(":")[0].strip() for p in parameters.group(1).split(",") if ":" in p] if parameters else []
        for a in range(len(names)):
            for b in range(a + 1, len(names)):
                groups[f"parameters {names[a]}, {names[b]}"].add(place)
    for table in (clauses, groups):
        for key, places in sorted(table.items()):
            if len(places) >= 3:
                yield f"{key}: {', '.join(sorted(places))}"


def answers():
    for path in sorted(ROOT.glob("crates/*/proofs/**/*.antt")):
        for line in path.read_text().splitlines():
            match = re.match(r"(?:pub )?([\w'′≤→-]+) :", line)
            if match:
                yield f"{name(path)} {match.group(1)}"


POINTS = {
    "1": ("own enums, refusals compared as numbers, numbers for kinds",
          lambda: lines(r"\benum \w|\.number\(\) (==|!=)|Err\(\w+\) => \w+\.number\(\)|fn (\w*_)?fields?\b.*-> u8|fn (number|expected)\(.*-> u8")),
    "2": ("twins", twins),
    "3": ("loops", lambda: lines(r"^\s*(for|while|loop)\b.*\{")),
    "4": ("comparisons, conversions and printing by hand",
          lambda: lines(r"^impl.*\b(PartialEq|Eq|PartialOrd|Ord|Clone|Copy|Default|From|TryFrom|Display|Error)(<.*>)? for"
                        r"|-> &'static str|fn (new|from_\w+)\(\w+: \w+\) -> |fn \w+\(self\) -> [iu]\d+")),
    "5": ("clauses and parameters that come together", repeated),
    "6": ("buffers with a length, arrays", lambda: lines(r"\blen: usize|: \[u8; \d+\]|\[\w+; \d+\]\s*=?|Vec::new")),
    "7": ("macros, function pointers, trait objects, calls picked by a match",
          lambda: lines(r"macro_rules!|\bfn\(|\bdyn\b|impl Fn|=> \w+::?\w*\(rt")),
    "8": ("lemmas and answers in proofs/", answers),
}

if __name__ == "__main__":
    wanted = sys.argv[1:]
    for point, (title, places) in POINTS.items():
        found = list(places())
        if not wanted:
            print(f"{point}. {title}: {len(found)}")
        elif point in wanted:
            print("\n".join(found))
