#!/usr/bin/env python3
"""Lists lines of the sources that read like an older language, by the points of docs/DESIGN-PASS.md.

    tools/places.py [FOLDER]     FOLDER holds the crates; crates/ where none is given

A line is a place to look, not a fault: the page says which of them count, and why some stay."""

import pathlib
import re
import sys
from collections import defaultdict

POINTS = {
    "1 values that stand for kinds or refusals": r"=> \d+,$|return 0;|depth: 0|end: 8|\(0, 0\)|\bheld: u16,|None => (Err|None)|Err\(\w+\) => Err\(",
    "3 loops and counts by hand": r"^\s*(while|loop)\b|\bfor .* in .*\.\.|saturating_add\(1\)",
    "4 conversions and printing by hand": r"\bfn (eq|cmp|fmt|from|letter|nibble|glyph|number_of|groups_of)\b|format!|println!\(rt; \"!",
    "6 buffers with a length, pairs of ends": r"^\s+(pub(\(crate\))? )?(len|start|end|bytes|words|depth): ",
    "7 switches and tables of functions": r"match (call|version|letter|self|\*letter)\b|\bdyn |: fn\(",
}


def sources(folder):
    for path in sorted(folder.glob("*/src/*.rt")):
        yield path, path.read_text().splitlines()


def signatures(lines):
    """The functions of a file, each as the text from `fn` up to its body or semicolon."""
    text = "\n".join(line.split("//")[0] for line in lines)
    for match in re.finditer(r"\bfn (\w+)", text):
        depth, end = 0, len(text)
        for at in range(match.start(), len(text)):
            c = text[at]
            if c == "{" and depth == 0 and not re.search(r"(requires|ensures|ghost)( \w+)?:? ?$", text[:at]):
                end = at
                break
            depth += (c == "{") - (c == "}")
            if c == ";" and depth == 0 and "[" not in text[text.rfind("\n", 0, at) : at]:
                end = at
                break
        yield match.group(1), text[match.start() : end]


def clauses(signature):
    """The facts that a signature requires or ensures, without names; a product counts by its parts."""
    for match in re.finditer(r"(requires|ensures)( \w+)? \{(.*)\}", signature):
        for part in match.group(3).split("×"):
            yield match.group(1), re.sub(r"[()\s]+", " ", part).strip()


def repeated(folder):
    facts, travel = defaultdict(set), defaultdict(set)
    for path, lines in sources(folder):
        crate = path.parts[-3]
        for name, signature in signatures(lines):
            for kind, fact in clauses(signature):
                if kind == "requires":
                    facts[crate, fact].add(name)
            head = re.split(r"\b(requires|ensures|ghost)\b", signature)[0]
            params = re.findall(r"(\w+): (&?(?:mut )?[\w\[\]<>:]+)", head)
            for pair in zip(params, params[1:]):
                travel[crate, pair].add(name)
    for (crate, what), names in sorted(facts.items(), key=str):
        if len(names) >= 3:
            print(f"  {crate}: requires {what}: {', '.join(sorted(names))}")
    for (crate, pair), names in sorted(travel.items(), key=str):
        if len(names) >= 3:
            print(f"  {crate}: {', '.join(f'{n}: {t}' for n, t in pair)}: {', '.join(sorted(names))}")


def main():
    folder = pathlib.Path(sys.argv[1] if len(sys.argv) > 1 else "crates")
    for point, pattern in POINTS.items():
        print(point)
        for path, lines in sources(folder):
            for number, line in enumerate(lines, 1):
                if path.name != "tests.rt" and re.search(pattern, line.split("//")[0]):
                    print(f"  {path.relative_to(folder)}:{number}: {line.strip()}")
    print("5 facts asked for, and parameters side by side, in three functions or more of a crate")
    repeated(folder)


main()
