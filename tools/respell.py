#!/usr/bin/env python3
"""Respells this repository's own names in specs/, proofs/, src/ clauses as today's Rattle spells names.

Run once at the top, behind the toolchain's port.py. A definition, a lemma, a field of a record or a constructor that the
repository itself declares with a dash or a camel hump gets the snake case of its name: is-place becomes is_place,
valueOn value_on. A lemma's dash stays where it joins two functions that the statement names, as in
whole-groups : whole (groups n) ≡ n. Names that Rattle makes (goals, steps of a proof) and names that a file imports
from a library stay. Prints which names were changed, and on standard error which of them were written before or fall
together, to be looked at.
"""
import os
import re
import subprocess
import sys

NAME = re.compile(r"[A-Za-z_][A-Za-z0-9_'′]*(?:[-·][A-Za-z0-9_'′]+)*")
MODIFIER = r"(?:abbrev |unfoldable |pub |record |data |ruleset |mutual )*"
DECLARED = re.compile(rf"^(?P<indent> *)(?P<mod>{MODIFIER})(?P<name>[^\s(){{}}:;,.]+)(?P<args>(?: [({{][^:]*:.*)?) :(?P<type>\s.*)?$")
CASE = re.compile(r"^ *\| (?P<name>[^\s(){}:;,.]+) :")


def files(*ends):
    out = subprocess.run(["git", "ls-files", "-co", "--exclude-standard", "crates"], capture_output=True, text=True, check=True).stdout
    return [f for f in out.splitlines() if f.endswith(ends) and os.path.exists(f)]


def crates():
    return {line.split(":")[0].split()[0] for line in open("crates.txt") if line.strip() and not line.startswith("#")}


def snake(name):
    name = re.sub(r"(?<=[a-z0-9])([A-Z])", lambda m: "_" + m.group(1).lower(), name)
    return name.replace("-", "_").replace("′", "'")


def lemma(name, statement):
    parts, spelt = name.split("-"), ""
    tokens = set(NAME.findall(statement))
    for i, part in enumerate(parts):
        joins = i > 0 and part in tokens and parts[i - 1] in tokens
        spelt += ("" if i == 0 else "-" if joins else "_") + snake(part)
    return spelt


def declared():
    """the repository's own names that are to change, each with its new spelling"""
    new = {}
    for f in files(".antt"):
        lines = open(f, encoding="utf-8").read().split("\n")
        for i, line in enumerate(lines):
            m = DECLARED.match(line) or CASE.match(line)
            if not m or line.lstrip().startswith(("--", "use ", "module", "|")) and not CASE.match(line):
                continue
            name, rest = m.group("name"), line[m.end("name"):]
            if name[0].isupper() or not re.fullmatch(NAME, name) or name == snake(name):
                continue
            if re.search(rf"(?:goal|need|rules)\.{re.escape(name)}(?![\w-])", line):
                continue
            mod = m.groupdict().get("mod", "") or ""
            follow = rest + " ".join(lines[i + 1 : i + 4] if line.rstrip().endswith(":") else [])
            spelt = snake(name) if "abbrev" in mod or "unfoldable" in mod or CASE.match(line) else lemma(name, follow)
            if name != spelt:
                new.setdefault(name, set()).add(spelt)
    return new


def imported(text, own):
    """names that a file takes from a library"""
    names = set()
    for m in re.finditer(r"^(?:ghost )?use ([^{;\n]*)\.\{([^}]*)\}", text, re.M):
        path = m.group(1).split(".")
        if path[0] == "Rattle" and path[1] in own:
            continue
        for item in m.group(2).split(","):
            names |= set(NAME.findall(item.strip()))
    return names


def main():
    own, new = crates(), declared()
    for name, spelt in new.items():
        if len(spelt) > 1:
            # one name, two lemmas: the plain spelling serves both
            new[name] = {snake(name)}
    table = {name: next(iter(spelt)) for name, spelt in new.items()}
    texts = {f: open(f, encoding="utf-8").read() for f in files(".antt", ".rt")}
    taken = set()
    for text in texts.values():
        taken |= set(NAME.findall(text))
    together = sorted(f"{a} -> {b}" for a, b in table.items() if b in taken)
    spellings = list(table.values())
    twice = sorted({b for b in spellings if spellings.count(b) > 1})
    for f, text in texts.items():
        keep = imported(text, own)

        def respell(m):
            name = m.group(0)
            before = text[max(0, m.start() - 5) : m.start()]
            if name in keep or before.endswith(("goal.", "Given.", "Goals.")):
                return name
            return table.get(name, name)

        changed = NAME.sub(respell, text)
        if f.endswith(".rt"):
            # in code only clauses, ghost items and imports change
            changed = "\n".join(
                c if re.search(r"ghost|requires|ensures|λ|≡|→|×", o) else o for o, c in zip(text.split("\n"), changed.split("\n"))
            )
        if changed != text:
            open(f, "w", encoding="utf-8").write(changed)
    for name, spelt in sorted(table.items()):
        print(f"{name} -> {spelt}")
    print(f"{len(table)} names", file=sys.stderr)
    for line in together:
        print(f"look: {line} is written already", file=sys.stderr)
    for name in twice:
        print(f"look: two names become {name}", file=sys.stderr)


if __name__ == "__main__":
    main()
