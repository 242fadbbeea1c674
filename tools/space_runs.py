#!/usr/bin/env python3
"""Makes crates/spaces/stdin and stdout: runs of calls on a space, and what they answer.

The answers come from a model of this script's own, written from docs/RULES.md and docs/FORMATS.md: a space is a
Python set of places out, and every call looks at all places by the definitions, with no tree, no bits and no
search that jumps. The memory is drawn from the set. Nothing is taken from the program.

Some runs are written by hand, each for what its comment says; the others are random, from a fixed seed.
Run by `python3 tools/space_runs.py` in the repository's root.
"""
import random
import re

BY_HAND = [
    "2 +5",  # the bytes 0 2 2 0 0 1 0 0
    "4 +5 +5 o4 o2 u5 b2 b4 -5 u5 +2",  # each call, before and after a place is out
    "4 +10 +11 b5 s1,3,0 s2,3,0 s1,2,5 s3,4,26 s1,9,0",  # the words 240 and 80; searches
    "4 +5 +6 -5 o2 o3 s1,1,0 -6 s1,1,0 s1,0,0",  # 5 and 6 are neighbours and no buddies
    "4 +8 +9 -8 o4 -9 o4 +4 -4 s1,0,0",  # 8 and 9 are buddies
    "1 +1 +2 -1 +2 +3 +1",  # the least depth
    "7 +2 +96 s1,3,0 s3,6,0 -2 +5",  # places of a whole word, and shares of two words
    "6 +64 +127 +33 s1,5,0 -64 s1,6,0",  # a share of one full word
    "3 +0 +16 +65535 -0 -7 u0 b0 o0 s0,1,0 s1,3,99",  # numbers that are no places
    "12",  # no call at all
    "12 +4096 +8191 +3 s1,12,0 s2,1,0 s2,11,0 -3 s3,12,8000 b6 b4",  # the greatest depth
    "0 +1 s1,0,0",  # shut
    "13 +1 b1",  # shut
    "4 x5",  # no such call
    "4 +05 +5",  # an idle zero
    "4 +5 s1,2",  # a number missing
    "4 +5 s1,2,3,4",  # a number too many
    "4  +5",  # an empty field
    "4 +5 ",  # an empty field at the end
    "65536",  # a number past the limit
    "",  # no depth
]


def lies(n, m):
    while n > 0:
        if n == m:
            return True
        n //= 2
    return False


def overlap(n, m):
    return lies(n, m) or lies(m, n)


def deep(n):
    return n.bit_length() - 1


class Space:
    def __init__(self, depth):
        self.live = 1 <= depth <= 12
        self.depth = depth if self.live else 0
        self.out = set()

    def places(self):
        return range(1, 2 ** (self.depth + 1))

    def is_open(self, n):
        return self.live and n in self.places() and not any(overlap(n, k) for k in self.out)

    def call(self, text):
        letter, numbers = text[0], [int(x) for x in text[1:].split(",")]
        n = numbers[0]
        if letter == "s":
            w, d, f = numbers
            found = [k for k in self.places() if deep(k) == d and k >= f and lies(k, w) and self.is_open(k)]
            return str(found[0]) if found else "none"
        if letter == "o":
            yes = self.is_open(n)
        elif letter == "u":
            yes = n in self.out
        elif letter == "b":
            yes = any(lies(k, n) for k in self.out)
        elif letter == "+":
            yes = self.is_open(n)
            self.out |= {n} if yes else set()
        else:
            yes = n in self.out
            self.out -= {n}
        return "yes" if yes else "no"

    def bytes(self):
        if not self.live:
            return []
        return [1 if n in self.out else 2 if any(lies(k, n) for k in self.out) else 0 for n in range(2 ** (self.depth + 1))]

    def words(self):
        if not self.live:
            return []
        marks, starts = 0, 0
        for n in self.out:
            units = 2 ** (self.depth - deep(n))
            first = (n - 2 ** deep(n)) * units
            marks |= (2**units - 1) << first
            starts |= 1 << first
        share = max(1, 2**self.depth // 64)
        return [share_bits >> (64 * i) & (2**64 - 1) for share_bits in (marks, starts) for i in range(share)]


NUMBER = r"(?:0|[1-9][0-9]{0,4})"
CALL = re.compile(rf"[-+oub]{NUMBER}|s{NUMBER},{NUMBER},{NUMBER}")


def small(text):
    return all(int(x) <= 65535 for x in re.findall(r"[0-9]+", text))


def answers(number, line):
    column = 1
    fields = line.split(" ")
    for i, field in enumerate(fields):
        form = re.compile(NUMBER) if i == 0 else CALL
        if not (form.fullmatch(field) and small(field)):
            return [f"! {number} t 1 {column}"]
        column += len(field) + 1
    space = Space(int(fields[0]))
    said = [f"{a} {a}" for a in map(space.call, fields[1:])]
    return said + [f"tree {space.bytes()}", f"bitmap {space.words()}"]


def random_run(rng, depth, calls):
    last = 2 ** (depth + 1)
    fields, out = [str(depth)], []
    for _ in range(calls):
        kind = rng.choice("+++++--oubss")
        n = rng.randrange(1, last) if rng.random() < 0.97 else rng.choice([0, last, 65535])
        if kind == "-" and out and rng.random() < 0.8:
            n = rng.choice(out)
        if kind == "s":
            w = 1 if rng.random() < 0.5 else n
            fields.append(f"s{w},{rng.randrange(depth + 2)},{rng.choice([0, 0, rng.randrange(last)])}")
        else:
            fields.append(f"{kind}{n}")
            if kind == "+":
                out.append(n)
    return " ".join(fields)


def main():
    rng = random.Random(4632)
    lines = BY_HAND + [random_run(rng, depth, 24 if depth < 10 else 40) for depth in range(1, 13) for _ in range(6 if depth < 10 else 2)]
    with open("crates/spaces/stdin", "w") as f:
        f.write("".join(line + "\n" for line in lines))
    with open("crates/spaces/stdout", "w") as f:
        for i, line in enumerate(lines, 1):
            f.write("".join(a + "\n" for a in answers(i, line)))


main()
