#!/usr/bin/env python3
"""Compares crates/daylist/out/daylist with the second program on random lists, good and damaged.

usage: tools/daylist_compare.py [COUNT]      (after: cd crates/daylist && rt run)
"""
import os
import random
import subprocess
import sys

import daylist_reference

HERE = os.path.dirname(os.path.abspath(__file__))
PROGRAM = os.path.join(HERE, "..", "crates", "daylist", "out", "daylist")


def value(rng, kind):
    if kind == "w":
        letters = "".join(rng.choice("abZ09-_") for _ in range(rng.choice([1, 1, 2, 8])))
        return f"'{letters}'"
    return str(rng.choice([0, 1, -1, 7, 10**12, -(10**12), rng.randint(-3, 3)]))


def line(rng, kinds):
    first = rng.choice([0, 1, 5, 999_990, rng.randint(0, 30)])
    words = [str(first), str(first + rng.randint(1, 9))] + [value(rng, k) for k in kinds]
    if rng.random() < 0.1:
        bad = ["-0", "01", "''", "'123456789'", "12345678901234", "'a b'", "x", "1000000000001", "'é'", "-1", ""]
        words[rng.randrange(len(words))] = rng.choice(bad)
    if rng.random() < 0.05:
        rng.choice([words.pop, lambda: words.append("1"), words.reverse])()
    text = " " * rng.choice([0, 0, 0, 2]) + (" " * rng.choice([1, 1, 3])).join(words)
    return text + " " * rng.choice([0, 0, 1])


def make(rng):
    kinds = "".join(rng.choice("nw") for _ in range(rng.choice([1, 1, 2, 3, 6])))
    header = f"list{rng.randint(0, 9)} {kinds}"
    if rng.random() < 0.1:
        header = rng.choice(["", "list", "by w", "List w", "list nwx", "list nnnnnnn", "a b c", " list  w "])
        kinds = "w"
    lines = [header] + [line(rng, kinds) for _ in range(rng.choice([0, 1, 5, 40]))]
    if rng.random() < 0.3:
        lines.insert(rng.randint(1, len(lines)), rng.choice(["# a note", "", "   ", "  #x"]))
    return ("\n".join(lines) + rng.choice(["\n", ""])).encode()


def main():
    count = int(sys.argv[1]) if len(sys.argv) > 1 else 500
    for seed in range(count):
        text = make(random.Random(seed))
        got = subprocess.run([PROGRAM], input=text, capture_output=True, check=True).stdout
        want = daylist_reference.run(text).encode()
        if got != want:
            sys.exit(f"seed {seed} differs\n--- list\n{text.decode()}\n--- daylist\n{got.decode()}\n--- reference\n{want.decode()}")
    print(f"{count} lists agree")


main()
