#!/usr/bin/env python3
"""A second uncovered, written from docs/RULES.md and not from the Rattle code: it works on the sets of each
day, with Python's sets. Slow and plain; used to make and check the expected output of uncovered.

usage: uncovered_reference.py HIRES COVERS VALUES FROM UNTIL
"""
import os
import sys

from daylist_reference import periods, read_header, read_row, show, split


def load(path, out):
    lines = open(path, "rb").read().split(b"\n")
    if lines[-1] == b"":
        lines.pop()
    refusal, header = read_header(lines[0])
    assert not refusal, (path, refusal)
    kinds, held, count = header[1], {}, 0
    for k, line in enumerate(lines[1:], start=2):
        words = split(line)
        if not words or words[0].startswith(b"#"):
            continue
        refusal, row = read_row(line, kinds)
        if refusal:
            out.append(f"line {k}: refused {refusal}")
            continue
        count += 1
        held.setdefault(row[0], set()).update(range(row[1], row[2]))
    out.append(f"{os.path.basename(path)}: {count} rows, coalesced to {len(rows_of(held))}")
    return kinds, held


def rows_of(held):
    return [(a, b, t) for t in sorted(held) for a, b in periods(held[t])]


def by_day(held):
    days = {}
    for t, ds in held.items():
        for d in ds:
            days.setdefault(d, set()).add(t)
    return days


def by_tuple(days):
    held = {}
    for d, ts in days.items():
        for t in ts:
            held.setdefault(t, set()).add(d)
    return held


def listed(name, kinds, days, out):
    rows = rows_of(by_tuple(days))
    out.append(f"{name} {kinds.decode()} {len(rows)}")
    for a, b, t in rows:
        out.append(" ".join([str(a), str(b)] + [show(k, v) for k, v in zip(kinds, t)]))


def main():
    hires, covers, values, first, end = sys.argv[1:]
    first, end = int(first), int(end)
    out = []
    _, hired = load(hires, out)
    _, covered = load(covers, out)
    kinds, valued = load(values, out)
    hired, covered, valued = by_day(hired), by_day(covered), by_day(valued)
    out_days = {d: {t[:1] for t in ts} for d, ts in hired.items()}
    bare = {d: ts - {t[:1] for t in covered.get(d, set())} for d, ts in out_days.items()}
    joined = {d: {s + u[1:] for s in ts for u in valued.get(d, set()) if s[0] == u[0]} for d, ts in bare.items()}
    asked = {d: ts for d, ts in joined.items() if first <= d < end}
    out.append("instruments that were out:")
    listed("out", kinds[:1], out_days, out)
    out.append("of these, without cover:")
    listed("bare", kinds[:1], bare, out)
    out.append("with their values:")
    listed("valued", kinds, joined, out)
    out.append(f"from day {first} up to day {end}:")
    listed("asked", kinds, asked, out)
    print("\n".join(out))


main()
