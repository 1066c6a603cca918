#!/usr/bin/env python3
"""A second daylist, written from docs/RULES.md and not from the Rattle code: it keeps, for each tuple,
the set of its days, and reads the periods off the sorted days. Slow and plain; used to make and check
the expected output of daylist.

usage: daylist_reference.py < LIST
"""
import re
import sys

RESERVED = {b"base", b"during", b"where", b"on", b"of", b"by"}
NUMBER = re.compile(rb"(0|-?[1-9][0-9]{0,12})\Z")
WORD = re.compile(rb"'([A-Za-z0-9_-]{1,8})'\Z")
NAME = re.compile(rb"[a-z][a-z0-9]{0,7}\Z")


def split(line):
    return [w for w in line.split(b" ") if w]


def is_name(word):
    return bool(NAME.match(word)) and word not in RESERVED


def read_header(line):
    words = split(line)
    if len(words) != 2 or not re.match(rb"[nw]+\Z", words[1]):
        return 2, None
    if not is_name(words[0]):
        return 3, None
    if len(words[1]) > 6:
        return 4, None
    return 0, (words[0], words[1])


def read_row(line, kinds):
    words = split(line)
    if len(words) < 3 or not all(NUMBER.match(w) for w in words[:2]):
        return 2, None
    if not all(NUMBER.match(w) or WORD.match(w) for w in words[2:]):
        return 2, None
    found = bytes(b"n"[0] if NUMBER.match(w) else b"w"[0] for w in words[2:])
    if found != kinds:
        return 4, None
    first, end = int(words[0]), int(words[1])
    if not 0 <= first < end <= 1_000_000:
        return 5, None
    values = []
    for w in words[2:]:
        m = WORD.match(w)
        if m:
            values.append(int.from_bytes(m.group(1).ljust(8, b"\0"), "big"))
        else:
            values.append(int(w))
            if abs(int(w)) > 10**12:
                return 6, None
    return 0, (tuple(values), first, end)


def periods(days):
    days = sorted(days)
    start = None
    for i, d in enumerate(days):
        if start is None:
            start = d
        if i + 1 == len(days) or days[i + 1] != d + 1:
            yield start, d + 1
            start = None


def show(kind, value):
    if kind == b"n"[0]:
        return str(value)
    return "'" + value.to_bytes(8, "big").rstrip(b"\0").decode() + "'"


def run(text):
    out = []
    lines = text.split(b"\n")
    if lines and lines[-1] == b"":
        lines.pop()
    refusal, header = read_header(lines[0] if lines else b"")
    if refusal:
        return f"line 1: refused {refusal}\n"
    name, kinds = header
    count, held = 0, {}
    for k, line in enumerate(lines[1:], start=2):
        words = split(line)
        if not words or words[0].startswith(b"#"):
            continue
        refusal, row = read_row(line, kinds)
        if not refusal and count == 65536:
            refusal = 8
        if refusal:
            out.append(f"line {k}: refused {refusal}")
            continue
        count += 1
        held.setdefault(row[0], set()).update(range(row[1], row[2]))
    out.append(f"read {count} rows")
    rows = [(first, end, values) for values in sorted(held) for first, end in periods(held[values])]
    out.append(f"coalesced to {len(rows)} rows")
    out.append(f"{name.decode()} {kinds.decode()} {len(rows)}")
    for first, end, values in rows:
        out.append(" ".join([str(first), str(end)] + [show(k, v) for k, v in zip(kinds, values)]))
    return "\n".join(out) + "\n"


if __name__ == "__main__":
    sys.stdout.write(run(sys.stdin.buffer.read()))
