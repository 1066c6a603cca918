#!/usr/bin/env python3
"""A second ledger, written from docs/RULES.md and not from the Rattle code: two registers of twelve rows that keep, for each name,
the set of days of each tuple. Reads the commands from standard input and prints what ledger must print.

usage: ledger_reference.py < COMMANDS
"""
import re
import sys

from daylist_reference import is_name, periods, show, split

ENTRIES, ROWS, MOST = 16, 12, 10**12
WORD = re.compile(rb"[A-Za-z0-9_-]{1,8}")
NUMBER = re.compile(rb"0|-?[1-9][0-9]{0,12}")


class No(Exception):
    """A refusal, by its number."""


class Relation:
    def __init__(self, kinds):
        self.kinds, self.published, self.days, self.count = kinds, False, {}, 0

    def rows(self):
        return [(a, b, t) for t in sorted(self.days) for a, b in periods(self.days[t])]


class Register:
    def __init__(self, number):
        self.number, self.held = number, {}

    def free(self):
        return ROWS - sum(r.count for r in self.held.values())

    def fit(self, slip):
        number, name = slip
        if number != self.number or name not in self.held or self.held[name].published:
            raise No(14)
        return self.held[name]

    def draft(self, name, kinds):
        if not is_name(name) or name in self.held:
            raise No(3)
        if not 1 <= len(kinds) <= 6:
            raise No(4)
        if len(self.held) == ENTRIES:
            raise No(7)
        self.held[name] = Relation(kinds)
        return (self.number, name)

    def put(self, slip, first, end, values, kinds):
        relation = self.fit(slip)
        if kinds != relation.kinds:
            raise No(4)
        if not first < end <= 1_000_000:
            raise No(5)
        if not all(in_kind(k, v) for k, v in zip(kinds, values)):
            raise No(6)
        if any(values[len(kinds):]):
            raise No(11)
        if self.free() == 0:
            raise No(9)
        relation.days.setdefault(tuple(values[:len(kinds)]), set()).update(range(first, end))
        relation.count += 1
        return relation.count

    def publish(self, slip, work):
        relation = self.fit(slip)
        if work < relation.count:
            raise No(8)
        relation.published, relation.count = True, len(relation.rows())
        return relation.count

    def remove(self, name):
        return self.held.pop(name).count

    def abandon(self, slip):
        self.fit(slip)
        return self.remove(slip[1])

    def read(self, name):
        if not is_name(name) or name not in self.held or not self.held[name].published:
            raise No(3)
        return self.held[name]

    def drop(self, name):
        self.read(name)
        return self.remove(name)

    def show(self, name, room):
        relation = self.read(name)
        rows = relation.rows()
        lines = [" ".join([name.decode(), relation.kinds.decode(), str(len(rows))])]
        for a, b, t in rows:
            lines.append(" ".join([str(a), str(b)] + [show(k, v) for k, v in zip(relation.kinds, t)]))
        text = "\n".join(lines) + "\n"
        if len(text) > room:
            raise No(12)
        return text


def held_as(word):
    return int.from_bytes(word.ljust(8, b"\0"), "big")


def in_kind(kind, value):
    if chr(kind) == "n":
        return -MOST <= value <= MOST
    if value < 0:
        return False
    text = value.to_bytes(8, "big").rstrip(b"\0")
    return bool(WORD.fullmatch(text)) and held_as(text) == value


def value(word):
    if NUMBER.fullmatch(word):
        return int(word)
    if word[:1] == word[-1:] == b"'" and len(word) > 1 and WORD.fullmatch(word[1:-1]):
        return held_as(word[1:-1])
    raise ValueError


def day(word):
    if not NUMBER.fullmatch(word) or not 0 <= int(word) < 2**32:
        raise ValueError
    return int(word)


def letters(word):
    if word == b"-":
        return b""
    if len(word) > 8 or set(word) - set(b"nw"):
        raise ValueError
    return word


class Desk:
    def __init__(self):
        self.registers, self.using = {1: Register(1), 2: Register(2)}, 1
        self.slips, self.work, self.output = [], 64, 1024

    def slip(self, name):
        mine = [s for s in self.slips if s[1] == name]
        same = [s for s in mine if s[0] == self.using]
        return same[-1] if same else mine[0] if mine else None

    def do(self, words):
        verb, rest = words[0].decode("latin1"), words[1:]
        register = self.registers[self.using]
        if verb in ("use", "work", "output"):
            (size,) = rest
            if not NUMBER.fullmatch(size) or int(size) < 0:
                raise ValueError
            size = int(size)
            if verb == "use":
                self.using = 2 if size == 2 else 1
            elif verb == "work":
                self.work = min(size, 64)
            else:
                self.output = min(size, 1024)
            return "set"
        if verb == "draft":
            name, kinds = rest
            self.slips.append(register.draft(name, letters(kinds)))
            return "slip"
        if verb == "put":
            name, kinds, first, end, *values = rest
            kinds, first, end = letters(kinds), day(first), day(end)
            values = [value(w) for w in values]
            if len(values) > 6:
                raise ValueError
            slip = self.slip(name)
            if slip is None:
                return "no slip"
            return f"{register.put(slip, first, end, values + [0] * (6 - len(values)), kinds)} rows"
        if verb not in ("publish", "abandon", "drop", "show"):
            raise ValueError
        (name,) = rest
        if verb == "drop":
            return f"{register.drop(name)} freed"
        if verb == "show":
            text = register.show(name, self.output)
            return f"{len(text)} bytes\n{text}".rstrip("\n")
        slip = self.slip(name)
        if slip is None:
            return "no slip"
        self.slips.remove(slip)
        if verb == "abandon":
            return f"{register.abandon(slip)} freed"
        try:
            return f"{register.publish(slip, self.work)} rows"
        except No:
            self.slips.append(slip)
            raise

    def answer(self, words):
        try:
            return self.do(words)
        except No as no:
            return f"refused {no} 0 0"
        except ValueError:
            return "no command"


def main():
    desk = Desk()
    lines = sys.stdin.buffer.read().split(b"\n")
    if lines[-1] == b"":
        lines.pop()
    for line in lines:
        words = split(line)
        if words and not words[0].startswith(b"#"):
            print(f"{line.decode('latin1')}: {desk.answer(words)}")
    print(f"slips left and abandoned: {len(desk.slips)}")


if __name__ == "__main__":
    main()
