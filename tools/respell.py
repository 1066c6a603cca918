#!/usr/bin/env python3
"""Brings this repository's own names in specs, proofs and clauses to the language's spelling, once:
types and statements in camel case (First-difference is FirstDifference), every other word in snake case (isPeriod is is_period, kept-front is kept_front).

usage: python3 tools/respell.py         in the repository, after the toolchain's own script and before any edit by hand
       python3 tools/respell.py --dry   only says which names fall together
       python3 tools/respell.py --alias CRATE..   only the last step, in these crates: the library's word for 'each element', by recursion,
                                        goes by AllOf, since no other thing may go by the name of the library's All

Names of the code (functions, fields, constants), and names that the check makes (goals, steps, invariants) are left.
"""
import collections
import os
import re
import sys

ROOT = os.path.join(os.path.dirname(os.path.realpath(__file__)), "..")
DRY = "--dry" in sys.argv
BY_HAND = {"name_in": "name_in_lem", "no_join": "no_join_lem"}

TOKEN = re.compile(r"--[^\n]*|\"(?:[^\"\\]|\\.)*\"|[^\s(){}\[\];,.\"«»@]+")
SIGNATURE = re.compile(r"^(\s*)((?:pub |abbrev |unfoldable )*)((?:[^\s(){}:,;.=]+ )+): *(.*)$", re.M)
HEAD = re.compile(r"^\s*(?:pub |abbrev )*(?:record|data|ruleset) (?:pub )?(\S+)", re.M)
IMPORT = re.compile(r"^\s*(?:pub )?(?:ghost )?use ([^\s{};]+?)(?:\.\{([^}]*)\})?(?: as (\S+?))?;?\s*$", re.M)
CLAUSE = re.compile(r"\b(?:requires|ensures)\*?(?: \w+)? ?\{|\bghost \w+(?::| =) \{")
MADE = re.compile(r"\.(?:Goals|Given|Start|Choices)\b|\.(?:declared|contracts)\b")


def respelled(name):
    if name in BY_HAND:
        return BY_HAND[name]
    if not re.match(r"[A-Za-z]", name):
        return name
    name = name.replace("′", "'")
    parts = name.split("-")
    if name[0].isupper():
        return "".join(p[:1].upper() + p[1:] for p in re.split("[-_]", name))
    out = [re.sub(r"(?<=[a-z0-9])([A-Z])", lambda m: "_" + m[1].lower(), p) for p in parts]
    return "_".join(out)


def files():
    for folder, dirs, names in os.walk(os.path.join(ROOT, "crates")):
        dirs[:] = sorted(d for d in dirs if d != "out")
        for n in sorted(names):
            if n.endswith((".rt", ".antt")):
                yield os.path.join(folder, n)


TEXTS = {f: open(f, encoding="utf-8").read() for f in files()}
OWN = sorted(os.listdir(os.path.join(ROOT, "crates")))


def is_own(path):
    m = re.match(r"Rattle\.(\w+)\.(specs|proofs)\.", path + ".")
    return bool(m and m[1] in OWN and not MADE.search(path))


def goals(path):
    """Whether a file holds answers, invariants or measures of a function."""
    rest = path.split("/proofs/")[-1] if "/proofs/" in path else ""
    return "/" in rest


def definitions():
    names, fields, made = collections.defaultdict(set), set(), set()
    for f, t in TEXTS.items():
        for m in re.finditer(r"^\s*(?:ghost )?use [^\n]*", t, re.M):
            for n in re.findall(r" as ([^\s,;}]+)", m[0]):
                names[n].add(f)
        if not f.endswith(".antt"):
            continue
        plain = re.sub(r"--[^\n]*", lambda m: " " * len(m[0]), t)
        record = None
        for line in plain.split("\n"):
            head = re.match(r"^(\s*)(?:pub |abbrev )*record ", line)
            if head:
                record = len(head[1])
            elif line.strip() and record is not None and len(line) - len(line.lstrip()) <= record:
                record = None
            m = SIGNATURE.match(line)
            if m:
                for n in m[3].split():
                    if re.match(r"(goal|need)\.", m[4]) or m[4].startswith(("goal.", "need.")):
                        made.add(n)
                    else:
                        names[n].add(f)
                        if record is not None:
                            fields.add(n)
        for m in HEAD.finditer(plain):
            names[m[1]].add(f)
        for m in re.finditer(r"\blet ([^\s(){}:=]+) *(?::|=)", plain):
            names[m[1]].add(f)
        for m in re.finditer(r"λ ((?:[^\s(){}.]+ ?)+)\.", plain):
            for n in m[1].split():
                names[n].add(f)
    return {n: fs for n, fs in names.items() if n not in made}, fields, made


NAMES, FIELDS, MADE_NAMES = definitions()
MAP = {n: respelled(n) for n in NAMES if respelled(n) != n}
# A lemma that would have the name of the function that it is about ends in `_lem`.
WORDS = {MAP.get(n, n) for n in NAMES if "-" not in n}
MAP |= {n: new + "_lem" for n, new in MAP.items() if "-" in n and new in WORDS}


def imports(t):
    """The names that a file takes from elsewhere, and the aliases of modules; each with whether it is this repository's own."""
    taken, alias = {}, {}
    for m in IMPORT.finditer(t):
        own = is_own(m[1])
        if m[2] is not None:
            for it in m[2].split(","):
                it = it.strip()
                if " as " in it:
                    a, b = it.split(" as ")
                    taken.setdefault(b.strip(), True)
                    taken.setdefault(a.strip(), own)
                elif it:
                    taken[it] = own
        elif m[3]:
            alias[m[3]] = own
        else:
            alias[m[1].split(".")[-1]] = own
    return taken, alias


def turn_antt(t):
    taken, alias = imports(t)
    lines = {}
    out, at = [], 0
    for m in TOKEN.finditer(t):
        w = m[0]
        if w.startswith(("--", '"')) or w not in MAP:
            continue
        start = t.rfind("\n", 0, m.start()) + 1
        line = t[start:m.start()]
        if re.match(r"\s*(?:pub )?use ", line):
            path = re.match(r"\s*(?:pub )?use ([^\s{]+?)\.?(?:\{|\s|$)", t[start:])
            if not is_own(path[1]) and not line.endswith(" as "):
                continue
        elif m.start() and t[m.start() - 1] == "." and m.start() > 1 and not t[m.start() - 2].isspace():
            before = re.search(r"([^\s(){}\[\];,.]+)\.$", t[max(0, m.start() - 200) : m.start()])
            chained = before and re.search(r"\.[^\s(){}\[\];,.]+\.$", t[max(0, m.start() - 200) : m.start()])
            if before and not chained and before[1] in alias:
                if not alias[before[1]]:
                    continue
            elif w not in FIELDS:
                continue
        elif taken.get(w, True) is False:
            continue
        out.append(t[at : m.start()])
        out.append(MAP[w])
        at = m.end()
    out.append(t[at:])
    return "".join(out)


def clauses(t):
    spans = []
    for m in CLAUSE.finditer(t):
        deep, k = 0, m.end() - 1
        while True:
            deep += (t[k] == "{") - (t[k] == "}")
            if not deep:
                break
            k += 1
        spans.append((m.end(), k))
    return spans


def turn_rt(t):
    taken, _ = imports(t)
    known = {n for n, own in taken.items() if own}

    def words(part, use):
        out, at = [], 0
        for m in TOKEN.finditer(part):
            w = m[0]
            if w not in MAP or not (use or w in known or w in FIELDS):
                continue
            if use == "alias" and not part[: m.start()].endswith(" as "):
                continue
            if not use and m.start() and part[m.start() - 1] == "." and w not in FIELDS:
                continue
            out += [part[at : m.start()], MAP[w]]
            at = m.end()
        return "".join(out + [part[at:]])

    spans = [(a, b, False) for a, b in clauses(t)]
    for m in IMPORT.finditer(t):
        if m[0].lstrip().startswith("ghost") and m[2] is not None:
            spans.append((m.start(2), m.end(2), "own" if is_own(m[1]) else "alias"))
    for a, b, use in sorted(spans, key=lambda s: s[0], reverse=True):
        t = t[:a] + words(t[a:b], use) + t[b:]
    return t


def together():
    """Names that fall together in one file."""
    said = []
    back = collections.defaultdict(set)
    for old, new in MAP.items():
        back[new].add(old)
    for f, t in TEXTS.items():
        if not f.endswith(".antt"):
            continue
        words = set(w for w in TOKEN.findall(re.sub(r"--[^\n]*", "", t)))
        for w in sorted(words & set(MAP)):
            new = MAP[w]
            if new in words:
                said.append(f"{f}: {w} falls together with {new}")
            others = (back[new] & words) - {w}
            if others:
                said.append(f"{f}: {w} falls together with {sorted(others)}")
    for f, t in TEXTS.items():
        if not f.endswith(".rt"):
            continue
        taken, _ = imports(t)
        code = set(re.findall(r"\w+", re.sub(r"//[^\n]*", "", t)))
        for w, own in taken.items():
            if own and w in MAP and MAP[w] in code:
                said.append(f"{f}: {w} is now spelled as {MAP[w]}, which the code has")
    return said


def turn_alias(f, t):
    """Calls the recursive All of the library by AllOf in a file that imports it as All."""
    if "AllByRecursion as All" not in t:
        return t
    spans = [(0, len(t))] if f.endswith(".antt") else clauses(t)
    for a, b in sorted(spans, reverse=True):
        part, out, at = t[a:b], [], 0
        for m in TOKEN.finditer(part):
            if m[0] == "All" and not (m.start() and part[m.start() - 1] == "."):
                out += [part[at : m.start()], "AllOf"]
                at = m.end()
        t = t[:a] + "".join(out + [part[at:]]) + t[b:]
    return t.replace("AllByRecursion as All}", "AllByRecursion as AllOf}").replace("AllByRecursion as All,", "AllByRecursion as AllOf,")


def write(f, old, new):
    if new != old:
        with open(f, "w", encoding="utf-8") as out:
            out.write(new)


def main():
    if "--alias" in sys.argv:
        for f, t in TEXTS.items():
            if os.path.relpath(f, ROOT).split(os.sep)[1] in sys.argv:
                write(f, t, turn_alias(f, t))
        return
    for line in together():
        print(line.replace(ROOT + "/", ""))
    print(f"{len(MAP)} names")
    if not DRY:
        for f, t in TEXTS.items():
            write(f, t, turn_alias(f, turn_antt(t) if f.endswith(".antt") else turn_rt(t)))


if __name__ == "__main__":
    main()
