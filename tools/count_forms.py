#!/usr/bin/env python3
"""Counts the places in crates/*/src that docs/DESIGN-PASS.md speaks of, point by point, and prints each.

    python3 tools/count_forms.py            all points
    python3 tools/count_forms.py 3          one point
"""
import difflib
import pathlib
import re
import sys

ROOT = pathlib.Path(__file__).resolve().parent.parent
FILES = sorted(ROOT.glob("crates/*/src/**/*.rt"))


def code_lines(path):
    for number, line in enumerate(path.read_text().split("\n"), 1):
        bare = re.sub(r"//.*", "", line)
        if bare.strip() and not bare.strip().startswith("ghost use"):
            yield number, bare


def grep(pattern):
    found = []
    for path in FILES:
        for number, line in code_lines(path):
            if re.search(pattern, line):
                found.append((path.relative_to(ROOT), number, line.strip()))
    return found


def functions():
    """Each function with its contract and its body, comments gone."""
    for path in FILES:
        text = "\n".join(line for _, line in code_lines(path))
        for match in re.finditer(r"^( *)(pub(?:\(crate\))? )?(?:final )?fn (\w+)", text, re.M):
            end = text.find("\n" + match.group(1) + "}", match.end())
            semi = text.find(";\n", match.end())
            brace = text.find("{\n", match.end())
            if brace < 0 or (0 <= semi < brace):
                continue
            yield path.relative_to(ROOT), match.group(3), text[match.start():end]


def split(whole):
    """Signature, clauses, body."""
    lines = whole.split("\n")
    clauses = [x.strip() for x in lines if re.match(r"\s*(requires|ensures)\b", x)]
    rest = [x for x in lines if not re.match(r"\s*(requires|ensures)\b", x)]
    return rest, clauses


def tokens(text):
    return re.findall(r"[A-Za-z_]\w*|\d[\w_]*|\S", text)


def twins():
    """Pairs of functions in libraries and programs whose texts differ in a few words only."""
    items = []
    for path, name, whole in functions():
        if "tests" in str(path) or name in ("main", "run"):
            continue
        if re.search(r"impl.*Source for|impl.*Ordered for|impl.*Keys for", ""):
            continue
        rest, _ = split(whole)
        words = tokens("\n".join(rest))
        items.append((path, name, words))
    pairs = []
    for i, (p, n, a) in enumerate(items):
        for q, m, b in items[i + 1:]:
            if min(len(a), len(b)) < 24 or abs(len(a) - len(b)) > 6:
                continue
            if difflib.SequenceMatcher(None, a, b, autojunk=False).quick_ratio() < 0.8:
                continue
            ratio = difflib.SequenceMatcher(None, a, b, autojunk=False).ratio()
            if ratio >= 0.8:
                pairs.append((p, 0, f"{n} and {m} ({q}): {ratio:.2f}"))
    return pairs


def repeated_facts():
    """Clauses of three or more functions with the same fact."""
    seen = {}
    for path, name, whole in functions():
        _, clauses = split(whole)
        for clause in clauses:
            if not clause.startswith("requires"):
                continue
            fact = re.sub(r"^requires\s*\w*\s*\{\s*(.*?)\s*\}?$", r"\1", clause)
            fact = re.sub(r"\.(old|now|new|entry)\b", "", fact)
            fact = re.sub(r"\b(self|source|left|right|hires|covers|values)\b", "x", fact)
            fact = re.sub(r"\b[A-Z]\.Source", "S.Source", fact)
            seen.setdefault(fact, []).append((path, 0, f"{name}: {clause}"))
    return {fact: where for fact, where in seen.items() if len({w[2] for w in where}) >= 3}


def together():
    """Parameters that three or more functions take beside each other."""
    seen = {}
    for path, name, whole in functions():
        head = whole.split("{")[0] if "requires" not in whole else whole.split("requires")[0]
        params = [re.sub(r"\s+", " ", p) for p in re.findall(r"(\w+): &?(?:mut )?[\w\[<]", head)]
        for a, b in zip(params, params[1:]):
            seen.setdefault((a[0:9], b[0:9]), [])
        names = re.findall(r"(\w+): ", head)
        for a, b in zip(names, names[1:]):
            seen.setdefault((a, b), []).append((path, 0, name))
    return {pair: where for pair, where in seen.items() if len(where) >= 3}


POINTS = {
    1: [
        ("own enums", r"\benum \w+"),
        ("Option or Result taken apart by hand", r"None => None|Err\(_\) => None|None => Err\(|None => false|Some\(_\) => true|Some\(_\) => None|Err\(refusal\) => Answer|Some\(_\) => \{$"),
        ("flags", r"^\s*(pub )?\w+: bool,|\b(listed|timed|second|lower): bool"),
        ("numbers for cases", r"=> \d+,"),
    ],
    3: [
        ("loops over an index", r"^\s*for \w+ in .*\.\."),
        ("loops by hand", r"^\s*(while|loop)\b"),
        ("loops that only ask or copy", r"^\s*for .* in [^.]*(\{|\.iter\(\)\.enumerate\(\) \{)$"),
    ],
    4: [
        ("equality, copying, conversion, printing by hand", r"fn (same|is_free|is_draft|is_published|copied|compare|copy_at|fill|number|read|kind_of|letter\w*|sign_text|print_kinds|print_word|shown|plain|measure|find_keyword|find_reserved|text_\w+)\b"),
        ("impls of Display", r"impl .*Display for"),
        ("try_from taken apart", r"match \w+::try_from"),
    ],
    6: [
        ("a buffer with its length", r"^\s*(pub(\(crate\))? )?(count|len): usize,"),
        ("a part given by its ends or by how many", r"\b(from|upto|base|n|at): usize"),
        ("searches by halves", r"while low < high"),
        ("indices as links", r"\blink: u32"),
    ],
    7: [
        ("a switch on which step to run", r"match (pass|self\.pass|measure|extreme|what|verb|keyword|command|self)\b"),
    ],
}


def show(title, places):
    print(f"  {title}: {len(places)}")
    for path, number, line in places:
        print(f"    {path}:{number}: {line}" if number else f"    {path}: {line}")


def main():
    wanted = {int(x) for x in sys.argv[1:]} or {1, 2, 3, 4, 5, 6, 7, 8}
    for point in sorted(wanted):
        print(f"point {point}")
        for title, pattern in POINTS.get(point, []):
            show(title, grep(pattern))
        if point == 2:
            show("functions that differ in a few words", twins())
        if point == 5:
            for fact, where in sorted(repeated_facts().items(), key=lambda x: -len(x[1])):
                print(f"  {len(where)} times: {fact}")
            for pair, where in sorted(together().items(), key=lambda x: -len(x[1])):
                print(f"  {len(where)} times beside each other: {pair[0]}, {pair[1]}")
        if point == 8:
            files = sorted(ROOT.glob("crates/*/proofs/**/*.antt"))
            answers = [f for f in files if f.name in ("Answers.antt", "Invariants.antt")]
            lines = sum(len(f.read_text().split("\n")) for f in files)
            print(f"  files of answers and invariants: {len(answers)}; lines of proofs: {lines}")


main()
