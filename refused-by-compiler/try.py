#!/usr/bin/env python3
"""Applies each edit of this folder to a copy of the repository, and sees that the compiler ends with the error that it names.

A crate is compiled without any proof (`rt try`), so what is refused is refused before any proof.
Each crate is compiled and run without an edit first, so that an error can only come from the edit."""
import pathlib
import shutil
import subprocess
import sys
import tempfile

FOLDER = pathlib.Path(__file__).resolve().parent
ROOT = FOLDER.parent


def compile_crate(copy, crate):
    """Whether the crate compiles, and what was said."""
    run = subprocess.run(["rt", "try"], cwd=copy / "crates" / crate, stdin=subprocess.DEVNULL, capture_output=True, text=True)
    said = run.stdout + run.stderr
    return "run=ended" in said, said


def refused(edit, copy, whole):
    part = dict(line.split(": ", 1) for line in edit.read_text().strip().split("\n"))
    path = copy / "crates" / part["crate"] / part["file"]
    text = path.read_text()
    if text.count(part["old"]) != 1:
        print(f"{edit.name}: the old text does not stand once in {path}")
        return False
    if part["crate"] not in whole:
        whole[part["crate"]] = compile_crate(copy, part["crate"])
    compiles, said = whole[part["crate"]]
    if not compiles:
        print(f"{edit.name}: {part['crate']} does not compile without the edit\n{said}")
        return False
    path.write_text(text.replace(part["old"], part["new"]))
    compiles, said = compile_crate(copy, part["crate"])
    path.write_text(text)
    right = not compiles and f"error[{part['error']}]" in said
    print(f"{edit.name}: {'refused by' if right else 'NOT refused by'} {part['error']}", flush=True)
    if not right:
        print(said)
    return right


def main():
    with tempfile.TemporaryDirectory() as folder:
        copy = pathlib.Path(folder) / "copy"
        shutil.copytree(ROOT / "crates", copy / "crates", ignore=shutil.ignore_patterns("out"))
        shutil.copy(ROOT / "crates.txt", copy / "crates.txt")
        whole = {}
        return all([refused(edit, copy, whole) for edit in sorted(FOLDER.glob("*.edit"))])


if __name__ == "__main__":
    sys.exit(0 if main() else 1)
