#!/usr/bin/env python3
"""Wrong bodies that the contracts refuse, beside those in crates/*/must-fail that the gate tries. They are tried by hand, for the gate's time.

    compare/edits.py             says which of compare/edits/CRATE/*.edit can't be applied to the crates as they are
    compare/edits.py CRATE ..    tries those of these crates with `rt must-fail`, over a copy of the repository
"""
import pathlib
import shutil
import subprocess
import sys
import tempfile

TOP = pathlib.Path(__file__).resolve().parent.parent
EDITS = TOP / "compare" / "edits"


def lost(edit, crate):
    """The texts of an edit that don't stand just once in their file."""
    path, found = None, []
    for line in edit.read_text().split("\n"):
        if line.startswith("file: "):
            path = crate / line[len("file: "):].strip()
        elif line.startswith("old: "):
            old = line[len("old: "):]
            if not path.is_file() or path.read_text().count(old) != 1:
                found.append(old.strip())
    return found


def check():
    status, count = 0, 0
    for edit in sorted(EDITS.glob("*/*.edit")):
        count += 1
        for old in lost(edit, TOP / "crates" / edit.parent.name):
            print(f"{edit.relative_to(TOP)}: not once in its file: {old}")
            status = 1
    print(f"{count} edits beside the gate's")
    return status


def try_all(crates):
    with tempfile.TemporaryDirectory() as room:
        shutil.copytree(TOP, f"{room}/repository", ignore=shutil.ignore_patterns("out", ".git"))
        for crate in crates:
            to = pathlib.Path(room) / "repository" / "crates" / crate / "must-fail"
            shutil.rmtree(to, ignore_errors=True)
            shutil.copytree(EDITS / crate, to)
        return subprocess.run(["rt", "must-fail", *crates], cwd=f"{room}/repository").returncode


if __name__ == "__main__":
    sys.exit(try_all(sys.argv[1:]) if sys.argv[1:] else check())
