#!/usr/bin/env python3
"""Counts the lines of each crate that aren't blank, and its must-fail edits.

    docs/lines.py           prints the table of docs/MAP.md's last columns
    docs/lines.py --write   writes the counts into docs/MAP.md, and leaves the check times
    docs/lines.py --check   fails where a count there is another one
"""
import pathlib
import re
import sys

TOP = pathlib.Path(__file__).resolve().parent.parent
MAP = TOP / "docs" / "MAP.md"


def lines(folder, suffix):
    return sum(1 for file in folder.rglob("*" + suffix) for line in file.read_text().split("\n") if line.strip())


def counts(crate):
    sizes = [lines(crate / "src", ".rt"), lines(crate / "specs", ".antt"), lines(crate / "proofs", ".antt")]
    edits = len(list((crate / "must-fail").glob("*.edit")))
    return " / ".join(f"{size:,}" for size in sizes), edits, sum(sizes)


def main():
    text, total, status = MAP.read_text(), 0, 0
    for crate in sorted((TOP / "crates").iterdir()):
        sizes, edits, all_lines = counts(crate)
        total += all_lines
        if len(sys.argv) == 1:
            print(f"{crate.name}: {sizes}, {edits} edits")
        row = re.search(rf"^(\| `{crate.name}` \|.*\|) ([\d,]+ / [\d,]+ / [\d,]+) \| (\d+)(.*)$", text, re.M)
        if row is None:
            print(f"docs/MAP.md has no row of {crate.name}")
            status = 1
        elif (row.group(2), row.group(3)) != (sizes, str(edits)):
            if "--write" in sys.argv:
                text = text[:row.start()] + f"{row.group(1)} {sizes} | {edits}{row.group(4)}" + text[row.end():]
            elif "--check" in sys.argv:
                print(f"{crate.name}: {sizes}, {edits} edits; docs/MAP.md says {row.group(2)}, {row.group(3)}")
                status = 1
    if "--write" in sys.argv:
        MAP.write_text(text)
    print(f"{total:,} lines in all")
    return status


if __name__ == "__main__":
    sys.exit(main())
