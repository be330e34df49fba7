#!/usr/bin/env python3
"""Runs the whole `rt ci` from nothing, as on a fresh machine, and sums the processor time of its checks by crate and kind: proof, tests, edits.

    bench/gate.py

Run it alone on the machine, at the top of a clean clone. The output of `rt ci` goes to gate.log beside the table on standard output.
Checks that others run meanwhile are not counted, but make those of the run slower.
"""
import collections
import os
import pathlib
import shutil
import subprocess
import sys
import time

TICKS = os.sysconf("SC_CLK_TCK")


def fields_of(pid):
    """The fields of a process's status behind its name: its parent is the second."""
    return (pathlib.Path("/proc") / pid / "stat").read_text().rsplit(")", 1)[1].split()


def is_below(pid, run):
    """Whether a process was started by the run, or by one that was."""
    while pid not in ("0", "1", run):
        pid = fields_of(pid)[1]
    return pid == run


def look(pid, run):
    """The crate, kind and processor seconds of a process of the run that checks or builds a crate; None of any other."""
    try:
        place = pathlib.Path("/proc") / pid
        words = (place / "cmdline").read_bytes().decode(errors="replace").split("\0")
        if not words[0].endswith("/rattle") or "--crate-name" not in words or not is_below(pid, run):
            return None
        fields = fields_of(pid)
        crate = words[words.index("--crate-name") + 1]
        if os.readlink(place / "cwd").startswith("/tmp/rt-edit-"):
            kind = "edits"
        else:
            kind = "tests" if "--test" in words else "proof"
        return crate, kind, (int(fields[11]) + int(fields[12])) / TICKS, fields[19]
    except (OSError, IndexError, ValueError):
        return None


def gate():
    """The words of a run from nothing: of some kits `rt ci` takes up what earlier runs proved unless it is told not to, of others it never does."""
    text = pathlib.Path(shutil.which("rt")).resolve().read_text(encoding="utf-8")
    return ["rt", "ci", "--anew"] if "--anew" in text else ["rt", "ci"]


def main():
    spent, begun = {}, time.time()
    with open("gate.log", "w", encoding="utf-8") as log:
        run = subprocess.Popen(gate(), stdout=log, stderr=subprocess.STDOUT)
        while run.poll() is None:
            for pid in filter(str.isdigit, os.listdir("/proc")):
                found = look(pid, str(run.pid))
                if found:
                    crate, kind, seconds, start = found
                    spent[pid, start] = (crate, kind, seconds)
            time.sleep(0.25)
    table = collections.defaultdict(lambda: collections.Counter())
    for crate, kind, seconds in spent.values():
        table[crate][kind] += seconds
    kinds = ["proof", "tests", "edits"]
    print("| Crate | " + " | ".join(kinds) + " | all |\n|---|---|---|---|---|")
    for crate in sorted(table, key=lambda name: -sum(table[name].values())):
        row = [table[crate][kind] for kind in kinds]
        print(f"| `{crate}` | " + " | ".join(f"{seconds:.0f}" for seconds in [*row, sum(row)]) + " |")
    sums = [sum(counts[kind] for counts in table.values()) for kind in kinds]
    print("| all, in seconds | " + " | ".join(f"{seconds:.0f}" for seconds in [*sums, sum(sums)]) + " |")
    print(f"{(time.time() - begun) / 60:.0f} minutes, {sum(sums) / 60:.0f} processor minutes; {open('gate.log').read().splitlines()[-1]}")
    return run.returncode


if __name__ == "__main__":
    sys.exit(main())
