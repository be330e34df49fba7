"""What the comparisons share: running the program and other tools in a folder of their own, and comparing disks."""
import os
import pathlib
import subprocess
import sys

TOP = pathlib.Path(__file__).resolve().parent.parent
PROGRAM = os.environ.get("VHDX_PROGRAM", TOP / "vhdx")
SECTOR = 512
MOST = 2048


class Differs(Exception):
    """Two tools say different things of one file."""


def run(*words, status=(0,)):
    """The standard output of a command that is to end with one of these statuses."""
    done = subprocess.run([str(word) for word in words], stdout=subprocess.PIPE, stderr=subprocess.PIPE, errors="replace")
    if done.returncode not in status:
        raise Differs(f"{' '.join(map(str, words))}: status {done.returncode}: {(done.stdout + done.stderr)[-300:]}")
    return done.stdout


def dumped(file, first, count):
    """The bytes of sectors that the program prints of a file."""
    lines = run(PROGRAM, "dump", file, first, count).splitlines()
    if len(lines) != count:
        raise Differs(f"dump {file} {first} {count} prints {len(lines)} lines")
    parts = []
    for number, line in enumerate(lines, first):
        said, digits = line.split(" ")
        if said != str(number):
            raise Differs(f"dump {file}: line of sector {said} where {number} was to come")
        parts.append(bytes.fromhex(digits))
    return b"".join(parts)


def same_disk(file, raw, step=MOST):
    """Compares each range of the disk that the program shows of a file with the bytes of a raw disk; gives how many ranges."""
    sectors = os.path.getsize(raw) // SECTOR
    ranges = 0
    with open(raw, "rb") as disk:
        for first in range(0, sectors, step):
            count = min(step, sectors - first)
            if dumped(file, first, count) != disk.read(count * SECTOR):
                raise Differs(f"{file}: sectors {first} to {first + count - 1} differ from {raw}")
            ranges += 1
    return ranges


def main(checks):
    """Runs each check, says what it found, and ends with status 1 where two tools differ."""
    run(PROGRAM, "--version")
    for check in checks:
        try:
            print(f"{check.__name__.replace('_', ' ')}: {check()}", flush=True)
        except Differs as why:
            print(f"{check.__name__.replace('_', ' ')}: DIFFERS: {why}", flush=True)
            sys.exit(1)
