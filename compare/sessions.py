#!/usr/bin/env python3
"""Files that `steps` wrote, shown by qemu-img and libvhdi: random scripts over new files and over a chain, beside a disk in memory.

Each read of a script is held against the disk of the calls before it. Run by hand; needs the kit, and the packages qemu-utils and
python3-libvhdi, whose module belongs to the system's own Python.
"""
import os
import random
import subprocess
import tempfile

import pyvhdi

import tools
from tools import Differs, MOST, PROGRAM, SECTOR, run

SECTORS = 65_536


def script(chance, disk, calls):
    """Random calls as a script's lines and as the transcript to come; the disk is changed as they say."""
    lines, told = [], []
    for place in range(1, calls + 1):
        count = chance.choice([1, 2, 7, 128, 2_000, MOST])
        first = chance.randrange(SECTORS - count + 1)
        begin, end = first * SECTOR, (first + count) * SECTOR
        word = chance.choice(["read", "read", "write", "write", "write", "trim", "flush"])
        line, answer = f"{word} {first} {count}", "done"
        if word == "read":
            answer = runs(disk[begin:end])
        elif word == "write":
            byte = chance.randrange(1, 256)
            line = f"{line} {byte:02x}"
            disk[begin:end] = bytes([byte]) * (end - begin)
        elif word == "trim":
            disk[begin:end] = bytes(end - begin)
        else:
            line = word
        lines.append(line)
        told.append(f"{place} {line} = {answer}")
    return "".join(line + "\n" for line in lines), "".join(line + "\n" for line in told)


def runs(data):
    """The bytes of a read as a transcript has them."""
    parts, begin = [], 0
    while begin < len(data):
        rest = data[begin:].lstrip(data[begin:begin + 1])
        parts.append(f"{len(data) - begin - len(rest)}*{data[begin]:02x}")
        begin = len(data) - len(rest)
    return " ".join(parts)


def steps(name, lines):
    """What `steps` prints of a script."""
    done = subprocess.run([PROGRAM, "steps", name], input=lines, capture_output=True, text=True)
    if done.returncode != 0:
        raise Differs(f"steps {name}: status {done.returncode}: {done.stdout[-300:]}")
    return done.stdout


def played(name, chance, disk, calls):
    """Plays random calls over a file and over the disk in memory."""
    lines, told = script(chance, disk, calls)
    if steps(name, lines) != told:
        raise Differs(f"steps {name}: another transcript")


def files_of_scripts_are_shown_by_qemu():
    kinds = {"d1.vhdx": ("dynamic", 1), "d32.vhdx": ("dynamic", 32), "f.vhdx": ("fixed", 2)}
    sessions = 0
    for name, (kind, block) in kinds.items():
        run(PROGRAM, "make", kind, name, "--sectors", SECTORS, "--block", block)
        disk = bytearray(SECTORS * SECTOR)
        for seed in range(4):
            played(name, random.Random(f"{name} {seed}"), disk, 200)
            if "No errors were found" not in run("qemu-img", "check", name):
                raise Differs(f"qemu-img check {name}, session {seed}")
            run("qemu-img", "convert", "-f", "vhdx", "-O", "raw", name, "shown.raw")
            with open("shown.raw", "rb") as shown:
                if shown.read() != disk:
                    raise Differs(f"{name}, session {seed}: qemu shows another disk")
            sessions += 1
    return f"{sessions} sessions over {len(kinds)} files, 200 calls each, checked and read whole"


def chains_of_scripts_are_shown_by_libvhdi():
    run(PROGRAM, "make", "dynamic", "c0.vhdx", "--sectors", SECTORS, "--block", 4)
    disk = bytearray(SECTORS * SECTOR)
    names = ["c0.vhdx"]
    played(names[0], random.Random("base"), disk, 100)
    for block in (2, 8, 1):
        names.insert(0, f"c{len(names)}.vhdx")
        run(PROGRAM, "make", "child", names[0], "--parent", names[1], "--block", block)
        played(names[0], random.Random(block), disk, 100)
        files = [pyvhdi.file() for _ in names]
        for file, name in zip(files, names):
            file.open(name)
        for file, parent in zip(files, files[1:]):
            file.set_parent(parent)
        for place in range(0, len(disk), MOST * SECTOR):
            if files[0].read_buffer_at_offset(MOST * SECTOR, place) != disk[place:place + MOST * SECTOR]:
                raise Differs(f"{names[0]}: libvhdi shows other bytes from {place} on")
        for file in files:
            file.close()
    return "chains of two, three and four files with blocks of 4, 2, 8 and 1 MB, read whole"


if __name__ == "__main__":
    with tempfile.TemporaryDirectory() as work:
        os.chdir(work)
        tools.main([files_of_scripts_are_shown_by_qemu, chains_of_scripts_are_shown_by_libvhdi])
