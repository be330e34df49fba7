#!/usr/bin/env python3
"""`check` and `repair` of the program beside `qemu-img check`: sound files are clean by both, what qemu finds is found, and what it misses.

Run by hand; needs the package qemu-utils. The program is the repository's, or the one that the environment's VHDX_PROGRAM names.
"""
import os
import random
import shutil
import struct
import subprocess
import tempfile

import model
import tools
from files import raw_disk
from tools import Differs, PROGRAM, run

MB = 1 << 20
HEADERS = 65_536, 131_072
REGION_TABLES = 196_608, 262_144
SECTORS = 131_072
TABLE, _ = model.REGIONS


def findings(file):
    """The lines that `check` prints of a file, without the word that each begins with; none where it is clean."""
    done = subprocess.run([PROGRAM, "check", file], stdout=subprocess.PIPE, text=True)
    lines = done.stdout.splitlines()
    if (lines == ["clean"]) != (done.returncode == 0) or done.returncode not in (0, 5):
        raise Differs(f"check {file}: status {done.returncode}: {done.stdout}")
    return [] if lines == ["clean"] else [line.removeprefix("finding ") for line in lines]


def is_sound_to_qemu(file):
    """Whether qemu-img finds no error."""
    done = subprocess.run(["qemu-img", "check", "-q", "-f", "vhdx", file], stdout=subprocess.PIPE, stderr=subprocess.PIPE)
    if done.returncode not in (0, 2):
        raise Differs(f"qemu-img check {file}: status {done.returncode}: {done.stderr.decode()}")
    return done.returncode == 0


def is_clean(file, of_qemu=True):
    found = findings(file)
    if found or of_qemu and not is_sound_to_qemu(file):
        raise Differs(f"{file}: {found or 'clean, and not by qemu'}")


def expect(file, found, sound):
    """These lines and no others, of a file that qemu takes for sound or doesn't."""
    said = findings(file)
    if said != found or is_sound_to_qemu(file) != sound:
        raise Differs(f"{file}: {said} in place of {found}; to qemu {'unsound' if sound else 'sound'}")


def steps(file, text, *words):
    with open("script", "w") as script:
        script.write(text)
    with open("script") as script:
        done = subprocess.run([PROGRAM, "steps", file, *words], stdin=script, stdout=subprocess.PIPE)
    if done.returncode:
        raise Differs(f"steps {file}: status {done.returncode}")


def written(file, seed):
    """Random writes of qemu to a file of SECTORS sectors."""
    chance = random.Random(seed)
    for _ in range(20):
        at, pattern = chance.randrange(SECTORS - 256), chance.randrange(1, 256)
        run("qemu-io", "-f", "vhdx", "-c", f"write -q -P {pattern} {at * 512} {chance.randrange(1, 256) * 512}", file)


# Sound files.

def files_of_qemu_are_clean():
    raw_disk("raw.img", 40, 2)
    kinds = {"dynamic": "subformat=dynamic", "fixed": "subformat=fixed", "small": "subformat=dynamic,block_size=1M", "large": "subformat=dynamic,block_size=256M"}
    for name, options in kinds.items():
        run("qemu-img", "convert", "-O", "vhdx", "-o", options, "raw.img", f"{name}.vhdx")
        is_clean(f"{name}.vhdx")
    return f"{len(kinds)} files"


def files_of_the_program_are_clean():
    made = {"a.vhdx": ("dynamic", 1), "b.vhdx": ("dynamic", 32), "f.vhdx": ("fixed", 1)}
    for name, (kind, block) in made.items():
        run(PROGRAM, "make", kind, name, "--sectors", SECTORS, "--block", block)
        is_clean(name)
        written(name, name)
        is_clean(name)
        chance = random.Random(name)
        lines = [f"write {chance.randrange(SECTORS - 2048)} {chance.randrange(1, 2048)} {chance.randrange(256):02x}\n" for _ in range(40)]
        steps(name, "".join(lines) + "trim 0 4096\nflush\n")
        is_clean(name)
    return f"{len(made)} files, as made, written by qemu, and by a session"


def chains_are_clean():
    files = ["base.vhdx", "middle.vhdx", "leaf.vhdx"]
    run(PROGRAM, "make", "dynamic", files[0], "--sectors", SECTORS, "--block", 1)
    for parent, child in zip(files, files[1:]):
        run(PROGRAM, "make", "child", child, "--parent", parent)
        steps(child, "".join(f"write {number * 3000} 100 {number:02x}\n" for number in range(1, 40)) + "flush\n")
    for name in files:
        is_clean(name, name == files[0])
    steps("leaf.vhdx", "copy\nfinish\n", "--merge", "middle.vhdx")
    for name in ("base.vhdx", "leaf.vhdx"):
        is_clean(name, name == files[0])
    steps("leaf.vhdx", "copy\nfinish\n", "--merge", "leaf.vhdx")
    is_clean("base.vhdx")
    return f"{len(files)} files of a chain, and what a merge of the middle file and one of the leaf leave"


# Damaged ones.

def table_at(file):
    """Where the block allocation table begins."""
    with open(file, "rb") as image:
        image.seek(REGION_TABLES[0])
        table = image.read(65_536)
    for index in range(struct.unpack_from("<I", table, 8)[0]):
        id_, at = struct.unpack_from("<16sQ", table, 16 + 32 * index)
        if id_ == TABLE:
            return at
    raise Differs(f"{file} has no table")


def damaged(source, file, places):
    """A copy of a file with these bytes at these places."""
    shutil.copyfile(source, file)
    with open(file, "r+b") as image:
        for at, data in places.items():
            image.seek(at)
            image.write(data)
    return file


def entry(megabyte, state):
    return struct.pack("<Q", megabyte << 20 | state)


def full_file():
    """A dynamic file with blocks of 1 MB of which the first six are there, in order, behind one another; its table, and the first block's place."""
    if os.path.exists("full.vhdx"):
        os.remove("full.vhdx")
    run(PROGRAM, "make", "dynamic", "full.vhdx", "--sectors", SECTORS, "--block", 1)
    steps("full.vhdx", "".join(f"write {2048 * block} 2048 {block + 1:02x}\n" for block in range(6)) + "flush\n")
    bat = table_at("full.vhdx")
    with open("full.vhdx", "rb") as image:
        image.seek(bat)
        return bat, struct.unpack("<Q", image.read(8))[0] >> 20


def blocks_out_of_place_are_found():
    """qemu's check looks for those past the end and over a region alone."""
    bat, _ = full_file()
    expect(damaged("full.vhdx", "end.vhdx", {bat + 8: entry(bat // MB, 6)}), ["16 BlockPlace end.vhdx index 1"], False)
    end, chance, files = os.path.getsize("full.vhdx") // MB, random.Random(5), 30
    for _ in range(files):
        indices = sorted(chance.sample(range(60), chance.randint(1, 4)))
        units = chance.sample((end, end + 1, end + 2, *(end + 3 + chance.getrandbits(42) for _ in range(9))), len(indices))
        places = {bat + 8 * index: entry(unit, 6) for index, unit in zip(indices, units)}
        expect(damaged("full.vhdx", "end.vhdx", places), [f"16 BlockPlace end.vhdx index {index}" for index in indices], False)
    return f"{files + 1} files"


def what_qemu_misses_is_found():
    bat, first = full_file()
    rows = {
        "two blocks in one place": ({bat: entry(first + 1, 6)}, ["17 BlockOverlap m.vhdx index 0 and 1"]),
        "three blocks in one place": ({bat: entry(first + 2, 6), bat + 8: entry(first + 2, 6)},
                                      [f"17 BlockOverlap m.vhdx index {pair}" for pair in ("0 and 1", "0 and 2", "1 and 2")]),
        "a block in the header section": ({bat: entry(0, 6)}, ["16 BlockPlace m.vhdx index 0"]),
        "a state that is reserved": ({bat + 16: entry(first + 2, 4)}, ["15 BadBatState m.vhdx index 2"]),
        "a partial block of a file without a parent": ({bat + 16: entry(first + 2, 7)}, ["15 BadBatState m.vhdx index 2"]),
        "a header copy": ({HEADERS[1] + 100: b"\1"}, ["28 HeaderCopy m.vhdx copy 2"]),
        "a region table copy": ({REGION_TABLES[1] + 100: b"\1"}, ["29 RegionCopy m.vhdx copy 2"]),
    }
    for what, (places, found) in rows.items():
        try:
            expect(damaged("full.vhdx", "m.vhdx", places), found, True)
        except Differs as why:
            raise Differs(f"{what}: {why}")
    return f"{len(rows)} kinds of damage"


def what_is_repaired_is_clean():
    full_file()
    places = {"copy 1": {HEADERS[0] + 9: b"\5"}, "copy 2": {HEADERS[1] + 9: b"\5"}, "the second table": {REGION_TABLES[1] + 5: b"\5"},
              "a copy and a table": {HEADERS[0] + 4: b"\0\0", REGION_TABLES[1] + 5: b"\5"}}
    for what, bytes_ in places.items():
        damaged("full.vhdx", "r.vhdx", bytes_)
        if not findings("r.vhdx"):
            raise Differs(f"{what}: no finding")
        run(PROGRAM, "repair", "r.vhdx")
        is_clean("r.vhdx")
        if "Images are identical" not in run("qemu-img", "compare", "-f", "vhdx", "-F", "vhdx", "full.vhdx", "r.vhdx"):
            raise Differs(f"{what}: another disk")
    return f"{len(places)} files, whose disks stay to qemu"


if __name__ == "__main__":
    with tempfile.TemporaryDirectory() as work:
        os.chdir(work)
        tools.main([files_of_qemu_are_clean, files_of_the_program_are_clean, chains_are_clean, blocks_out_of_place_are_found,
                    what_qemu_misses_is_found, what_is_repaired_is_clean])
