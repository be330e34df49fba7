#!/usr/bin/env python3
"""Files of qemu-img shown by the program, and files of the program shown by qemu-img and vhdiinfo.

Run by hand; needs the kit, and the packages qemu-utils and libvhdi-utils.
"""
import os
import random
import tempfile

import tools
from tools import Differs, PROGRAM, run, same_disk


def raw_disk(name, megabytes, seed):
    """A raw disk with random bytes in some of its 64 KB, zeros in the others."""
    chance = random.Random(seed)
    with open(name, "wb") as disk:
        for _ in range(megabytes * 16):
            disk.write(chance.randbytes(65_536) if chance.random() < 0.3 else bytes(65_536))


def disks_of_qemu_are_shown():
    raw_disk("raw.img", 40, 1)
    ranges = 0
    kinds = {"dynamic": "subformat=dynamic", "fixed": "subformat=fixed", "small": "subformat=dynamic,block_size=1M"}
    for name, options in kinds.items():
        run("qemu-img", "convert", "-O", "vhdx", "-o", options, "raw.img", f"{name}.vhdx")
        ranges += same_disk(f"{name}.vhdx", "raw.img")
        if " sectors 81920 sector 512 " not in run(PROGRAM, "info", f"{name}.vhdx"):
            raise Differs(f"info {name}.vhdx")
    return f"{len(kinds)} files, {ranges} ranges alike"


def files_of_the_program_are_accepted():
    made = {
        "d1.vhdx": ("dynamic", 2_097_152, 32),
        "d64.vhdx": ("dynamic", 137_438_953_472, 256),
        "f4.vhdx": ("fixed", 8_192, 1),
        "f1.vhdx": ("fixed", 2_097_152, 32),
    }
    for name, (kind, sectors, block) in made.items():
        run(PROGRAM, "make", kind, name, "--sectors", sectors, "--block", block)
        if "No errors were found" not in run("qemu-img", "check", name):
            raise Differs(f"qemu-img check {name}")
        if f"({sectors * 512} bytes)" not in run("qemu-img", "info", name):
            raise Differs(f"qemu-img info {name}")
    run(PROGRAM, "make", "child", "c.vhdx", "--parent", "d1.vhdx")
    said = run("vhdiinfo", "c.vhdx")
    parent = run(PROGRAM, "info", "d1.vhdx").split(" id {")[1].split("}")[0]
    if "Differential" not in said or parent not in said.lower():
        raise Differs(f"vhdiinfo c.vhdx: {said}")
    return f"{len(made)} files and a child"


def what_qemu_writes_is_shown():
    places = {}
    for name, kind in (("w.vhdx", "dynamic"), ("v.vhdx", "fixed")):
        run(PROGRAM, "make", kind, name, "--sectors", 131_072, "--block", 1)
        chance = random.Random(name)
        for _ in range(40):
            place, pattern = chance.randrange(131_072), chance.randrange(1, 256)
            run("qemu-io", "-f", "vhdx", "-c", f"write -P {pattern} {place * 512} 512", name)
            places[name, place] = pattern
    for (name, place), pattern in places.items():
        if tools.dumped(name, place, 1) != bytes([pattern]) * 512:
            raise Differs(f"{name}: sector {place}")
    return f"{len(places)} sectors alike"


if __name__ == "__main__":
    with tempfile.TemporaryDirectory() as work:
        os.chdir(work)
        tools.main([disks_of_qemu_are_shown, files_of_the_program_are_accepted, what_qemu_writes_is_shown])
