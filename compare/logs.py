#!/usr/bin/env python3
"""Files whose log holds something unapplied: qemu is stopped while it writes, and the program has to show what qemu shows.

Of each file as it was when qemu was stopped, the program replays one copy and qemu repairs another; both then show one disk.
Run by hand; needs the kit and the package qemu-utils.
"""
import os
import pathlib
import random
import shutil
import subprocess
import tempfile
import time

import tools
from tools import Differs, PROGRAM, run, same_disk


def names_a_log(file):
    """Whether the current header of a file names a log."""
    with open(file, "rb") as bytes_of:
        head = bytes_of.read(196_608)
    copies = [head[at:at + 4096] for at in (65_536, 131_072) if head[at:at + 4] == b"head"]
    newest = max(copies, key=lambda copy: int.from_bytes(copy[8:16], "little"))
    return any(newest[48:64])


def stopped(name, seed):
    """A file of 256 MB into which qemu wrote new blocks until it was killed."""
    run(PROGRAM, "make", "dynamic", name, "--sectors", 524_288, "--block", 1)
    chance = random.Random(seed)
    words = []
    for _ in range(200):
        words.append(f"write -P {chance.randrange(1, 256)} {chance.randrange(256) * 1_048_576 + chance.randrange(2_000) * 512} 4096")
    process = subprocess.Popen(["qemu-io", "-f", "vhdx", "-t", "writethrough", name], stdin=subprocess.PIPE, stdout=subprocess.DEVNULL)
    process.stdin.write(("\n".join(words) + "\n").encode())
    process.stdin.flush()
    time.sleep(chance.random() * 0.15)
    process.kill()
    process.wait()


def files_of_a_stopped_qemu():
    with_log = 0
    for seed in range(20):
        pathlib.Path("k.vhdx").unlink(missing_ok=True)
        stopped("k.vhdx", seed)
        with_log += names_a_log("k.vhdx")
        shutil.copy("k.vhdx", "ours.vhdx")
        shutil.copy("k.vhdx", "theirs.vhdx")
        run("qemu-img", "check", "-r", "all", "theirs.vhdx", status=(0, 1, 2, 3))
        run("qemu-img", "convert", "-f", "vhdx", "-O", "raw", "theirs.vhdx", "theirs.raw")
        same_disk("ours.vhdx", "theirs.raw")
        run("qemu-img", "check", "-r", "all", "ours.vhdx", status=(0, 1, 2, 3))
        run("qemu-img", "convert", "-f", "vhdx", "-O", "raw", "ours.vhdx", "ours.raw")
        if open("ours.raw", "rb").read() != open("theirs.raw", "rb").read():
            raise Differs(f"seed {seed}: qemu shows another disk of the file that the program replayed")
    return f"20 files, {with_log} with a log named, all alike"


if __name__ == "__main__":
    with tempfile.TemporaryDirectory() as work:
        os.chdir(work)
        tools.main([files_of_a_stopped_qemu])
