#!/usr/bin/env python3
"""Serves a chain's disk to real clients of the Network Block Device protocol, and compares what they read and write with a file of their own.

    compare/nbd.py PROGRAM

It needs nbdinfo, nbdcopy (libnbd-bin), qemu-io, qemu-img (qemu-utils), mkfs.ext4, e2fsck, debugfs (e2fsprogs) and socat. It works in a new folder, takes
half a minute, and ends with the line 'N passed, M failed'.
"""
import filecmp
import os
import pathlib
import random
import shutil
import subprocess
import sys
import tempfile
import time

MB = 1 << 20
SIZE = 256 * MB
SEED = 7

results = []


def tell(name, is_well, why=""):
    """Notes a row, and says it where it went wrong."""
    results.append(is_well)
    print(f"{'passed' if is_well else 'FAILED'}: {name}{'' if is_well else ': ' + why}", flush=True)


def run(*words, **how):
    """How a program ends."""
    return subprocess.run([str(word) for word in words], capture_output=True, text=True, timeout=300, **how)


class Server:
    """The program behind a socket, for one connection."""

    def __init__(self, program, folder, *words):
        self.socket = folder / "disk.sock"
        self.socket.unlink(missing_ok=True)
        command = " ".join([str(program), "nbd", *words])
        self.run = subprocess.Popen(["socat", f"UNIX-LISTEN:{self.socket}", f"EXEC:{command},nofork"], cwd=folder, stderr=subprocess.PIPE, text=True)
        while not self.socket.exists():
            time.sleep(0.01)

    def uri(self):
        return f"nbd+unix:///?socket={self.socket}"

    def end(self):
        """The status with which the program ended."""
        self.run.communicate(timeout=120)
        return self.run.returncode


def over(program, folder, client, *words):
    """A client's run over the disk, and how the program ended."""
    server = Server(program, folder, *words)
    ran = client(server.uri())
    return ran, server.end()


def make_chain(program, folder, names):
    """A chain of these files, from the base on."""
    made = [run(program, "make", "dynamic", names[0], "--sectors", SIZE // 512, "--block", 1, cwd=folder)]
    for parent, name in zip(names, names[1:]):
        made.append(run(program, "make", "child", name, "--parent", parent, "--block", 1, cwd=folder))
    tell(f"make {' '.join(names)}", all(ran.returncode == 0 for ran in made), str(made))


def random_image(path):
    """A raw image of random bytes, with holes."""
    draw = random.Random(SEED)
    with open(path, "wb") as file:
        file.truncate(SIZE)
        for place in range(0, SIZE, MB):
            if draw.random() < 0.5:
                file.seek(place)
                file.write(draw.randbytes(MB))


def check_info(program, folder):
    ran, status = over(program, folder, lambda uri: run("nbdinfo", "--json", uri), "leaf.vhdx", "--workers", "0")
    well = ran.returncode == 0 and f'"export-size": {SIZE}' in ran.stdout and '"can_fua": true' in ran.stdout and '"can_trim": true' in ran.stdout
    tell("nbdinfo", well and status == 0, f"{status} {ran.stdout} {ran.stderr}")
    ran, status = over(program, folder, lambda uri: run("nbdinfo", "--size", uri.replace("/?", "/leaf.vhdx?")), "leaf.vhdx", "--workers", "0")
    tell("nbdinfo by the name", ran.stdout.strip() == str(SIZE) and status == 0, f"{status} {ran.stdout} {ran.stderr}")
    ran, status = over(program, folder, lambda uri: run("nbdinfo", "--size", uri.replace("/?", "/other?")), "leaf.vhdx", "--workers", "0")
    tell("nbdinfo by another name", ran.returncode != 0 and status == 1, f"{status} {ran.stdout}")


def check_copies(program, folder):
    random_image(folder / "in.raw")
    ran, status = over(program, folder, lambda uri: run("nbdcopy", "--flush", folder / "in.raw", uri), "leaf.vhdx", "--workers", "2", "--merge", "middle.vhdx")
    tell("nbdcopy in, beside the merge of a middle file", ran.returncode == 0 and status == 0, f"{status} {ran.stderr}")
    ran = run(program, "info", "leaf.vhdx", cwd=folder)
    tell("the middle file has left the chain", "middle.vhdx" not in ran.stdout, ran.stdout)
    ran, status = over(program, folder, lambda uri: run("nbdcopy", uri, folder / "out.raw"), "leaf.vhdx", "--workers", "0")
    tell("nbdcopy out", ran.returncode == 0 and status == 0 and filecmp.cmp(folder / "in.raw", folder / "out.raw", shallow=False), f"{status} {ran.stderr}")
    ran, status = over(program, folder, lambda uri: run("qemu-img", "convert", "-f", "raw", "-O", "raw", uri, folder / "copy.raw"), "leaf.vhdx", "--workers", "0")
    tell("qemu-img convert", ran.returncode == 0 and status == 0 and filecmp.cmp(folder / "in.raw", folder / "copy.raw", shallow=False), f"{status} {ran.stderr}")


def check_random(program, folder):
    """Random calls by qemu-io against a model, beside the merge of the leaf."""
    draw, model, calls, wanted = random.Random(SEED), bytearray((folder / "in.raw").read_bytes()), [], []
    for _ in range(300):
        count = 512 * draw.randint(1, 256)
        first = 512 * draw.randint(0, (SIZE - count) // 512)
        kind = draw.choice(["write", "write -f", "discard", "flush", "read"])
        if kind.startswith("write"):
            byte = draw.randint(1, 255)
            calls.append(f"{kind} -P {byte} {first} {count}")
            model[first:first + count] = bytes([byte]) * count
        elif kind == "read":
            byte = draw.randint(1, 255)
            calls.append(f"write -P {byte} {first} {count}")
            calls.append(f"read -P {byte} {first} {count}")
            model[first:first + count] = bytes([byte]) * count
        elif kind == "discard":
            calls.append(f"discard {first} {count}")
            model[first:first + count] = bytes(count)
        else:
            calls.append("flush")
    words = [word for call in calls for word in ("-c", call)]
    ran, status = over(program, folder, lambda uri: run("qemu-io", "-f", "raw", *words, uri), "leaf.vhdx", "--workers", "2", "--merge", "leaf.vhdx")
    tell("qemu-io, 300 random calls, beside the merge of the leaf", ran.returncode == 0 and "fail" not in ran.stdout.lower() and status == 0, f"{status} {ran.stdout[-300:]} {ran.stderr}")
    ran, status = over(program, folder, lambda uri: run("nbdcopy", uri, folder / "out.raw"), "leaf.vhdx", "--workers", "0")
    tell("what they leave", status == 0 and (folder / "out.raw").read_bytes() == model, f"{status} {ran.stderr}")


def check_file_system(program, folder):
    """A file system: made, filled, and checked, in an image; copied in beside a merge, and read back."""
    image, tree = folder / "fs.raw", folder / "tree"
    tree.mkdir()
    draw = random.Random(SEED)
    for number in range(40):
        (tree / f"file{number}").write_bytes(draw.randbytes(draw.randint(0, 2 * MB)))
    make_chain(program, folder, ["base.vhdx", "below.vhdx", "top.vhdx"])
    with open(image, "wb") as file:
        file.truncate(SIZE)
    ran = run("mkfs.ext4", "-q", "-F", "-d", tree, image)
    tell("mkfs.ext4", ran.returncode == 0, ran.stderr)
    ran, status = over(program, folder, lambda uri: run("nbdcopy", "--flush", image, uri), "top.vhdx", "--workers", "2", "--merge", "below.vhdx")
    tell("a file system copied in, beside a merge", ran.returncode == 0 and status == 0, f"{status} {ran.stderr}")
    back = folder / "back.raw"
    ran, status = over(program, folder, lambda uri: run("nbdcopy", uri, back), "top.vhdx", "--workers", "0")
    ran = run("e2fsck", "-f", "-n", back)
    tell("e2fsck of what is read back", ran.returncode == 0 and status == 0, ran.stdout + ran.stderr)
    out = folder / "read"
    out.mkdir()
    run("debugfs", "-R", f"rdump / {out}", back)
    well = all(filecmp.cmp(tree / f"file{number}", out / f"file{number}", shallow=False) for number in range(40))
    tell("each file of it", well)


def main():
    if len(sys.argv) != 2:
        sys.exit(__doc__)
    program = pathlib.Path(sys.argv[1]).resolve()
    missing = [tool for tool in ("nbdinfo", "nbdcopy", "qemu-io", "qemu-img", "mkfs.ext4", "e2fsck", "debugfs", "socat") if shutil.which(tool) is None]
    if missing:
        sys.exit(f"not installed: {', '.join(missing)}")
    folder = pathlib.Path(tempfile.mkdtemp(prefix="nbd", dir=os.environ.get("TMPDIR")))
    try:
        make_chain(program, folder, ["under.vhdx", "middle.vhdx", "leaf.vhdx"])
        for check in (check_info, check_copies, check_random, check_file_system):
            check(program, folder)
    finally:
        shutil.rmtree(folder)
    print(f"{sum(results)} passed, {len(results) - sum(results)} failed")
    sys.exit(0 if all(results) else 1)


if __name__ == "__main__":
    main()
