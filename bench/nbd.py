#!/usr/bin/env python3
"""Times the program's NBD server beside qemu-nbd, over copies of one file, each with one connection.

    bench/nbd.py PROGRAM [MB]

Sequential reads and synced writes go through nbdcopy; reads, writes and forced writes of 4 KB, one at a time, through a client of its own. It needs
nbdcopy (libnbd-bin), qemu-nbd (qemu-utils) and socat. Each line has the best of three runs of both, and the peak memory of the program's.
"""
import os
import pathlib
import random
import shutil
import socket
import struct
import subprocess
import sys
import tempfile
import time

CALLS = 4000


class Server:
    """A server behind a socket, for one connection."""

    def __init__(self, folder, words):
        self.socket = folder / "disk.sock"
        self.socket.unlink(missing_ok=True)
        self.run = subprocess.Popen([str(word) for word in words], cwd=folder, stderr=subprocess.DEVNULL)
        while not self.socket.exists():
            time.sleep(0.005)
        time.sleep(0.1)

    def uri(self):
        return f"nbd+unix:///?socket={self.socket}"

    def end(self):
        self.run.wait(timeout=300)


class Client:
    """One connection, a call at a time."""

    def __init__(self, path):
        self.link = socket.socket(socket.AF_UNIX)
        self.link.connect(str(path))
        self.take(18)
        self.link.sendall(struct.pack(">I8sII", 3, b"IHAVEOPT", 1, 0))
        self.take(10)

    def take(self, count):
        got = bytearray()
        while len(got) < count:
            got += self.link.recv(count - len(got))
        return bytes(got)

    def call(self, kind, flags, place, count, data=b""):
        self.link.sendall(struct.pack(">IHHQQI", 0x25609513, flags, kind, 1, place, count) + data)
        _, error, _ = struct.unpack(">IIQ", self.take(16))
        assert error == 0, error
        return self.take(count) if kind == 0 else b""

    def end(self):
        self.link.sendall(struct.pack(">IHHQQI", 0x25609513, 0, 2, 1, 0, 0))
        self.link.close()


def timed(run):
    begun = time.monotonic()
    run()
    return time.monotonic() - begun


def copy_out(server, folder, size):
    return lambda: subprocess.run(["nbdcopy", "--connections=1", server.uri(), "null:"], check=True)


def copy_in(server, folder, size):
    return lambda: subprocess.run(["nbdcopy", "--connections=1", "--flush", str(folder / "in.raw"), server.uri()], check=True)


def small(kind, flags):
    def job(server, folder, size):
        def calls():
            draw, client, data = random.Random(3), Client(server.socket), bytes(range(256)) * 16 if kind == 1 else b""
            for _ in range(CALLS if flags == 0 else CALLS // 10):
                client.call(kind, flags, 4096 * draw.randrange(size // 4096), 4096, data)
            client.end()
        return calls
    return job


JOBS = [
    ("sequential reads", copy_out),
    ("synced writes", copy_in),
    (f"{CALLS} reads of 4 KB", small(0, 0)),
    (f"{CALLS} writes of 4 KB", small(1, 0)),
    (f"{CALLS // 10} forced writes of 4 KB", small(1, 1)),
]


def main():
    if len(sys.argv) not in (2, 3):
        sys.exit(__doc__)
    program, size = pathlib.Path(sys.argv[1]).resolve(), int(sys.argv[2] if len(sys.argv) == 3 else 512) << 20
    folder = pathlib.Path(tempfile.mkdtemp(prefix="nbd", dir=os.environ.get("TMPDIR")))
    try:
        draw = random.Random(1)
        with open(folder / "in.raw", "wb") as file:
            for _ in range(size >> 20):
                file.write(draw.randbytes(1 << 20))
        subprocess.run([program, "make", "dynamic", "disk.vhdx", "--sectors", str(size // 512), "--block", "1"], cwd=folder, check=True, stdout=subprocess.DEVNULL)
        ours = ["socat", "UNIX-LISTEN:disk.sock", f"EXEC:/usr/bin/env time -a -o peak -f %M {program} nbd disk.vhdx --workers 0,nofork"] if shutil.which("time") else ["socat", "UNIX-LISTEN:disk.sock", f"EXEC:{program} nbd disk.vhdx --workers 0,nofork"]
        qemu = ["qemu-nbd", "-f", "vhdx", "-k", str(folder / "disk.sock"), "disk.vhdx"]
        server = Server(folder, ours)
        copy_in(server, folder, size)()
        server.end()
        for name, job in JOBS:
            best = {}
            for _ in range(3):
                for who, words in (("ours", ours), ("qemu-nbd", qemu)):
                    server = Server(folder, words)
                    took = timed(job(server, folder, size))
                    server.end()
                    best[who] = min(best.get(who, took), took)
            print(f"{name}, {size >> 20} MB: ours {best['ours']:.3f} s, qemu-nbd {best['qemu-nbd']:.3f} s", flush=True)
        if (folder / "peak").exists():
            print(f"peak memory of ours {max(int(line) for line in (folder / 'peak').read_text().split() if line.isdigit()) / 1024:.1f} MB")
    finally:
        shutil.rmtree(folder)


if __name__ == "__main__":
    main()
