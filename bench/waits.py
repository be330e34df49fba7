#!/usr/bin/env python3
"""How long a guest's writes take inside a merge: by the program's `serve`, and by qemu's live commit.

    waits.py serve PROGRAM CALLS SOURCE     merges SOURCE.vhdx of leaf.vhdx by two workers beside the guests of a script
    waits.py commit CALLS FILE FILE ..      commits the second file, above the first, into it, with the same calls made over NBD on the last
                                            one, which may be the second: FILE is FORMAT:NAME

Prints the merge's seconds and peak memory, and of the guests' writes that were made inside it how many they are, their median, the 99th
percentile and the longest.

Of ours each call is taken from its start to its answer, the wait for its turn within, by probes of the kernel at the start and the return of
the function that makes it (uprobes; root, and the tracing file system). Of qemu each is taken by the client, from before it sends a request
to behind the reply: the way there and back over a Unix socket is within.
"""
import json
import multiprocessing
import os
import pathlib
import re
import socket
import struct
import subprocess
import sys
import time

TRACING = pathlib.Path("/sys/kernel/tracing")

# Each with the start of the name of the function that is probed: a guest's write, a worker's put of a stripe, and the end of the merge.
PROBED = {"call": "guest_io::guest::Guest::write::", "put": "copy_workers::worker::Worker::put::", "finish": "chain_core::layers::Layers::finish::"}
EVENT = re.compile(r"-(\d+)\s+\[\d+\]\s+\S+\s+([\d.]+): (\w+):")


def told(spans):
    """What is told of some calls, each from its start to its end in seconds."""
    lasted = sorted((end - start) * 1e6 for start, end in spans)
    if not lasted:
        return "no write"
    return f"{len(lasted)} writes, median {lasted[len(lasted) // 2]:.0f} us, 99th percentile {lasted[len(lasted) * 99 // 100]:.0f} us, longest {lasted[-1] / 1e3:.1f} ms"


def ended(process):
    """The peak memory of a process, in KB, once it has ended."""
    _, status, used = os.wait4(process.pid, 0)
    process.returncode = os.waitstatus_to_exitcode(status)
    return used.ru_maxrss


def within(spans, start, end):
    """The calls of which a part lies between two moments."""
    return [it for it in spans if it[1] > start and it[0] < end]


# ---- ours


def offset_of(program, name):
    """Where in the program's file the function begins whose name begins so."""
    symbols = subprocess.run(["nm", program], capture_output=True, text=True, check=True).stdout
    address = next(int(line.split(" ", 2)[0], 16) for line in symbols.splitlines() if line[19:].startswith(name))
    segments = subprocess.run(["readelf", "-lW", program], capture_output=True, text=True, check=True).stdout
    for line in segments.splitlines():
        words = line.split()
        if words[:1] == ["LOAD"]:
            offset, begin, _, length = (int(word, 16) for word in words[1:5])
            if begin <= address < begin + length:
                return address - begin + offset
    raise SystemExit(f"{name} isn't in {program}")


class Probes:
    """Probes at the starts and returns of the functions, in a buffer of their own, as long as the block runs."""

    def __init__(self, program):
        if not (TRACING / "uprobe_events").exists():
            subprocess.run(["mount", "-t", "tracefs", "tracefs", TRACING], check=True)
        self.program, self.room = program, TRACING / "instances/waits"

    def tell(self, lines):
        events = os.open(TRACING / "uprobe_events", os.O_WRONLY | os.O_APPEND)
        for line in lines:
            os.write(events, (line + "\n").encode())
        os.close(events)

    def clear(self):
        """Takes the probes away, also those of a run that was stopped."""
        if self.room.exists():
            (self.room / "trace").write_text("")
            if (self.room / "events/waits/enable").exists():
                (self.room / "events/waits/enable").write_text("0")
            self.room.rmdir()
        known = (TRACING / "uprobe_events").read_text().split()
        self.tell(["-" + word[1:] for word in known if word[1:].startswith(":waits/")])

    def __enter__(self):
        self.clear()
        self.room.mkdir()
        for kind, name in PROBED.items():
            at = f"{self.program}:{offset_of(self.program, name):#x}"
            self.tell([f"p:waits/{kind} {at}", f"r:waits/{kind}_end {at}"])
        for file, value in (("buffer_size_kb", "32768"), ("trace_clock", "mono"), ("trace", ""), ("events/waits/enable", "1")):
            (self.room / file).write_text(value)
        return self

    def __exit__(self, *_):
        self.clear()

    def spans(self):
        """The calls of each probed function, from start to end."""
        begun, spans = {}, {kind: [] for kind in PROBED}
        for line in (self.room / "trace").read_text().splitlines():
            found = EVENT.search(line)
            if not found or line.startswith("#"):
                continue
            thread, moment, kind = found[1], float(found[2]), found[3]
            if kind.endswith("_end"):
                spans[kind[:-4]].append((begun.pop((thread, kind[:-4])), moment))
            else:
                begun[thread, kind] = moment
        return spans


def serve(program, calls, source):
    with Probes(os.path.realpath(program)) as probes, open(calls, encoding="ascii") as script, open("told", "wb") as out:
        start = time.monotonic()
        peak = ended(subprocess.Popen([program, "serve", "leaf.vhdx", "--workers", "2", "--merge", f"{source}.vhdx"], stdin=script, stdout=out))
        took = time.monotonic() - start
        spans = probes.spans()
    made = pathlib.Path("told").read_bytes().count(b" = done\n")
    if len(spans["call"]) != made:
        raise SystemExit(f"{made} writes are done, {len(spans['call'])} were seen")
    start, end = min(it[0] for it in spans["put"]), max(it[1] for it in spans["finish"])
    last = max(spans["finish"])
    print(f"{took:.2f} s {peak} KB, {told(within(spans['call'], start, end))}; the turn of the end {1e3 * (last[1] - last[0]):.0f} ms; "
          f"behind it {told([it for it in spans['call'] if it[0] >= end])}")


# ---- qemu's


class Monitor:
    """The daemon's monitor."""

    def __init__(self):
        end = time.monotonic() + 10
        while True:
            try:
                self.socket = socket.socket(socket.AF_UNIX)
                self.socket.connect("qmp.sock")
                break
            except OSError:
                if time.monotonic() > end:
                    raise
                time.sleep(0.05)
        self.lines = self.socket.makefile("r")
        self.lines.readline()
        self.ask("qmp_capabilities")

    def ask(self, command, **arguments):
        self.socket.sendall((json.dumps({"execute": command, "arguments": arguments}) + "\n").encode())

    def wait_for(self, *events):
        """The first of these events, and when it came."""
        while True:
            line = json.loads(self.lines.readline())
            if "error" in line:
                raise SystemExit(str(line["error"]))
            if line.get("event") in events:
                return line["event"], time.monotonic()


def receive(client, count):
    """So many bytes."""
    found = b""
    while len(found) < count:
        more = client.recv(count - len(found))
        if not more:
            raise SystemExit("the daemon hung up")
        found += more
    return found


def connected():
    """A client of the export, of which the daemon waits for requests."""
    client = socket.socket(socket.AF_UNIX)
    client.connect("nbd.sock")
    receive(client, 18)
    client.sendall(struct.pack(">I8sII", 3, b"IHAVEOPT", 1, 3) + b"top")
    receive(client, 10)
    return client


def guest(writes, begun, pipe):
    """Makes the writes, and sends from when to when each was made."""
    client, spans = connected(), []
    pipe.send(None)
    begun.wait()
    for first, count, byte in writes:
        request = struct.pack(">IHHQQI", 0x25609513, 0, 1, 0, 512 * first, 512 * count) + bytes([byte]) * (512 * count)
        start = time.monotonic()
        client.sendall(request)
        answer = receive(client, 16)
        spans.append((start, time.monotonic()))
        if answer[:8] != bytes.fromhex("6744669800000000"):
            raise SystemExit(f"a write failed: {answer}")
    pipe.send(spans)


def guests_of(calls, begun):
    """A process for each guest of the script, with a pipe by which it sends."""
    writes = {}
    with open(calls, encoding="ascii") as script:
        for line in script:
            number, _, first, count, byte = line.split()
            writes.setdefault(number, []).append((int(first), int(count), int(byte, 16)))
    guests = []
    for each in writes.values():
        ours, theirs = multiprocessing.Pipe()
        multiprocessing.Process(target=guest, args=(each, begun, theirs), daemon=True).start()
        ours.recv()
        guests.append(ours)
    return guests


def daemon_of(files):
    """The daemon over a chain of files, from the base on, whose nodes are named from 0 on; the last one is exported."""
    words = ["qemu-storage-daemon"]
    for i, (form, name) in enumerate(it.split(":") for it in files):
        backing = f",backing=node{i - 1}" if i else ""
        words += ["--blockdev", f"driver={form},node-name=node{i}{backing},file.driver=file,file.filename={name}"]
    words += ["--nbd-server", "addr.type=unix,addr.path=nbd.sock", "--export", f"type=nbd,id=disk,node-name=node{len(files) - 1},name=top,writable=on",
              "--chardev", "socket,id=qmp,path=qmp.sock,server=on,wait=off", "--monitor", "chardev=qmp"]
    return subprocess.Popen(words)


def commit(calls, files):
    """Where two files are named the upper one is the top, whose commit is ready once all is copied, and is then to be completed."""
    daemon, monitor, begun = daemon_of(files), Monitor(), multiprocessing.Event()
    guests = guests_of(calls, begun)
    start = time.monotonic()
    monitor.ask("block-commit", **{"job-id": "commit", "device": f"node{len(files) - 1}", "base-node": "node0", "top-node": "node1"})
    begun.set()
    event, end = monitor.wait_for("BLOCK_JOB_READY", "BLOCK_JOB_COMPLETED")
    if event == "BLOCK_JOB_READY":
        spans = sum((it.recv() for it in guests), [])
        monitor.ask("block-job-complete", device="commit")
        event, end = monitor.wait_for("BLOCK_JOB_COMPLETED")
    else:
        spans = sum((it.recv() for it in guests), [])
    daemon.terminate()
    peak = ended(daemon)
    print(f"{end - start:.2f} s {peak} KB, {told(within(spans, start, end))}; behind it {told([it for it in spans if it[0] >= end])}")


if __name__ == "__main__":
    if sys.argv[1:2] == ["serve"] and len(sys.argv) == 5:
        serve(*sys.argv[2:])
    elif sys.argv[1:2] == ["commit"] and len(sys.argv) > 4:
        commit(sys.argv[2], sys.argv[3:])
    else:
        raise SystemExit(__doc__)
