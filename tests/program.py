#!/usr/bin/env python3
"""Runs the built program over real files, as a person would, and compares what it prints and leaves.

    tests/program.py PROGRAM

Each block of README.md and docs/USE.md that shows a command is run, in order, and prints what stands there, but for identifiers. Then come
statuses and texts, files that can't be read or written, a disk that is full, runs that are killed, two runs at once over one chain, 20
generated loads, and clients of the Network Block Device protocol. It works in a new folder, takes about a minute, and ends with the line 'N passed, M failed'.
"""
import contextlib
import os
import pathlib
import random
import re
import resource
import shutil
import signal
import struct
import subprocess
import sys
import tempfile
import threading

TOP = pathlib.Path(__file__).resolve().parent.parent
sys.path.insert(0, str(TOP / "compare"))
import loads
ID = re.compile(r"\{[0-9a-f]{8}(-[0-9a-f]{4}){3}-[0-9a-f]{12}\}")
SECTORS = 2097152
ROUNDS = 100

results = []


def tell(name, is_well, why=""):
    """Notes a row, and says it where it went wrong."""
    results.append(is_well)
    if not is_well:
        print(f"FAILED: {name}: {why}", flush=True)


class Folder:
    """A folder in which the program is run."""

    def __init__(self, program, path, words=()):
        self.program, self.path, self.before = str(program), pathlib.Path(path), list(words)

    def start(self, *words, **how):
        """The program, started with these words."""
        pipes = {"stdin": subprocess.PIPE, "stdout": subprocess.PIPE, "stderr": subprocess.PIPE, "text": True}
        return subprocess.Popen([*self.before, self.program, *words], cwd=self.path, **{**pipes, **how})

    def run(self, *words, script="", **how):
        """How the program ends with these words and this on its standard input: its status, standard output and standard error."""
        with self.start(*words, **how) as run:
            out, err = run.communicate(script, timeout=60)
            return run.returncode, out, err

    def check(self, name, words, status, out, err="", script="", **how):
        """A run that has to end so. The end of what stands on standard error is looked at alone."""
        found = self.run(*words, script=script, **how)
        tell(name, found[:2] == (status, out) and found[2].endswith(err) and bool(found[2]) == bool(err), repr(found))

    def make(self, *words):
        status, out, err = self.run("make", *words)
        if status:
            raise SystemExit(f"make {words}: {status} {out}{err}")

    def chain(self, more=""):
        """A base of 1 GB, its child, in whose fifth sector 22 stands, and where these calls were made, and the child of that."""
        for old in self.path.glob("*.vhdx"):
            old.unlink()
        self.make("dynamic", "b.vhdx", "--sectors", str(SECTORS))
        self.make("child", "m.vhdx", "--parent", "b.vhdx")
        self.run("steps", "m.vhdx", script="write 5 1 22\n" + more)
        self.make("child", "c.vhdx", "--parent", "m.vhdx")

    def byte(self, leaf, sector):
        """The first byte of a sector, as a dump shows it."""
        status, out, err = self.run("dump", leaf, str(sector), "1")
        return out.split()[1][:2] if status == 0 else f"{status} {out}{err}"


# ---- the documents


def blocks_of(document):
    """The commands that a document shows, each with what it prints."""
    shown = []
    for line in document.read_text(encoding="utf-8").split("\n"):
        if line.startswith("    $ "):
            shown.append((line[6:], []))
        elif line.startswith("    ") and shown and shown[-1] is not None:
            shown[-1][1].append(line[4:])
        elif shown and shown[-1] is not None:
            shown.append(None)
    return [it for it in shown if it]


def is_alike(shown, printed):
    """Whether a line is the one that is shown, whatever identifiers it has; behind `..` anything may stand."""
    shown, printed = ID.sub("{}", shown), ID.sub("{}", printed)
    return printed.startswith(shown[:-2]) if shown.endswith("..") else printed == shown


def by_guest(lines):
    """The lines of a transcript of several guests, without their places: each guest's in its order."""
    return sorted((line.split(" ", 1)[1] for line in lines), key=lambda line: line.split(" ")[0])


def check_documents(program, room):
    """Runs what README.md and docs/USE.md show, each in a folder of its own."""
    for name in ("README.md", "docs/USE.md"):
        folder = Folder(program, room / pathlib.Path(name).stem)
        folder.path.mkdir()
        for command, wanted in blocks_of(TOP / name):
            line = command.replace("/path/to/repository/vhdx", folder.program)
            ran = subprocess.run(["bash", "-c", line], cwd=folder.path, capture_output=True, text=True, timeout=60)
            printed = ran.stdout.split("\n")[:-1]
            if "vhdx serve " in command:
                wanted, printed = by_guest(wanted), by_guest(printed)
            well = len(printed) == len(wanted) and all(is_alike(*pair) for pair in zip(wanted, printed))
            tell(f"{name}: {command}", well, f"{ran.stdout}{ran.stderr}")


# ---- statuses and texts


def check_words(folder):
    usage = folder.run("--help")[1]
    for words in ([], ["dump"], ["dumb", "b.vhdx"], ["dump", "b.vhdx", "00", "1"], ["dump", "a/b.vhdx", "0", "1"], ["make", "child", "x.vhdx"]):
        folder.check(f"words {words}", words, 2, "", usage)
    folder.check("a word that isn't UTF-8", [b"dump", b"\xff", b"0", b"1"], 2, "", usage)
    folder.check("a broken line", ["steps", "none.vhdx"], 2, "line 2\n", "", "flush\nwrite 0 1 g1\n")
    folder.check("a comment behind a line", ["steps", "none.vhdx"], 2, "line 1\n", "", "flush # now\n")
    folder.check("a missing file", ["info", "none.vhdx"], 1, "refused 21 FileMissing none.vhdx\n")
    tell("help", folder.run("--help")[0] == 0 and "steps LEAF" in usage, usage)


def check_faults(folder):
    (folder.path / "folder.vhdx").mkdir()
    folder.check("a folder", ["info", "folder.vhdx"], 3, "fault host 1\n", "directory (os error 21)\n")
    (folder.path / "folder.vhdx").rmdir()
    folder.chain()
    with folder.start("steps", "c.vhdx") as run:
        # it reads its script first: no file is open yet
        folder.check("a file that no run has open", ["info", "c.vhdx"], 0, folder.run("info", "c.vhdx")[1])
        run.communicate("")
    with open("/dev/full", "w", encoding="utf-8") as full:
        folder.check("no room for what is printed", ["info", "c.vhdx"], 3, None, "No space left on device (os error 28)\n", stdout=full)


def check_denied(program, room):
    """A file that may not be written is read, and a write to it is a fault; as another user where this one is root."""
    path = room / "denied"
    path.mkdir()
    words = ["setpriv", "--reuid=65534", "--regid=65534", "--clear-groups"] if os.geteuid() == 0 else []
    Folder(program, path).chain()
    for file in path.glob("*.vhdx"):
        file.chmod(0o444)
    path.chmod(0o755)
    folder = Folder(program, path, words)
    status, out, _ = folder.run("info", "c.vhdx")
    tell("info of a file that may not be written", status == 0 and len(out.split("\n")) == 4, out)
    folder.check("a call on it", ["steps", "c.vhdx", "--read-only"], 0, "1 read 5 1 = 512*22\n", "", "read 5 1\n")
    found = folder.run("steps", "c.vhdx", script="write 0 1 aa\n")
    tell("a session on it", found[:2] == (3, "fault store 1\n") and "c.vhdx: Bad file descriptor" in found[2], repr(found))


def limited(most):
    """Lets a run's files grow to so many bytes, as where a disk is full."""
    def limit():
        signal.signal(signal.SIGXFSZ, signal.SIG_IGN)
        resource.setrlimit(resource.RLIMIT_FSIZE, (most, most))
    return limit


def check_full_disk(folder):
    folder.chain()
    how = {"preexec_fn": limited(6291456), "restore_signals": False}
    script = "write 0 1 aa\nflush\nwrite 1048576 1 bb\nread 0 1\n"
    status, out, err = folder.run("steps", "c.vhdx", script=script, **how)
    wanted = "- write 0 1 aa = refused 35 Broken c.vhdx count 1\n- flush = refused 35 Broken c.vhdx count 1\n"
    tell("a full disk", status == 3 and out.startswith(wanted) and "c.vhdx: File too large" in err, f"{status} {out}{err}")
    tell("what it leaves", folder.byte("c.vhdx", 5) == "22", folder.byte("c.vhdx", 5))
    folder.check("and goes on from", ["steps", "c.vhdx"], 0, "1 write 0 1 aa = done\n", "", "write 0 1 aa\n")


# ---- stops, and two runs at once


def check_stops(folder, words, script):
    """A merge that is killed somewhere, again and again, until it comes to its end: the disk is the same each time."""
    folder.chain("".join(f"write {2048 * i} 8 {i:02x}\n" for i in range(1, 256)))
    for i in range(8):
        run = folder.start(*words, "--merge", "m.vhdx")
        timer = threading.Timer(random.uniform(0.001, 0.02), run.kill)
        timer.start()
        run.communicate(script)
        timer.cancel()
        found = [folder.byte("c.vhdx", sector) for sector in (5, 2048, 2048 * 255)]
        tell(f"{words[0]}, behind stop {i}", found == ["22", "01", "ff"], repr(found))
    status = folder.run(*words, "--merge", "m.vhdx", script=script)
    tell(f"{words[0]}, the merge's end", status[0] == 0 or "refused 40" in status[1], repr(status))
    tell("and its disk", folder.byte("c.vhdx", 2048 * 255) == "ff")


def check_workers(folder, workers):
    """Guests that write a part each of a disk whose middle file, or leaf, workers copy meanwhile: each part has its last writes."""
    for source in ("m.vhdx", "c.vhdx"):
        folder.chain("".join(f"write {2048 * i} 8 {i:02x}\n" for i in range(1, 256)))
        script = "".join(f"{i % 4 + 1} write {2048 * (i % 128) + 8 * (i % 4)} 8 {i % 251:02x}\n" for i in range(512))
        status, out, err = folder.run("serve", "c.vhdx", "--workers", str(workers), "--merge", source, script=script)
        places = sorted(int(line.split(" ")[0]) for line in out.split("\n")[:-1])
        name = f"{workers} workers over {source}"
        tell(f"{name}: all calls are done", status == 0 and places == list(range(1, 513)), f"{status} {out[:200]}{err}")
        found = [folder.byte("c.vhdx", 2048 * (i % 128) + 8 * (i % 4)) for i in range(384, 512, 7)]
        tell(f"{name}: each guest's last writes", found == [f"{i % 251:02x}" for i in range(384, 512, 7)], repr(found))
        tell(f"{name}: what no guest wrote", folder.byte("c.vhdx", 2048 * 255) == "ff")
        chain = folder.run("info", "c.vhdx")[1]
        tell(f"{name}: the source has left the chain", "retired c.vhdx" in chain if source == "c.vhdx" else "m.vhdx" not in chain, chain)


def both(folder, one, other):
    """Two runs at once, each of words and a script: how they ended."""
    ends = [None, None]

    def end(i, words, script):
        ends[i] = folder.run(*words, script=script)

    threads = [threading.Thread(target=end, args=(i, *it)) for i, it in enumerate((one, other))]
    random.shuffle(threads)
    for it in threads:
        it.start()
    for it in threads:
        it.join()
    return ends


def is_kept_out(end):
    """Whether a run found a file of the chain in another's hands, and did nothing."""
    return end[0] == 3 and end[1] == "fault host 1\n" and "another run has it open" in end[2]


def check_pairs(folder):
    """Each pair of commands at once over one chain, again and again: a run is done as if alone, or is kept out; what is acknowledged stays."""
    write = (["steps", "c.vhdx"], "write 7 1 aa\nflush\n")
    pairs = {
        "two writers": (write, (["steps", "c.vhdx"], "write 9 1 bb\nflush\n")),
        "a writer and a merge of the leaf": (write, (["steps", "c.vhdx", "--merge", "c.vhdx"], "copy\nfinish\n")),
        "a writer and a merge inside": (write, (["steps", "c.vhdx", "--merge", "m.vhdx"], "copy\nfinish\n")),
        "a dump and a merge of the leaf": ((["dump", "c.vhdx", "5", "1"], ""), (["steps", "c.vhdx", "--merge", "c.vhdx"], "copy\nfinish\n")),
    }
    for name, (one, other) in pairs.items():
        folder.chain()
        kept = [f.read_bytes() for f in sorted(folder.path.glob("*.vhdx"))]
        names = sorted(folder.path.glob("*.vhdx"))
        well, why, done = True, "", 0
        for _ in range(ROUNDS):
            for path, content in zip(names, kept):
                path.write_bytes(content)
            first, second = both(folder, one, other)
            done += first[0] == 0
            if not all(end[0] == 0 or is_kept_out(end) for end in (first, second)):
                well, why = False, f"{first} {second}"
            if one is write and first[0] == 0 and folder.byte("c.vhdx", 7) != "aa":
                well, why = False, f"an acknowledged write is lost: {first} {second}"
            if one is not write and first[0] == 0 and not first[1].startswith("5 22"):
                well, why = False, f"another disk: {first}"
            if folder.byte("c.vhdx", 5) != "22":
                well, why = False, f"the disk changed: {first} {second}"
        tell(name, well, why)
        tell(f"{name}: some of the first were done", done > 0)


def check_child(folder):
    """A child that is made while its parent is merged away is a child of what is there, or isn't made."""
    well, why = True, ""
    for _ in range(ROUNDS // 4):
        folder.chain()
        ends = both(folder, (["make", "child", "d.vhdx", "--parent", "c.vhdx"], ""), (["steps", "c.vhdx", "--merge", "c.vhdx"], "copy\nfinish\n"))
        if ends[0][0] == 0 and folder.byte("d.vhdx", 5) != "22":
            # the leaf was merged behind it: its child mismatches, as the standard means it to
            if ends[1][0] != 0 or "refused 22" not in folder.byte("d.vhdx", 5):
                well, why = False, f"{ends} {folder.byte('d.vhdx', 5)}"
        elif ends[0][0] and not is_kept_out(ends[0]):
            well, why = False, repr(ends)
    tell("a child made beside a merge", well, why)


def check_loads(program, room):
    """A load prints what its calls give on one thread by the model of compare/, whatever its threads did, and leaves that disk."""
    for seed in range(20):
        folder = Folder(program, room / f"load{seed}")
        folder.path.mkdir()
        wanted = loads.lines(seed)
        folder.check(f"load {seed}", ["load", str(seed)], 0, wanted)
        names = [line.split(" ")[0] for line in folder.run("info", "load4.vhdx")[1].split("\n")[:-1]]
        tell(f"the files of load {seed}", names == ["load4.vhdx", "load3.vhdx", "load1.vhdx", "load0.vhdx"], names)
        if seed == 0:
            again = Folder(program, room / "load0again")
            again.path.mkdir()
            again.check("load 0 again", ["load", "0"], 0, wanted)
            folder.check("a load where its files are", ["load", "1"], 1, "refused 27 NameTaken load0.vhdx\n")
            disk = loads.disk_behind(seed)
            for first in (0, 32_760, 55_456, 65_530, 98_300, 131_056):
                found = [line.split(" ")[1] for line in folder.run("dump", "load4.vhdx", str(first), "16")[1].split("\n")[:-1]]
                there = [disk[512 * s : 512 * s + 512].hex() for s in range(first, first + 16)]
                tell(f"sectors of load 0 from {first} on", found == there, first)
        shutil.rmtree(folder.path)
    folder = Folder(program, room / "load-parent-taken")
    folder.path.mkdir()
    folder.run("make", "dynamic", "load3.vhdx", "--sectors", "8")
    folder.check("a load whose fourth file is there", ["load", "0"], 1, "refused 27 NameTaken load3.vhdx\n")
    folder.check("a load without a seed", ["load"], 2, "", folder.run("--help")[1])


# ---- clients of the Network Block Device protocol


READ, WRITE, DISCONNECT, FLUSH, TRIM = range(5)
FORCED = 1
MB = 1048576
GREETING = b"NBDMAGICIHAVEOPT\0\3"
# a client that wants no zeros
FLAGS = struct.pack(">I", 3)


def option(number, data=b""):
    return b"IHAVEOPT" + struct.pack(">II", number, len(data)) + data


def request(kind, cookie, offset=0, length=0, flags=0):
    return struct.pack(">IHHQQI", 0x25609513, flags, kind, cookie, offset, length)


def reply(cookie, data=b"", error=0):
    return struct.pack(">IIQ", 0x67446698, error, cookie) + data


class Client:
    """A client of the program's, by its pipes. It is given 30 seconds."""

    def __init__(self, folder, *words, **how):
        self.run = folder.start("nbd", *words, text=False, **how)
        self.timer = threading.Timer(30, self.run.kill)
        self.timer.start()
        self.cookie = 0

    def send(self, data):
        # where the program has ended, the reply that is missing tells it
        with contextlib.suppress(BrokenPipeError):
            self.run.stdin.write(data)
            self.run.stdin.flush()

    def take(self, count):
        return self.run.stdout.read(count)

    def begin(self, size):
        """Names the export by nothing: whether a disk of this size is offered, that can be written, flushed, trimmed, and written with force."""
        self.send(FLAGS + option(1))
        return self.take(28) == GREETING + struct.pack(">QH", size, 0x2D)

    def ask(self, kind, offset=0, length=0, data=b"", flags=0):
        """The error of a request, and the data of a read; None where there is no reply to it."""
        self.cookie += 1
        self.send(request(kind, self.cookie, offset, length or len(data), flags) + data)
        head = self.take(16)
        if len(head) < 16 or head[:4] + head[8:] != reply(self.cookie)[:4] + reply(self.cookie)[8:]:
            return None, head
        error = struct.unpack(">I", head[4:8])[0]
        return error, self.take(length) if kind == READ and error == 0 else b""

    def end(self, data=request(DISCONNECT, 0)):
        """Sends the last bytes: the run's status, and what else the client was sent."""
        out, _ = self.run.communicate(data)
        self.timer.cancel()
        return self.run.returncode, out


def nbd_chain(folder, size):
    """A chain of three files over a disk of so many bytes, of which the middle one holds eight sectors of each MB: that disk."""
    for old in folder.path.glob("*.vhdx"):
        old.unlink()
    folder.make("dynamic", "b.vhdx", "--sectors", str(size // 512))
    folder.make("child", "m.vhdx", "--parent", "b.vhdx")
    folder.run("steps", "m.vhdx", script="".join(f"write {2048 * i} 8 {i + 1:02x}\n" for i in range(size // MB)))
    folder.make("child", "c.vhdx", "--parent", "m.vhdx")
    disk = bytearray(size)
    for i in range(size // MB):
        disk[MB * i : MB * i + 4096] = bytes([i + 1]) * 4096
    return disk


def shown_of(folder, first, count):
    """The bytes of sectors, as a dump shows them."""
    lines = folder.run("dump", "c.vhdx", str(first), str(count))[1].split("\n")[:-1]
    return b"".join(bytes.fromhex(line.split(" ")[1]) for line in lines if " " in line and not line.startswith(("refused", "fault")))


def nbd_call(client, disk, rng):
    """A call that looks drawn, of up to 64 KB, on the program and on the model: whether they agree."""
    kind = rng.choice((READ, READ, WRITE, WRITE, WRITE, TRIM, FLUSH))
    flags = FORCED if kind in (WRITE, TRIM) and rng.random() < 0.3 else 0
    length = 512 * rng.randint(1, 128)
    # every second one near a place where the middle file holds something, so that calls meet
    offset = 512 * rng.randrange(len(disk) // 512 - 128) if rng.random() < 0.5 else MB * rng.randrange(8) + 512 * rng.randrange(200)
    if kind == FLUSH:
        return client.ask(FLUSH) == (0, b"")
    if kind == READ:
        return client.ask(READ, offset, length) == (0, bytes(disk[offset : offset + length]))
    data = rng.randbytes(length) if kind == WRITE else b""
    if client.ask(kind, offset, length, data, flags) != (0, b""):
        return False
    disk[offset : offset + length] = data or bytes(length)
    return True


def check_nbd_rows(folder):
    """A sector is written and read, behind an option that isn't served or not."""
    sector = b"\xaa" * 512
    calls = request(WRITE, 1, 0, 512) + sector + request(READ, 2, 0, 512) + request(DISCONNECT, 3)
    size = struct.pack(">QH", 1024 * MB, 0x2D)
    other = struct.pack(">QIII", 0x0003E889045565A9, 7, 0x80000001, 0)
    for name, asked, told in (("a sector over a pipe", b"", b""), ("behind an option that isn't served", option(7), other)):
        (folder.path / "d.vhdx").unlink(missing_ok=True)
        folder.make("dynamic", "d.vhdx", "--sectors", str(SECTORS))
        status, out = Client(folder, "d.vhdx", "--workers", "0").end(FLAGS + asked + option(1) + calls)
        wanted = GREETING + told + size + reply(1) + reply(2, sector)
        tell(name, (status, out, len(wanted)) == (0, wanted, 572 + len(told)), f"{status} {out[:80]} {len(out)}")
        found = folder.run("dump", "d.vhdx", "0", "1")[1]
        tell(f"{name}: the dump", found == "0 " + "aa" * 512 + "\n", found[:40])
    found = Client(folder, "e.vhdx", "--workers", "0").end(FLAGS)
    tell("a client of a name that leads to no chain", found == (1, b""), repr(found))
    found = Client(folder, "d.vhdx", "--workers", "0").end(FLAGS + option(2))
    tell("a client that gives up", found == (0, GREETING + struct.pack(">QIII", 0x0003E889045565A9, 2, 1, 0)), repr(found))


def check_nbd_merge(folder, source):
    """Calls that look drawn while a file of the chain is merged by two workers: each is told what a model has, and so are a dump and a later client."""
    disk = nbd_chain(folder, 64 * MB)
    rng = random.Random(source)
    client = Client(folder, "c.vhdx", "--workers", "2", "--merge", source)
    tell(f"a client beside a merge of {source} begins", client.begin(len(disk)))
    wrong = [i for i in range(300) if not nbd_call(client, disk, rng)]
    tell(f"calls beside a merge of {source}", not wrong, f"the calls {wrong[:5]}")
    found = client.end()
    tell(f"a client beside a merge of {source} ends", found == (0, b""), repr(found))
    chain = folder.run("info", "c.vhdx")[1]
    tell(f"{source} has left the chain", "retired c.vhdx" in chain if source == "c.vhdx" else "m.vhdx" not in chain, chain)
    well = all(shown_of(folder, first, 130) == disk[512 * first : 512 * (first + 130)] for first in range(0, 131072 - 130, 6007))
    tell(f"dumps behind a merge of {source}", well)
    client = Client(folder, "c.vhdx", "--workers", "0")
    client.begin(len(disk))
    halves = [client.ask(READ, 32 * MB * i, 32 * MB) == (0, bytes(disk[32 * MB * i : 32 * MB * (i + 1)])) for i in range(2)]
    tell("reads of 32 MB", halves == [True, True], repr(halves))
    errors = [client.ask(READ, 0, 32 * MB + more)[0] for more in (1, 512)] + [client.ask(READ, 64 * MB, 512)[0], client.ask(READ, 1, 512)[0]]
    errors += [client.ask(WRITE, 64 * MB, data=bytes(512))[0], client.ask(9)[0], client.ask(READ, 64 * MB)[0]]
    tell("requests that aren't done", errors == [22, 22, 22, 22, 28, 22, 0], repr(errors))
    tell("a client behind them ends", client.end() == (0, b""))


def check_nbd_stops(folder):
    """A client that is killed in a write, and bytes that are no client's: the run is refused, and what was flushed is there."""
    nbd_chain(folder, 64 * MB)
    with subprocess.Popen(["cat"], stdin=subprocess.PIPE, stdout=subprocess.PIPE) as cat:
        client = Client(folder, "c.vhdx", "--workers", "2", "--merge", "m.vhdx", stdin=cat.stdout)
        cat.stdout.close()
        client.send = lambda data: (cat.stdin.write(data), cat.stdin.flush())
        tell("a client through another process", client.begin(64 * MB))
        told = [client.ask(WRITE, 512, data=b"\xaa" * 512), client.ask(FLUSH)]
        client.send(request(WRITE, 9, 1024, 65536) + b"\xbb" * 32768)
        cat.kill()
    out, _ = client.run.communicate()
    client.timer.cancel()
    tell("a client that is killed in a write", (told, out, client.run.returncode) == ([(0, b"")] * 2, b"", 1), f"{told} {out} {client.run.returncode}")
    tell("what it leaves", shown_of(folder, 0, 4) == b"\1" * 512 + b"\xaa" * 512 + b"\1" * 1024)
    tell("and the merge is finished", "m.vhdx" not in folder.run("info", "c.vhdx")[1])
    rng = random.Random(0)
    for name, data, told in (
        ("nothing", b"", GREETING),
        ("another protocol", b"GET / HTTP/1.1\r\n\r\n", GREETING),
        ("garbage behind the flags", FLAGS + rng.randbytes(100000), GREETING),
        ("garbage in place of a request", FLAGS + option(1) + rng.randbytes(100000), GREETING + struct.pack(">QH", 64 * MB, 0x2D)),
    ):
        found = Client(folder, "c.vhdx", "--workers", "0").end(data)
        tell(f"{name} of a client", found == (1, told), repr(found))
    tell("and the disk is as it was", shown_of(folder, 0, 4) == b"\1" * 512 + b"\xaa" * 512 + b"\1" * 1024)


def check_nbd(program, room):
    folder = Folder(program, room / "nbd")
    folder.path.mkdir()
    check_nbd_rows(folder)
    for source in ("m.vhdx", "c.vhdx"):
        check_nbd_merge(folder, source)
    check_nbd_stops(folder)


def main():
    if len(sys.argv) != 2:
        raise SystemExit(__doc__)
    with tempfile.TemporaryDirectory(prefix="vhdx-program-") as made:
        room = pathlib.Path(made)
        room.chmod(0o755)
        program = room / "vhdx"
        shutil.copyfile(sys.argv[1], program)
        program.chmod(0o755)
        (room / "files").mkdir()
        folder = Folder(program, room / "files")
        check_documents(program, room)
        check_words(folder)
        check_faults(folder)
        check_denied(program, room)
        check_full_disk(folder)
        check_stops(folder, ["steps", "c.vhdx"], "copy\nfinish\n")
        check_stops(folder, ["serve", "c.vhdx", "--workers", "2"], "1 read 5 1\n2 read 2048 1\n")
        for workers in (0, 1, 4):
            check_workers(folder, workers)
        check_pairs(folder)
        check_child(folder)
        check_loads(program, room)
        check_nbd(program, room)
    print(f"{sum(results)} passed, {len(results) - sum(results)} failed")
    return 0 if all(results) else 1


if __name__ == "__main__":
    sys.exit(main())
