#!/usr/bin/env python3
"""A model of a generated load: the lines that it has to print, over a disk of bytes that keeps each sector whole.

    compare/loads.py              prints the first numbers and the lines of a few seeds, as crates/load_tests asks for them
    compare/loads.py SEED ..      the lines of these seeds
    compare/loads.py --shuffled   20 seeds, with the guests' calls in a random order that keeps each guest's own: the lines are to stay
"""
import random
import sys

SECTOR = 512
SECTORS = 131_072
OWN = 32_768


def draws(seed):
    x = seed
    while True:
        x = (x * 6364136223846793005 + 1442695040888963407) % 2**64
        yield x // 2**33


def load(seed):
    """The writes to four files, and the calls of four guests."""
    numbers = draws(seed)

    def call():
        a, b = next(numbers), next(numbers)
        return a, b, 1 + a // 8 % 16, b // 32768 % 256

    writes = []
    for _file in range(4):
        for _ in range(32):
            a, b, count, byte = call()
            writes.append(("write", b % 131_057, count, byte))
    guests = []
    for guest in range(1, 5):
        calls = []
        for _ in range(256):
            a, b, count, byte = call()
            kind = ["write"] * 4 + ["trim"] + ["read"] * 2 + ["flush"]
            calls.append((kind[a % 8], (guest - 1) * OWN + b % 32_753, count, byte))
        guests.append(calls)
    return writes, guests


def run(disk, calls):
    """Makes the calls, and gives the sum of the first bytes of the sectors that reads answered."""
    seen = 0
    for kind, first, count, byte in calls:
        if kind == "write" or kind == "trim":
            disk[first * SECTOR : (first + count) * SECTOR] = bytes([byte if kind == "write" else 0]) * (count * SECTOR)
        elif kind == "read":
            answer = disk[first * SECTOR : (first + count) * SECTOR]
            seen += sum(answer[k * SECTOR] for k in range(count))
    return seen


def shuffled(guests, chance):
    """The guests' calls in some order that keeps each guest's own."""
    left = [list(calls) for calls in guests]
    order = []
    while any(left):
        calls = chance.choice([calls for calls in left if calls])
        order.append(calls.pop(0))
    return order


def disk_behind(seed):
    """The disk that a load leaves."""
    writes, guests = load(seed)
    disk = bytearray(SECTORS * SECTOR)
    run(disk, writes)
    run(disk, [call for calls in guests for call in calls])
    return disk


def lines(seed, order=None):
    writes, guests = load(seed)
    calls = order(guests) if order else [call for calls in guests for call in calls]
    disk = bytearray(SECTORS * SECTOR)
    run(disk, writes)
    seen = run(disk, calls)
    kinds = [kind for kind, _first, _count, _byte in calls]
    total = sum((i + 1) * disk[i * SECTOR] for i in range(SECTORS))
    counts = " ".join(f"{kind}{'es' if kind == 'flush' else 's'} {kinds.count(kind)}" for kind in ("write", "trim", "read", "flush"))
    return f"calls {len(calls)} {counts}\ndisk {total}\nseen {seen}\n"


def main(words):
    if "--shuffled" in words:
        chance = random.Random(1)
        for seed in range(20):
            assert lines(seed, lambda guests: shuffled(guests, chance)) == lines(seed), seed
        print("20 seeds in a shuffled order: the same lines")
        return
    seeds = [int(word) for word in words]
    if not seeds:
        for seed in (0, 1):
            numbers = draws(seed)
            print(f"seed {seed} draws", *(next(numbers) for _ in range(4)))
        print("seed 0 first write", *load(0)[0][0])
    for seed in seeds or (0, 1, 2, 4_294_967_295):
        print(f"seed {seed}")
        print(lines(seed), end="")


if __name__ == "__main__":
    main(sys.argv[1:])
