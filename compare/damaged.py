#!/usr/bin/env python3
"""Holds the program to compare/model.py on damaged files: makes sound files of several shapes, with and without a log to be replayed,
damages fields of every structure at random, and compares what `info`, `dump` and `check` print, their status, and the bytes that they leave.

    damaged.py [--files N] [--seed S]    file I has the seed S + I, so `--files 1 --seed T` makes the file of a difference again

The program is the repository's, or the one that the environment's VHDX_PROGRAM names.
"""
import argparse
import collections
import concurrent.futures
import os
import pathlib
import random
import resource
import struct
import subprocess
import sys
import tempfile

import model
import tools
from model import MB, PAGE

PROGRAM = os.environ.get("VHDX_PROGRAM", str(tools.PROGRAM))
NAME = "d.vhdx"
LONGEST = 64 * MB
BAT, METADATA = model.REGIONS


# The writer. A plan holds what a file is made of; the image is its settled bytes.

class Plan:
    """Where things stand in a file: places and lengths, the items' offsets, the log entries' places and lengths."""

    def __init__(self, rng):
        self.rng = rng
        self.block = rng.choice((1, 1, 1, 2, 2, 4, 32)) * MB
        self.sector = 512 if rng.random() < 0.97 else 4096
        self.fixed = rng.random() < 0.3 and self.block <= 2 * MB
        self.parent = rng.random() < 0.02
        self.log_length = rng.choice((1, 1, 1, 2)) * MB
        self.meta_length = rng.choice((1, 1, 1, 2)) * MB
        self.bat_length = rng.choice((1, 1, 1, 2)) * MB
        room = 8 - (self.log_length + self.meta_length + self.bat_length) // MB
        units = self.block // MB
        ratio = model.chunk_ratio(self.sector, self.block)
        if self.fixed:
            self.blocks = rng.randint(1, max(1, room // units))
            self.present = list(range(self.blocks))
        else:
            self.blocks = rng.choice((rng.randint(1, 12), rng.randint(ratio - 3, ratio + 3), rng.randint(1, 2 * ratio + 9)))
            likely = {0, self.blocks - 1, ratio - 1, ratio, ratio + 1, *(rng.randrange(self.blocks) for _ in range(3))}
            likely = [block for block in sorted(likely) if block < self.blocks]
            self.present = rng.sample(likely, min(len(likely), rng.randint(0, room // units)))
        self.ratio = ratio
        self.size = self.blocks * self.block - rng.choice((0, 0, rng.randrange(self.block // self.sector))) * self.sector
        self.place_all(units)
        self.logs = []

    def place_all(self, units):
        """Gives every piece its place, in the usual order or in another one."""
        pieces = [("log", self.log_length), ("meta", self.meta_length), ("bat", self.bat_length)] + [(b, units * MB) for b in self.present]
        if self.rng.random() < 0.5:
            self.rng.shuffle(pieces)
        self.at, end = {}, MB
        for name, length in pieces:
            self.at[name] = end
            end += length
        self.length = end + self.rng.choice((0, 0, 0, 512, 4096, MB))


def put(image, at, data):
    image[at:at + len(data)] = data


def seal(image, at, length):
    """Makes the checksum of a structure true."""
    put(image, at + 4, bytes(4))
    put(image, at + 4, struct.pack("<I", model.crc32c(bytes(image[at:at + length]))))


def write_headers(plan, image, log_id):
    rng = plan.rng
    numbers = rng.choice(((1, 2), (2, 1), (7, 7), (rng.getrandbits(64), rng.getrandbits(64))))
    for copy, number in zip((1, 2), numbers):
        put(image, copy * 65536, struct.pack("<4s4xQ16s16s16sHHIQ", b"head", number, rng.randbytes(16), rng.randbytes(16), log_id,
                                             0, 1, plan.log_length, plan.at["log"]))
        seal(image, copy * 65536, PAGE)
    if rng.random() < 0.2:
        put(image, rng.choice((1, 2)) * 65536 + rng.randrange(80), b"\x5a")


def write_regions(plan, image):
    rng = plan.rng
    rows = [(BAT, plan.at["bat"], plan.bat_length, 1), (METADATA, plan.at["meta"], plan.meta_length, 1)]
    if rng.random() < 0.2:
        rows.append((rng.randbytes(16), rng.getrandbits(64), rng.getrandbits(32), rng.getrandbits(32) & ~1))
    if rng.random() < 0.01:
        rows += [(rng.randbytes(16), 0, 0, 0) for _ in range(rng.choice((2047, 2048)) - len(rows))]
    if rng.random() < 0.5:
        rng.shuffle(rows)
    plan.region_rows = len(rows)
    for at in (196608, 262144):
        put(image, at, struct.pack("<4s4xII", b"regi", len(rows), rng.getrandbits(32)))
        for i, row in enumerate(rows):
            put(image, at + 16 + 32 * i, struct.pack("<16sQII", *row))
        seal(image, at, 65536)


def write_metadata(plan, image):
    rng = plan.rng
    parameters = struct.pack("<II", plan.block, plan.fixed | plan.parent << 1)
    items = [(model.PARAMETERS[0], 4, parameters), (model.SIZE[0], 6, struct.pack("<Q", plan.size)), (model.DISK_ID[0], 6, rng.randbytes(16)),
             (model.LOGICAL[0], 6, struct.pack("<I", plan.sector)), (model.PHYSICAL[0], 6, struct.pack("<I", rng.choice((512, 4096))))]
    if plan.parent or rng.random() < 0.05:
        items.append((model.LOCATOR[0], 4, bytes(rng.choice((0, 20, 190)))))
    if rng.random() < 0.1:
        items.append((model.RETIRED[0], 1, b""))
    if rng.random() < 0.2:
        items.append((rng.randbytes(16), rng.choice((0, 1, 2, 3)), rng.randbytes(rng.choice((0, 5, 4096)))))
    if rng.random() < 0.05:
        items.append((model.SIZE[0], 1, bytes(8)))
    if rng.random() < 0.01:
        items += [(rng.randbytes(16), 1, b"") for _ in range(rng.choice((1500, 2047, 2048)) - len(items))]
    if rng.random() < 0.5:
        rng.shuffle(items)
    at, end = plan.at["meta"], 65536
    put(image, at, struct.pack("<8sHH20x", b"metadata", rng.getrandbits(16), len(items)))
    plan.items = []
    for i, (id_, flags, value) in enumerate(items):
        put(image, at + 32 + 32 * i, struct.pack("<16sIIII", id_, end if value else rng.getrandbits(32), len(value), flags, rng.getrandbits(32)))
        put(image, at + end, value)
        plan.items.append((id_, end, len(value)))
        end += len(value) + rng.choice((0, 0, 8, 100))


def index_of(plan, block):
    return block + block // plan.ratio


def write_blocks(plan, image):
    rng, bat = plan.rng, plan.at["bat"]
    entries = model.entry_count(plan.blocks, plan.ratio, False)
    for _ in range(rng.randrange(4)):
        index = rng.randrange(entries)
        bitmap = index % (plan.ratio + 1) == plan.ratio
        state = rng.randrange(8) if bitmap else rng.choice((0, 1, 2, 3))
        put(image, bat + 8 * index, struct.pack("<Q", rng.getrandbits(61) << 3 | state))
    if rng.random() < 0.3:
        put(image, bat + 8 * rng.randint(entries, plan.bat_length // 8 - 1), struct.pack("<Q", rng.getrandbits(64)))
    for block in plan.present:
        at = plan.at[block]
        put(image, bat + 8 * index_of(plan, block), struct.pack("<Q", at | rng.getrandbits(17) << 3 | 6))
        for _ in range(3):
            put(image, at + rng.choice((0, plan.block - 512, rng.randrange(plan.block // 512) * 512)), rng.randbytes(512))


def sound(plan):
    image = bytearray(plan.length)
    put(image, 0, b"vhdxfile" + plan.rng.randbytes(8))
    write_regions(plan, image)
    write_metadata(plan, image)
    write_blocks(plan, image)
    return image


# The log's writer.

def entry_of(number, log_id, tail, updates, flushed, last, slack):
    """A log entry: updates are (at, page) and, for zeros, (at, length)."""
    pages = [(at, new) for at, new in updates if not isinstance(new, int)]
    described = -(-(64 + 32 * len(updates)) // PAGE)
    length = (described + len(pages) + slack) * PAGE
    entry = bytearray(length)
    put(entry, 0, struct.pack("<4s4xIIQI4x16sQQ", b"loge", length, tail, number, len(updates), log_id, flushed, last))
    for i, (at, new) in enumerate(updates):
        if isinstance(new, int):
            put(entry, 64 + 32 * i, struct.pack("<4s4xQQQ", b"zero", new, at, number))
        else:
            put(entry, 64 + 32 * i, struct.pack("<4s4s8sQQ", b"desc", new[4092:], new[:8], at, number))
    for i, (_, new) in enumerate(pages, described):
        put(entry, i * PAGE, b"data" + struct.pack("<I", number >> 32) + new[8:4092] + struct.pack("<I", number & 0xFFFFFFFF))
    seal(entry, 0, length)
    return entry


def ring_put(plan, image, place, data):
    for i in range(0, len(data), PAGE):
        put(image, plan.at["log"] + (place + i) % plan.log_length, data[i:i + PAGE])


def ring_get(plan, image, place, length):
    ring = bytes(image[plan.at["log"]:plan.at["log"] + plan.log_length])
    return bytearray(model.around(ring, place, length))


def pages_of(plan, image, count):
    """Pages outside the ring that hold something worth replaying."""
    rng = plan.rng
    likely = [196608, 196608 + PAGE * rng.randrange(16), 262144, plan.at["meta"], plan.at["meta"] + 65536, plan.at["bat"]]
    likely += [(plan.at["bat"] + 8 * index_of(plan, block)) // PAGE * PAGE for block in plan.present]
    likely += [plan.at[block] + rng.choice((0, plan.block - PAGE)) for block in plan.present]
    likely += [PAGE * rng.randrange(48, plan.length // PAGE) for _ in range(2)]
    likely = [at for at in likely if at + PAGE <= plan.length and not model.overlap(at, PAGE, plan.at["log"], plan.log_length)]
    return rng.sample(likely, min(count, len(likely)))


def false_page(rng, true):
    """What a page held before, or what a replay that must not happen would bring."""
    page = bytearray(true)
    for _ in range(rng.randint(1, 40)):
        page[rng.randrange(PAGE)] ^= 1 << rng.randrange(8)
    return rng.choice((bytes(PAGE), rng.randbytes(PAGE), bytes(page), true))


def sequence_of(plan, image, place, number, log_id, batches, flushed, last):
    """Writes entries one behind the other, all naming the first as their tail, and gives the place behind them."""
    rng, first = plan.rng, place
    for i, batch in enumerate(batches):
        tail = first if i == len(batches) - 1 or rng.random() < 0.8 else place
        slack = rng.choice((0, 0, 0, 1, 2))
        if i == len(batches) - 1 and rng.random() < 0.05:
            slack = (first - place) % plan.log_length // PAGE or plan.log_length // PAGE
            slack -= len(entry_of(number, log_id, tail, batch, 0, 0, 0)) // PAGE - rng.choice((0, 0, 0, 1))
        entry = entry_of(number + i, log_id, tail, batch, flushed, last, max(0, slack))
        ring_put(plan, image, place, entry)
        plan.logs.append((place, len(entry)))
        place = (place + len(entry)) % plan.log_length
    return place


def unsettle(plan, image):
    """The file before the replay that would give the image, or one near it; its kind of log."""
    rng = plan.rng
    kind = rng.choice(("none", "none", "empty", "one", "one", "several", "several", "wrapped", "older", "torn"))
    log_id = bytes(16) if kind == "none" and rng.random() < 0.9 else rng.randbytes(16)
    number = rng.choice((1, 5, rng.getrandbits(32), (1 << 32) - 1, rng.getrandbits(63) + 1))
    pages_in_ring = plan.log_length // PAGE
    place = PAGE * (pages_in_ring - rng.randint(1, 4) if kind == "wrapped" else rng.choice((0, 1, rng.randrange(pages_in_ring))))
    named = pages_of(plan, image, rng.randint(0, 8))
    true = {at: bytes(image[at:at + PAGE]) for at in named}
    batches = [[] for _ in range(1 if kind == "one" else rng.randint(2, 6))]
    for at in named if kind not in ("none", "empty") else ():
        where = rng.randrange(len(batches))
        batches[where].append((at, true[at]))
        if where and rng.random() < 0.5:
            batches[rng.randrange(where)].append((at, false_page(rng, true[at])))
        put(image, at, false_page(rng, true[at]))
    if kind not in ("none", "empty") and rng.random() < 0.4:
        zero_updates(plan, image, rng.choice(batches), named)
    if rng.random() < 0.05:
        rng.choice(batches).extend((rng.randrange(1 << 20) * PAGE, 0) for _ in range(rng.choice((120, 126, 127, 255))))
    last = plan.length + rng.choice((0, 0, 0, 777, MB))
    cut = cut_to(plan, image) if kind not in ("none", "empty") or rng.random() < 0.1 else plan.length
    if kind in ("none", "older") or rng.random() < 0.2:
        old_sequences(plan, image, log_id, number, place)
    if kind != "empty" and (kind != "none" or rng.random() < 0.5):
        after = sequence_of(plan, image, place, number, log_id, batches, rng.choice((0, cut, cut)), last)
        if kind == "torn":
            torn_entry(plan, image, after, place, number + len(batches), log_id)
    write_headers(plan, image, log_id)
    return kind


def zero_updates(plan, image, batch, named):
    """A zero descriptor over pages that are zeros in the image, of which the file may hold something else; or one of no length."""
    rng = plan.rng
    at = PAGE * rng.randrange(48, len(image) // PAGE)
    count = rng.choice((0, 1, 2, 16, 256))
    while count and (any(image[at:at + count * PAGE]) or model.overlap(at, count * PAGE, plan.at["log"], plan.log_length)
                     or any(model.overlap(at, count * PAGE, page, PAGE) for page in named)):
        count //= 2
    batch.append((at, count * PAGE))
    if count and at + PAGE <= len(image):
        put(image, at, rng.choice((bytes(PAGE), rng.randbytes(PAGE))))


def cut_to(plan, image):
    """Sometimes the file is shorter than its settled bytes, mostly by zeros alone; its length."""
    rng = plan.rng
    if rng.random() < 0.3:
        full = len(image) if rng.random() < 0.8 else 0
        while full and not any(image[full - PAGE:full]):
            full -= PAGE
        least = max(plan.at["log"] + plan.log_length, full)
        del image[rng.choice((least, rng.randint(least, len(image)), max(least, len(image) - rng.choice((0, 1, 512))))):]
    return len(image)


def old_sequences(plan, image, log_id, number, place):
    """Entries that must not be replayed: of lower numbers, of another id, or alike in number at a place that may be the higher one."""
    rng = plan.rng
    for _ in range(rng.randint(1, 3)):
        own = rng.choice((log_id, log_id, rng.randbytes(16)))
        least = rng.choice((max(1, number - 9), max(1, number - 2), number, number if own == log_id else number + 100))
        named = [(at, false_page(rng, bytes(image[at:at + PAGE]).ljust(PAGE, b"\0"))) for at in pages_of(plan, image, rng.randint(0, 3))]
        batches = [named] if rng.random() < 0.6 else [named, []]
        sequence_of(plan, image, PAGE * rng.randrange(plan.log_length // PAGE), least, own, batches, rng.choice((0, len(image))), len(image))


def torn_entry(plan, image, place, tail, number, log_id):
    """An entry that was being written when the power went: its head or its tail isn't there, or some page of it."""
    rng = plan.rng
    named = [(at, rng.randbytes(PAGE)) for at in pages_of(plan, image, rng.randint(1, 4))]
    entry = entry_of(number, log_id, tail, named, len(image), len(image) + MB, 0)
    for _ in range(rng.randint(1, 2)):
        put(entry, rng.randrange(len(entry) // 512) * 512, rng.randbytes(512))
    ring_put(plan, image, place, entry)
    plan.logs.append((place, len(entry)))


# The damage. Each takes a field, gives it another value, and makes the checksum true again most of the time.

TOP = 1 << 64
UNITS = (0, MB, 2 * MB, 3 * MB, 4 * MB, 5 * MB, 6 * MB, 8 * MB)
FEW = (0, 1, 2, 3, 4, 5, 7, 2047, 2048)
IDS = [key[0] for key in (*model.LENGTHS, model.LOCATOR, model.RETIRED)]


def mended(rng):
    return rng.random() < 0.85


def another(plan, old, width, likely):
    """Another number for a field of so many bytes: one of the likely ones, one near these or the old one, or any."""
    rng = plan.rng
    near = rng.choice((old, rng.choice(likely))) + rng.choice((-MB, -PAGE, -512, -1, 1, 8, 512, PAGE, MB))
    value = rng.choice((*(rng.choice(likely) for _ in range(5)), near, near, old ^ 1 << rng.randrange(8 * width),
                        rng.getrandbits(8 * width), (1 << 8 * width) - 1))
    return value & (1 << 8 * width) - 1


def change(plan, image, at, width, likely=FEW):
    """Gives the field at a place another value; those of 16 bytes are ids."""
    rng = plan.rng
    if at + width > len(image):
        return
    if width in (2, 4, 8):
        put(image, at, another(plan, int.from_bytes(image[at:at + width], "little"), width, likely).to_bytes(width, "little"))
    elif width == 16 and rng.random() < 0.8:
        put(image, at, rng.choice((bytes(16), rng.randbytes(16), BAT, METADATA, *IDS)))
    else:
        image[at + rng.randrange(width)] ^= 1 << rng.randrange(8)


def places_in(plan):
    """Places that a field may name: those of the pieces more often than others."""
    return [*plan.at.values(), *plan.at.values(), plan.length, plan.length - MB, TOP - MB, TOP - plan.block, *UNITS]


def copied(image, at, width, apart):
    """Gives the second copy of a structure what the first one has in a field."""
    put(image, at + apart, image[at:at + width])


def damage_header(plan, image):
    """Signature, number, ids, versions, log: of one copy or of both alike."""
    rng, copy = plan.rng, plan.rng.choice((1, 2))
    at, width, likely = rng.choice(((0, 1, FEW), (8, 8, FEW), (16, 16, FEW), (32, 16, FEW), (48, 16, FEW), (64, 2, FEW), (64, 2, FEW), (66, 2, FEW),
                                    (68, 4, UNITS), (68, 4, UNITS), (72, 8, UNITS), (72, 8, places_in(plan)), (80, 8, FEW)))
    change(plan, image, copy * 65536 + at, width, likely)
    both = at != 8 and rng.random() < 0.8
    if both:
        copied(image, copy * 65536 + at, width, 65536 if copy == 1 else -65536)
    if mended(rng):
        for copy in (1, 2) if both else (copy,):
            seal(image, copy * 65536, PAGE)


def damage_regions(plan, image):
    """Signature, count, an entry's fields, an entry more: of one copy or of both alike."""
    rng, at = plan.rng, plan.rng.choice((196608, 262144))
    row = at + 16 + 32 * rng.randrange(min(20, plan.region_rows) + (rng.random() < 0.2))
    what = rng.choice(("head", "count", "id", "offset", "offset", "offset", "length", "length", "length", "flags", "gone", "more", "more", "more"))
    if what == "gone":
        put(image, row, rng.choice((bytes(16), BAT, METADATA)) + image[row + 16:row + 28] + bytes(4))
    elif what == "more":
        entry = rng.choice((bytes(image[row:row + 32]), struct.pack("<16sQII", rng.randbytes(16), MB, MB, rng.getrandbits(1)),
                            struct.pack("<16sQII", rng.choice((BAT, METADATA)), rng.choice(places_in(plan)), MB, rng.getrandbits(1))))
        where = at + 16 + 32 * rng.randint(0, plan.region_rows)
        put(image, where, entry + image[where:at + 16 + 32 * plan.region_rows])
        put(image, at + 8, struct.pack("<I", plan.region_rows + 1))
    else:
        place, width, likely = {"head": (at, 3, FEW), "count": (at + 8, 4, FEW), "id": (row, 16, FEW), "offset": (row + 16, 8, places_in(plan)),
                                "length": (row + 24, 4, UNITS), "flags": (row + 28, 4, FEW)}[what]
        change(plan, image, place, width, likely)
    both = rng.random() < 0.7
    if both:
        copied(image, at, 65536, 65536 if at == 196608 else -65536)
    if mended(rng):
        for at in (196608, 262144) if both else (at,):
            seal(image, at, 65536)


def damage_metadata(plan, image):
    """Signature, count, an entry's fields, an entry more."""
    rng, at, count = plan.rng, plan.at["meta"], len(plan.items)
    chosen = rng.randrange(count)
    row, (_, offset, length) = at + 32 + 32 * chosen, plan.items[chosen]
    offsets = [0, 65535, 65536, plan.meta_length, plan.meta_length - length, (1 << 32) - length, *(item[1] for item in plan.items)]
    lengths = [0, 4, 8, 16, MB, MB + 1, MB - 65536, plan.meta_length - offset, plan.meta_length - offset + 1, length + 1, 2 * length, (1 << 32) - offset]
    what = rng.choice(("head", "count", "id", "id", "offset", "offset", "length", "length", "flags", "flags", "more", "more"))
    if what == "more":
        old = bytes(image[row:row + 32])
        new = rng.choice((old, struct.pack("<16sII8x", rng.choice((rng.randbytes(16), *IDS)), 65536 + rng.choice((8192, 65536, MB)), rng.choice(lengths))))
        where = at + 32 + 32 * rng.randint(0, count)
        put(image, where, new[:24] + struct.pack("<I", rng.randrange(8)) + new[28:] + image[where:at + 32 + 32 * count])
        put(image, at + 10, struct.pack("<H", count + 1))
    else:
        place, width, likely = {"head": (at, 3, FEW), "count": (at + 10, 2, (*FEW, count - 1, count + 1, count + 2)), "id": (row, 16, FEW),
                                "offset": (row + 16, 4, offsets), "length": (row + 20, 4, lengths), "flags": (row + 24, 4, range(8))}[what]
        change(plan, image, place, width, likely)


def damage_value(plan, image):
    """The value of an item, or a retired name."""
    rng, at = plan.rng, plan.at["meta"]
    if rng.random() < 0.08:
        name = rng.choice(("", "other.vhdx", "q" * 255, "\u00e9" * 127, "o\ud83d\ude00", "a/b", "..", "x\0", "\ud800", "q" * 256, "\u00e9" * 128, ".", "a\\b", "o\ud83d\ude00/")).encode("utf-16-le", "surrogatepass")
        row = at + 32 + 32 * len(plan.items)
        put(image, row, struct.pack("<16sIII4x", model.RETIRED[0], 65536 + 16384, len(name) + rng.choice((0, 0, 0, 1)), 1))
        put(image, at + 65536 + 16384, name)
        put(image, at + 10, struct.pack("<H", len(plan.items) + 1))
        return
    id_, offset, length = rng.choice([item for item in plan.items if item[0] in IDS and item[2]])
    entries = plan.bat_length // 8
    most = (entries - (entries - 1) // (plan.ratio + 1)) * plan.block
    likely = {IDS[1]: (0, 256, 512, plan.size + 1, plan.size - 512, plan.size + 512, plan.size + plan.block, 64 << 40, (64 << 40) + 4096, most,
                       most + 512, most + plan.block), IDS[3]: (512, 4096, 1024, 0, 513), IDS[4]: (512, 4096, 1024, 0, 513)}.get(id_)
    if id_ == IDS[0] and rng.random() < 0.6:
        change(plan, image, at + offset, 4, (0, MB // 2, MB, 2 * MB, 3 * MB, 4 * MB, 256 * MB, 512 * MB, 1 << 31))
    elif id_ == IDS[0]:
        change(plan, image, at + offset + 4, 4, range(4))
    elif likely:
        change(plan, image, at + offset, length, likely)
    else:
        change(plan, image, at + offset + rng.randrange(length), 1)


def damage_blocks(plan, image):
    """One to three entries of the table: state, place, or both, near the entries that count."""
    rng = plan.rng
    entries = model.entry_count(plan.blocks, plan.ratio, plan.parent)
    near = [*(index_of(plan, block) for block in plan.present), 0, plan.ratio, plan.ratio - 1, plan.ratio + 1, entries - 1, entries]
    for _ in range(rng.choice((1, 1, 1, 2, 3))):
        at = plan.at["bat"] + 8 * rng.choice((*near, rng.randrange(entries)))
        if at + 8 > len(image):
            continue
        old = int.from_bytes(image[at:at + 8], "little")
        units = (rng.choice((*places_in(plan), another(plan, old, 8, UNITS))) // MB + rng.choice((0, 0, 0, 1, -1, -plan.block // MB))) & (1 << 44) - 1
        state = rng.choice((*range(8), 4, 5, 6, 6, 6, 7))
        put(image, at, rng.choice((old & ~7 | state, units << 20 | state, units << 20 | old & 7, units << 20 | 6)).to_bytes(8, "little"))


def damage_log(plan, image):
    """A field of a log entry's head, of a descriptor, or of a data page."""
    rng = plan.rng
    if not plan.logs or plan.at["log"] + plan.log_length > len(image):
        return
    place, length = rng.choice(plan.logs)
    entry = ring_get(plan, image, place, length)
    count, page = struct.unpack_from("<I", entry, 24)[0], PAGE * rng.randrange(length // PAGE)
    row = 64 + 32 * rng.randrange(max(1, min(count, 126)))
    ring = plan.log_length
    spots = [0, 0, 4096, 65536, 131072, 196608 - PAGE, 196608, plan.at["log"], plan.at["log"] - PAGE, plan.at["log"] + ring, plan.length, plan.length - PAGE,
             1 << 63, (1 << 63) - PAGE, TOP - PAGE, plan.length + MB]
    at, width, likely = rng.choice((
        (0, 4, FEW), (8, 4, (0, PAGE, length - PAGE, length + PAGE, ring, ring + PAGE)), (12, 4, (0, PAGE, place, ring, ring - PAGE, place + 512)),
        (16, 8, (0, 1, 2, 6)), (24, 4, (0, 1, count - 1, count + 1, 126, 127, 1 << 27, (1 << 27) + count)), (32, 16, FEW), (48, 8, (0, len(image), len(image) + 1, len(image) - 1)),
        (48, 8, (len(image) + 1, plan.length)), (56, 8, (0, len(image), plan.length + 1, plan.length + 2 * MB, LONGEST, LONGEST + 1)), (row, 4, FEW),
        (row + 4, 4, FEW), (row + 8, 8, (0, PAGE, 512, MB, PAGE + 8, TOP - PAGE, 1 << 63)), (row + 16, 8, spots), (row + 16, 8, spots), (row + 24, 8, FEW), (page, 4, FEW),
        (page + 4, 4, FEW), (page + 4092, 4, FEW)))
    change(plan, entry, at, width, likely)
    if mended(rng):
        claimed = int.from_bytes(entry[8:12], "little")
        if length < claimed <= ring and claimed % PAGE == 0:
            ring_put(plan, image, place, entry)
            entry = ring_get(plan, image, place, claimed)
        seal(entry, 0, claimed if PAGE <= claimed <= len(entry) and claimed % PAGE == 0 else len(entry))
    ring_put(plan, image, place, entry)


def damage_length(plan, image):
    rng = plan.rng
    length = rng.choice((rng.randrange(16), MB - 1, MB, rng.randrange(len(image) + 1), len(image) - 1, len(image) - 512, len(image) - MB,
                         rng.choice(list(plan.at.values())) + rng.choice((0, -1, 1, 4096)), len(image) + rng.choice((1, PAGE, MB))))
    length = max(0, length)
    del image[length:]
    image.extend(bytes(length - len(image)))


def damage_type(plan, image):
    image[plan.rng.randrange(10)] ^= 1 << plan.rng.randrange(8)


SETTLED = (damage_regions, damage_metadata, damage_value, damage_blocks, damage_blocks)
HELD = (damage_header,) * 5 + (damage_log,) * 7 + (damage_length,) * 2 + (damage_type,)


def made(seed):
    """The damaged file of a seed, and what it was made as."""
    rng = random.Random(seed)
    plan = Plan(rng)
    image = sound(plan)
    harm = rng.choice((0, 1, 1, 1, 1, 1, 2, 3))
    early = [rng.choice(SETTLED) for _ in range(harm) if rng.random() < 0.6]
    late = [rng.choice(HELD + SETTLED if rng.random() < 0.2 else HELD) for _ in range(harm - len(early))]
    for damage in early:
        damage(plan, image)
    kind = unsettle(plan, image)
    for damage in late:
        if len(image) >= MB:
            damage(plan, image)
    return bytes(image), plan, f"{kind} log, " + (", ".join(d.__name__.replace("_", " ") for d in early + late) or "sound")


# The comparison.

def write(path, data):
    """Writes a file with holes where it holds zeros."""
    step, zeros = 65536, bytes(65536)
    with open(path, "wb") as file:
        file.truncate(len(data))
        for at in range(0, len(data), step):
            if data[at:at + step] != zeros[:len(data) - at]:
                file.seek(at)
                file.write(data[at:at + step])


def said(folder, *words):
    """What the program prints, without the system's reasons, and its status. Files may not grow above LONGEST: a longer one is a fault of
    the store."""
    done = subprocess.run([PROGRAM, *map(str, words)], cwd=folder, stdout=subprocess.PIPE, stderr=subprocess.PIPE, timeout=120,
                          restore_signals=False, errors="replace")
    return done.stdout + "".join(line for line in done.stderr.splitlines(True) if not line.startswith("vhdx: ")), done.returncode


def ranges(plan, rng, answer):
    """A range of sectors for `dump`: near a block's ends, anywhere, or one that is refused."""
    sectors = answer.disk.size // 512 if isinstance(answer, model.Opened) else 1
    block = rng.choice(plan.present or [0]) * plan.block // 512
    first = rng.choice((block, block + plan.block // 512 - 8, rng.randrange(sectors), 0, sectors - 8, sectors, sectors - 1, rng.getrandbits(64)))
    count = rng.choice((1, 8, 8, 16, 64, 2048, 2049, 0, rng.getrandbits(64)) if rng.random() < 0.3 else (1, 8, 8, 16))
    return max(0, first), count


def compared(seed, folder):
    """The number of the refusal that a file met, and the differences."""
    data, plan, kind = made(seed)
    rng = random.Random(-seed - 1)
    path = pathlib.Path(folder) / NAME
    answer = model.open_file(data)
    try:
        settled = model.settle(data)[1]
    except model.Refused:
        settled = model.Settled(data)
    first, count = ranges(plan, rng, answer)
    calls = [(("info", NAME), model.info(NAME, answer)), (("dump", NAME, first, count), model.dump(NAME, answer, first, count)),
             (("check", NAME), model.check(NAME, data))]
    if rng.random() < 0.5:
        calls.reverse()
    met, differences = {call[0][0]: int(call[1][0].split()[1]) if call[1][1] else 0 for call in calls}, []
    if settled.length > LONGEST:
        met, calls = {"info": "fault"}, [(("info", NAME), ("fault store 1\n", 3))]
    write(path, data)
    for words, expected in calls:
        try:
            found = said(folder, *words)
        except subprocess.TimeoutExpired:
            found = "no end", None
        if found != expected:
            differences.append(f"seed {seed} ({kind}): {' '.join(map(str, words))}\n  model   {expected[1]} {expected[0][:300].rstrip()}\n"
                               f"  program {found[1]} {found[0][:300].rstrip()}")
    held = settled.read(0, min(settled.length, LONGEST)) if settled.updates or settled.length > len(data) else data
    if settled.length <= LONGEST and path.read_bytes() != held:
        differences.append(f"seed {seed} ({kind}): the bytes left in the file aren't the settled ones")
    replayed = held != data
    return met["info"], met.get("dump"), replayed, kind.split(" log")[0], differences


def some(seeds):
    """Compares the files of some seeds in a folder of their own."""
    resource.setrlimit(resource.RLIMIT_FSIZE, (LONGEST, LONGEST))
    with tempfile.TemporaryDirectory() as folder:
        return [compared(seed, folder) for seed in seeds]


def main():
    parser = argparse.ArgumentParser(description=__doc__.split("\n\n")[0])
    parser.add_argument("--files", type=int, default=1000)
    parser.add_argument("--seed", type=int, default=0)
    asked = parser.parse_args()
    infos, dumps, logs, replayed, differences = collections.Counter(), collections.Counter(), collections.Counter(), 0, 0
    seeds = range(asked.seed, asked.seed + asked.files)
    with concurrent.futures.ProcessPoolExecutor(os.cpu_count()) as pool:
        for results in pool.map(some, (seeds[at:at + 50] for at in range(0, len(seeds), 50))):
            for info, dump, changed, kind, found in results:
                infos[info] += 1
                dumps[dump] += dump in (31, 32, 33)
                logs[kind] += 1
                replayed += changed
                differences += len(found)
                for line in found:
                    print(line, flush=True)
    print(f"{asked.files} files from seed {asked.seed}: {infos.pop(0, 0)} open, {replayed} changed by their log; refused: "
          + ", ".join(f"{number} {count}" for number, count in sorted(infos.items(), key=lambda pair: str(pair[0]).zfill(5))))
    print("dumps refused: " + ", ".join(f"{number} {count}" for number, count in sorted((+dumps).items())))
    print("made with logs: " + ", ".join(f"{kind} {count}" for kind, count in sorted(logs.items())))
    print(f"{differences} differences")
    sys.exit(1 if differences else 0)


if __name__ == "__main__":
    main()
