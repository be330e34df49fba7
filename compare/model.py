"""What opening a VHDX file means, written a second time: from [MS-VHDX] and the project's written rules alone, without a look at its
definitions, its code or its tests. It is evidence beside the proofs: compare/damaged.py holds the program to it.

open_file(data) gives Opened(..) or Refused(number, name, values), the first rule that the bytes break; sector(opened, n) the bytes of a
sector of its disk; info(name, answer) and dump(name, answer, first, count) what these commands print, and their status. There is a
function for each rule, in the order in which they are asked. Other files aren't looked at: of a file with a parent the model judges its own
tables and its locator's type, and of a retired one that no file has the name to which it leads.
"""
import collections
import functools
import struct
import uuid

PAGE, MB = 4096, 1 << 20
NOTHING = bytes(16)
MOST_SECTORS = 2048

Header = collections.namedtuple("Header", "copy number data_write log log_version version log_length log_offset")
Entry = collections.namedtuple("Entry", "place length tail number flushed last updates")
Block = collections.namedtuple("Block", "index offset length")
Item = collections.namedtuple("Item", "index key offset length required")
Opened = collections.namedtuple("Opened", "header regions disk settled")
Disk = collections.namedtuple("Disk", "block leave parent size id logical physical retired locator")


class Refused(Exception):
    """The rule that a file breaks first, by number and name, and the values that its line shows."""

    def __init__(self, number, name, values=""):
        super().__init__(number, name, values)
        self.number, self.name, self.values = number, name, values


class Settled:
    """A file's bytes, the log's updates laid over them in their order (no bytes: zeros), and zeros up to the length."""

    def __init__(self, data, updates=(), length=0):
        self.data, self.updates = data, updates
        self.length = max([len(data), length] + [end for _, end, _ in updates])

    def read(self, at, count):
        out = bytearray(self.data[at:at + count])
        out.extend(bytes(count - len(out)))
        for start, end, new in self.updates:
            low, high = max(start, at), min(end, at + count)
            if low < high:
                out[low - at:high - at] = new[low - start:high - start] if new else bytes(high - low)
        return bytes(out)


# Numbers and texts.

TABLE = []
for byte in range(256):
    for _ in range(8):
        byte = byte >> 1 ^ (0x82F63B78 if byte & 1 else 0)
    TABLE.append(byte)


def crc_on(value, data):
    for byte in data:
        value = TABLE[(value ^ byte) & 255] ^ value >> 8
    return value


STEP = bytes(1024)
OVER_ZEROS = [crc_on(1 << bit, STEP) for bit in range(32)]


@functools.lru_cache(maxsize=256)
def crc32c(data):
    """The CRC-32C; 1,024 zeros at once, since what they do to the value is linear in its bits."""
    value = 0xFFFFFFFF
    for at in range(0, len(data), len(STEP)):
        if data[at:at + len(STEP)] == STEP:
            value = functools.reduce(int.__xor__, (over for bit, over in enumerate(OVER_ZEROS) if value >> bit & 1), 0)
        else:
            value = crc_on(value, data[at:at + len(STEP)])
    return value ^ 0xFFFFFFFF


def checksum_holds(data):
    """The four bytes at 4 are the CRC-32C of all bytes, themselves taken as zeros."""
    return struct.unpack_from("<I", data, 4)[0] == crc32c(bytes(data[:4] + bytes(4) + data[8:]))


def id_text(id_):
    return "{%s}" % uuid.UUID(bytes_le=id_)


def id_bytes(text):
    return uuid.UUID(text).bytes_le


def whole(number, unit):
    return number % unit == 0


def overlap(a, a_length, b, b_length):
    """Whether two ranges have a byte together; an empty one has none."""
    return max(a, b) < min(a + a_length, b + b_length)


def touching(one, all_):
    """The indices of all others that overlap one."""
    return [other.index for other in all_ if other.index != one.index and overlap(one.offset, one.length, other.offset, other.length)]


def is_name(text):
    return 1 <= len(text.encode("utf-8")) <= 255 and not set(text) & set("/\\\0") and text not in (".", "..")


# The file type identifier and the headers ([MS-VHDX], Header Section).

def file_type(data):
    if data[:8] != b"vhdxfile":
        raise Refused(1, "NotVhdx")
    if len(data) < MB:
        raise Refused(2, "TooShort", f"length {len(data)}")


def header_copy(data, copy):
    """Header copy 1 or 2, or None where its signature or its checksum is wrong."""
    page = data[copy * 65536:copy * 65536 + PAGE]
    valid = page[:4] == b"head" and checksum_holds(page)
    return Header(copy, *struct.unpack_from("<Q16x16s16sHHIQ", page, 8)) if valid else None


def current_header(data):
    """The valid copy with the greater number, copy 1 where they are equal."""
    copies = [header for header in (header_copy(data, 1), header_copy(data, 2)) if header]
    if not copies:
        raise Refused(3, "NoHeader")
    return max(copies, key=lambda header: (header.number, -header.copy))


def versions(header):
    if header.version != 1 or header.log != NOTHING and header.log_version != 0:
        raise Refused(4, "BadVersion", f"version {header.version} log {header.log_version}")


def log_place(header, length):
    at, size = header.log_offset, header.log_length
    if not whole(at, MB) or not whole(size, MB) or at < MB or size < MB or at + size > length:
        raise Refused(5, "BadLogPlace", f"offset {at} length {size}")


# The log ([MS-VHDX], Log).

def around(ring, place, count):
    """Bytes of the ring from a place on, going on at its beginning behind its end."""
    return ring[place:place + count] + ring[:max(0, place + count - len(ring))]


def update_of(descriptor, number, header):
    """What a descriptor names: (start, end, kind, leading and trailing bytes), or None where it breaks a rule."""
    kind, trailing, leading, at, own_number = struct.unpack("<4s4s8sQQ", descriptor)
    if kind not in (b"zero", b"desc") or own_number != number:
        return None
    length = int.from_bytes(leading, "little") if kind == b"zero" else PAGE
    forbidden = length and (at < 196608 or overlap(at, length, header.log_offset, header.log_length))
    if not whole(at, PAGE) or not whole(length, PAGE) or at + length > 1 << 63 or forbidden:
        return None
    return at, at + length, kind, leading, trailing


def data_of(page, number, leading, trailing):
    """The page that a data sector and its descriptor's leading and trailing bytes give, or None where signature or number is wrong."""
    high, low = struct.unpack("<4xI4084xI", page)
    return leading + page[8:4092] + trailing if page[:4] == b"data" and high << 32 | low == number else None


def entry_at(ring, place, header):
    """The valid log entry at a place of the ring, or None."""
    signature, _, length, tail, number, count, log, flushed, last = struct.unpack_from("<4sIIIQI4x16sQQ", ring, place)
    if (signature != b"loge" or not whole(length, PAGE) or not PAGE <= length <= len(ring) or number == 0 or log != header.log
            or not whole(tail, PAGE) or tail >= len(ring)):
        return None
    described = -(-(64 + 32 * count) // PAGE)
    entry = around(ring, place, length)
    if described * PAGE > length or not checksum_holds(entry):
        return None
    named = [update_of(entry[64 + 32 * i:96 + 32 * i], number, header) for i in range(count)]
    if None in named or (described + sum(kind == b"desc" for _, _, kind, *_ in named)) * PAGE > length:
        return None
    pages = (entry[at:at + PAGE] for at in range(described * PAGE, length, PAGE))
    updates = [(at, end, data_of(next(pages), number, *ends) if kind == b"desc" else b"") for at, end, kind, *ends in named]
    if any(new is None for _, _, new in updates):
        return None
    return Entry(place, length, tail, number, flushed, last, updates)


def sequence_ending(last, entries, ring_length):
    """The sequence, or None, whose last entry is this one: from its tail on, each where the one before ends, at most once round."""
    at, total, sequence = last.tail, 0, []
    while True:
        entry = entries.get(at)
        if entry is None or sequence and entry.number != sequence[-1].number + 1:
            return None
        sequence.append(entry)
        total += entry.length
        if total > ring_length:
            return None
        if at == last.place:
            return sequence
        at = (at + entry.length) % ring_length


def active_sequence(data, header):
    """The sequence with the greatest last number, the lower place of its last entry where equal; empty where nothing is to be replayed."""
    if header.log == NOTHING:
        return []
    ring = data[header.log_offset:header.log_offset + header.log_length]
    found = (entry_at(ring, place, header) for place in range(0, len(ring), PAGE))
    entries = {entry.place: entry for entry in found if entry}
    sequences = filter(None, (sequence_ending(entry, entries, len(ring)) for entry in entries.values()))
    return max(sequences, key=lambda sequence: (sequence[-1].number, -sequence[-1].place), default=[])


def replay(data, sequence):
    """The settled file: refused where it is shorter than the last entry says that it was flushed to."""
    if not sequence:
        return Settled(data)
    if len(data) < sequence[-1].flushed:
        raise Refused(14, "TruncatedBelowLog", f"wanted {sequence[-1].flushed} found {len(data)}")
    return Settled(data, [update for entry in sequence for update in entry.updates], sequence[-1].last)


def settle(data):
    """The current header and the settled file."""
    file_type(data)
    header = current_header(data)
    versions(header)
    log_place(header, len(data))
    return header, replay(data, active_sequence(data, header))


# The region tables ([MS-VHDX], Region Table).

REGIONS = {id_bytes("2DC27766-F623-4200-9D64-115E9BFD4A08"): "bat", id_bytes("8B7CA206-4790-4B9A-B8FE-575F050F886E"): "metadata"}


def region_entries(settled):
    """The entries (id, offset, length, flags) of the first valid copy."""
    for at in (196608, 262144):
        table = settled.read(at, 65536)
        count = struct.unpack_from("<I", table, 8)[0]
        if table[:4] == b"regi" and count <= 2047 and checksum_holds(table):
            return [struct.unpack_from("<16sQII", table, 16 + 32 * i) for i in range(count)]
    raise Refused(6, "NoRegionTable")


def unknown_regions(entries):
    for id_, _, _, flags in entries:
        if id_ not in REGIONS and flags & 1:
            raise Refused(7, "UnknownRegion", f"id {id_text(id_)}")


def known_regions(entries):
    """The first place (offset, length) of each known region, by its name, in the table's order."""
    places = {}
    for id_, offset, length, _ in entries:
        if id_ in REGIONS:
            places.setdefault(REGIONS[id_], (offset, length))
    for name in ("bat", "metadata"):
        if name not in places:
            raise Refused(8, "MissingRegion", name)
    return places


def region_places(entries, places, header, length):
    ids = [REGIONS.get(entry[0]) for entry in entries]
    for name, (at, size) in places.items():
        other = places["metadata" if name == "bat" else "bat"]
        if (ids.count(name) > 1 or not whole(at, MB) or not whole(size, MB) or at < MB or size < MB or at + size > length
                or overlap(at, size, header.log_offset, header.log_length) or overlap(at, size, *other)):
            raise Refused(9, "RegionPlace", name)


# The metadata region ([MS-VHDX], Metadata Region).

# A known item's id, and whether it is a user's.
PARAMETERS = id_bytes("CAA16737-FA36-4D43-B3B6-33F0AA44E76B"), 0
SIZE = id_bytes("2FA54224-CD1B-4876-B211-5DBED83BF4B8"), 0
DISK_ID = id_bytes("BECA12AB-B2E6-4523-93EF-C309E000C746"), 0
LOGICAL = id_bytes("8141BF1D-A96F-4709-BA47-F233A8FAAB5F"), 0
PHYSICAL = id_bytes("CDA348C7-445D-4471-9CC9-E9885251C556"), 0
LOCATOR = id_bytes("A8D35F2D-B30B-454D-ABF7-D3D84834AB0C"), 0
LOCATOR_TYPE = id_bytes("B04AEFB7-D19E-4A81-B789-25B8E9445913")
RETIRED = id_bytes("7D3F0A52-6C1B-4E0E-9B1A-2F4C8E6D9A31"), 1
LENGTHS = {PARAMETERS: 8, SIZE: 8, DISK_ID: 16, LOGICAL: 4, PHYSICAL: 4}
KNOWN = (*LENGTHS, LOCATOR, RETIRED)


def metadata_entries(settled, place):
    """The entries of the metadata table, counted from 1; a wrong signature or count is refused as entry 0's."""
    table = settled.read(place[0], 65536)
    count = struct.unpack_from("<H", table, 10)[0]
    if table[:8] != b"metadata" or count > 2047:
        raise Refused(10, "BadMetadataTable", "entry 0")
    rows = ((i, *struct.unpack_from("<16sIII", table, 32 * i)) for i in range(1, count + 1))
    return [Item(i, (id_, flags & 1), offset, length, flags & 4) for i, id_, offset, length, flags in rows]


def metadata_places(items, place):
    """The first entry whose item is too long, outside its region, over another, or there twice; an item of length 0 has no place."""
    keys = collections.Counter(item.key for item in items)
    placed = [item for item in items if item.length]
    for item in items:
        outside = item.length and (item.offset < 65536 or item.offset + item.length > place[1])
        over = item.length and touching(item, placed)
        if item.length > MB or outside or over or keys[item.key] > 1:
            raise Refused(10, "BadMetadataTable", f"entry {item.index}")


def unknown_items(items):
    for item in items:
        if item.key not in KNOWN and item.required:
            raise Refused(11, "UnknownItem", f"id {id_text(item.key[0])}")


def item_values(items, settled, place):
    """The bytes of each known item, in the table's order."""
    return {item.key: settled.read(place[0] + item.offset, item.length) for item in items if item.key in KNOWN}


def has_parent(values):
    return len(values.get(PARAMETERS, b"")) == 8 and values[PARAMETERS][4] & 2 != 0


def missing_items(values):
    for key in (*LENGTHS, *([LOCATOR] if has_parent(values) else [])):
        if key not in values:
            raise Refused(12, "MissingItem", f"id {id_text(key[0])}")


def number_in(values, key):
    """The number that an item of its own length begins with (for the file parameters, the block size), else None."""
    right = len(values[key]) == LENGTHS[key]
    return struct.unpack_from("<Q" if key == SIZE else "<I", values[key])[0] if right else None


def block_fits(block):
    return block is not None and MB <= block <= 256 * MB and block & block - 1 == 0


def chunk_ratio(sector, block):
    return (1 << 23) * sector // block


def entry_count(blocks, ratio, parent):
    return -(-blocks // ratio) * (ratio + 1) if parent else blocks + (blocks - 1) // ratio


def size_fits(values, bat_length):
    """A size is held against its bound always, against sector and block only where these are right themselves."""
    size, logical, block = number_in(values, SIZE), number_in(values, LOGICAL), number_in(values, PARAMETERS)
    if size is None or size > 64 << 40:
        return False
    if logical not in (512, 4096):
        return True
    if not whole(size, logical) or size < logical:
        return False
    entries = entry_count(-(-size // block), chunk_ratio(logical, block), has_parent(values)) if block_fits(block) else 0
    return entries * 8 <= bat_length


def retired_name(value):
    """The name that a retired item holds: None for no item or one of length 0, False where it holds none."""
    try:
        name = (value or b"").decode("utf-16-le")
    except UnicodeDecodeError:
        return False
    return (name if is_name(name) else False) if value else None


def item_rules(values, bat_length):
    rules = {PARAMETERS: lambda: block_fits(number_in(values, PARAMETERS)), SIZE: lambda: size_fits(values, bat_length),
             DISK_ID: lambda: len(values[DISK_ID]) == 16, LOGICAL: lambda: number_in(values, LOGICAL) in (512, 4096),
             PHYSICAL: lambda: number_in(values, PHYSICAL) in (512, 4096), LOCATOR: lambda: True,
             RETIRED: lambda: retired_name(values[RETIRED]) is not False}
    for key in values:
        if not rules[key]():
            raise Refused(13, "BadItem", f"id {id_text(key[0])}")


def disk_of(values):
    block, flags = struct.unpack("<II", values[PARAMETERS])
    return Disk(block, flags & 1, flags & 2, number_in(values, SIZE), values[DISK_ID], number_in(values, LOGICAL),
                number_in(values, PHYSICAL), retired_name(values.get(RETIRED)), values.get(LOCATOR))


def sector_size(disk):
    if disk.logical == 4096:
        raise Refused(26, "SectorSize", "sector 4096")


def locator_type(disk):
    """A file with a parent has a locator of the one type that there is; none of the files that are compared has one, so no more is judged."""
    if disk.parent:
        if disk.locator[:16] == LOCATOR_TYPE:
            raise ValueError("a locator that leads to a parent")
        raise Refused(19, "BadLocator", "entry 0")


# The block allocation table and its blocks ([MS-VHDX], Blocks; BAT).

def blocks_of(disk, bat):
    """The table's entries that count, as (index, chunk, is bitmap, state, offset in bytes)."""
    blocks, ratio = -(-disk.size // disk.block), chunk_ratio(disk.logical, disk.block)
    found = []
    for index in range(entry_count(blocks, ratio, disk.parent)):
        chunk, within = divmod(index, ratio + 1)
        bitmap = within == ratio
        if disk.parent if bitmap else chunk * ratio + within < blocks:
            entry = struct.unpack_from("<Q", bat, index * 8)[0]
            found.append((index, chunk, bitmap, entry & 7, entry >> 20 << 20))
    return found


def bad_states(blocks, parent):
    return [index for index, _, bitmap, state, _ in blocks
            if state not in ((0, 6) if bitmap else (0, 1, 2, 3, 6, 7) if parent else (0, 1, 2, 3, 6))]


def block_states(blocks, parent):
    for index in bad_states(blocks, parent):
        raise Refused(15, "BadBatState", f"index {index}")


def bad_places(present, header, places, length):
    taken = [(header.log_offset, header.log_length), *places.values()]
    return [index for index, at, size in present if at < MB or at + size > length or any(overlap(at, size, *other) for other in taken)]


def block_places(present, header, places, length):
    for index in bad_places(present, header, places, length):
        raise Refused(16, "BlockPlace", f"index {index}")


def block_overlaps(present):
    for block in present:
        others = touching(block, present)
        if others:
            raise Refused(17, "BlockOverlap", f"index {block.index} and {min(others)}")


def lacking_bitmaps(blocks):
    bitmaps = {chunk: state for _, chunk, bitmap, state, _ in blocks if bitmap}
    return [index for index, chunk, bitmap, state, _ in blocks if state == 7 and not bitmap and bitmaps[chunk] == 0]


def block_bitmaps(blocks):
    for index in lacking_bitmaps(blocks):
        raise Refused(18, "BitmapMissing", f"index {index}")


# A file as a whole, and a sector of its disk.

def numbered(data):
    """The header, the settled file, its regions and its disk; the first rule that is broken before the blocks are looked at."""
    header, settled = settle(data)
    regions = region_entries(settled)
    unknown_regions(regions)
    places = known_regions(regions)
    region_places(regions, places, header, settled.length)
    items = metadata_entries(settled, places["metadata"])
    metadata_places(items, places["metadata"])
    unknown_items(items)
    values = item_values(items, settled, places["metadata"])
    missing_items(values)
    item_rules(values, places["bat"][1])
    disk = disk_of(values)
    sector_size(disk)
    return header, settled, places, disk


def present_in(disk, blocks):
    return [Block(index, at, MB if bitmap else disk.block) for index, _, bitmap, state, at in blocks if state > 5]


def opened(data):
    header, settled, places, disk = numbered(data)
    blocks = blocks_of(disk, settled.read(*places["bat"]))
    block_states(blocks, disk.parent)
    present = present_in(disk, blocks)
    block_places(present, header, places, settled.length)
    block_overlaps(present)
    block_bitmaps(blocks)
    locator_type(disk)
    return Opened(header, places, disk, settled)


def open_file(data):
    """Opened or Refused."""
    try:
        return opened(data)
    except Refused as why:
        return why


def bat_entry(at, index):
    entry = struct.unpack("<Q", at.settled.read(at.regions["bat"][0] + index * 8, 8))[0]
    return entry & 7, entry >> 20 << 20


def sector(at, number):
    """The bytes of a sector; None where the file leaves it to its parent."""
    disk = at.disk
    ratio = chunk_ratio(disk.logical, disk.block)
    block, within = divmod(number * disk.logical, disk.block)
    state, offset = bat_entry(at, block + block // ratio)
    if state == 7:
        chunk, bit = divmod(number, 1 << 23)
        bits = at.settled.read(bat_entry(at, chunk * (ratio + 1) + ratio)[1] + bit // 8, 1)[0]
        state = 6 if bits >> bit % 8 & 1 else 0
    if state == 6:
        return at.settled.read(offset + within, disk.logical)
    return None if state == 0 and disk.parent else bytes(disk.logical)


# All that is found wrong with a file.

def table_findings(header, settled, places, disk):
    """Every entry in a bad state; of the others every block in a bad place, every pair that overlaps, every block without its bitmap."""
    blocks = blocks_of(disk, settled.read(*places["bat"]))
    states = bad_states(blocks, disk.parent)
    good = [block for block in blocks if block[0] not in states]
    present = present_in(disk, good)
    pairs = [(a.index, b.index) for a in present for b in present if a.index < b.index and overlap(a.offset, a.length, b.offset, b.length)]
    found = ([Refused(15, "BadBatState", f"index {index}") for index in states]
             + [Refused(16, "BlockPlace", f"index {index}") for index in bad_places(present, header, places, settled.length)]
             + [Refused(17, "BlockOverlap", f"index {first} and {second}") for first, second in pairs]
             + [Refused(18, "BitmapMissing", f"index {index}") for index in lacking_bitmaps(good)])
    try:
        locator_type(disk)
    except Refused as why:
        found.append(why)
    return found


def region_copy_holds(settled, copy):
    table = settled.read(131072 + 65536 * copy, 65536)
    return table[:4] == b"regi" and checksum_holds(table) and struct.unpack_from("<I", table, 8)[0] <= 2047


def copy_findings(settled):
    front = settled.read(0, 196608)
    headers = [header_copy(front, copy) for copy in (1, 2)]
    found = [Refused(28, "HeaderCopy", f"copy {copy}") for copy in (1, 2) if not headers[copy - 1]]
    found += [Refused(29, "RegionCopy", f"copy {copy}") for copy in (1, 2) if not region_copy_holds(settled, copy)]
    return found + [Refused(30, "LogNamed")] * (any(headers) and current_header(front).log != NOTHING)


def findings(data):
    try:
        file_type(data)
    except Refused as why:
        return [why]
    try:
        rules = table_findings(*numbered(data))
    except Refused as why:
        rules = [why]
    try:
        settled = settle(data)[1]
    except Refused:
        settled = Settled(data)
    return rules + copy_findings(settled)


# What the commands print, and their statuses.

def refusal_line(name, refused):
    """A refusal of opening shows the file; those of a range of sectors show none."""
    file = "" if 31 <= refused.number <= 33 else name
    return " ".join(filter(None, ("refused", str(refused.number), refused.name, file, refused.values))) + "\n"


def info_line(name, at):
    disk = at.disk
    kind = "child" if disk.parent else "fixed" if disk.leave else "dynamic"
    return (f"{name} {kind} sectors {disk.size // disk.logical} sector {disk.logical} block {disk.block // MB} "
            f"id {id_text(at.header.data_write)} parent none\n")


def dump_lines(at, first, count):
    sectors = at.disk.size // at.disk.logical
    if count == 0:
        raise Refused(31, "EmptyRange")
    if count > MOST_SECTORS:
        raise Refused(33, "TooLong", f"count {count} limit {MOST_SECTORS}")
    if first + count > sectors:
        raise Refused(32, "OutOfRange", f"first {first} count {count} sectors {sectors}")
    return "".join(f"{n} {sector(at, n).hex()}\n" for n in range(first, first + count))


def check(name, data):
    found = findings(data)
    return ("".join(refusal_line(name, why).replace("refused", "finding", 1) for why in found) or "clean\n", 5 if found else 0)


def refused_line(name, answer):
    """The line of what refuses a file to be shown, if anything does: a rule, or that the file to which a retired one leads isn't there."""
    if isinstance(answer, Refused):
        return refusal_line(name, answer)
    return refusal_line(answer.disk.retired, Refused(21, "FileMissing")) if answer.disk.retired else None


def info(name, answer):
    refused = refused_line(name, answer)
    return (refused, 1) if refused else (info_line(name, answer), 0)


def dump(name, answer, first, count):
    refused = refused_line(name, answer)
    try:
        return (refused, 1) if refused else (dump_lines(answer, first, count), 0)
    except Refused as why:
        return refusal_line(name, why), 1
