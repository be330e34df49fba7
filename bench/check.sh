#!/usr/bin/env bash
# Time and peak memory of `check`, beside `qemu-img check`, which looks for no overlap: a disk of 1 TB whose 1,048,576 blocks are all there,
# in order and in no order, and one in which none is. Run by hand; needs the kit, and the packages qemu-utils and time.
. "$(dirname "$0")/common.sh"

# A dynamic file of a disk of 1 TB whose blocks have places in this order; the file is sparse.
make_full() {
  "$program" make dynamic "$1" --sectors 2147483648 --block 1 > /dev/null
  python3 - "$1" "$2" <<'PYTHON'
import random, struct, sys, uuid
MB, BLOCKS = 1 << 20, 1 << 20
with open(sys.argv[1], "r+b") as file:
    file.seek(196608)
    table = file.read(65536)
    rows = [struct.unpack_from("<16sQ", table, 16 + 32 * i) for i in range(struct.unpack_from("<I", table, 8)[0])]
    at = next(at for id_, at in rows if uuid.UUID(bytes_le=id_) == uuid.UUID("2DC27766-F623-4200-9D64-115E9BFD4A08"))
    file.seek(0, 2)
    first = file.tell() // MB
    units = list(range(first, first + BLOCKS))
    if sys.argv[2] == "none":
        random.Random(1).shuffle(units)
    # behind the entries of 4,096 blocks stands that of their bitmap
    entries = bytearray()
    for begin in range(0, BLOCKS, 4096):
        entries += struct.pack("<4096Q", *(unit << 20 | 6 for unit in units[begin:begin + 4096])) + bytes(8)
    file.seek(at)
    file.write(entries[:-8])
    file.truncate((first + BLOCKS) * MB)
PYTHON
}

make_full order.vhdx order
make_full none.vhdx none
"$program" make dynamic empty.vhdx --sectors 2147483648 --block 1 > /dev/null
for file in order none empty; do
  [ "$("$program" check $file.vhdx)" = clean ] || exit 1
  echo "$file:	check $(measure "$program" check $file.vhdx)	qemu-img $(measure qemu-img check -q $file.vhdx)	info $(measure "$program" info $file.vhdx)"
done
