#!/usr/bin/env bash
# Chains: 256 MB read through three files, each child owning every second 64 KB, by `steps --read-only`, by libvhdi over the same files,
# and by qemu-io over a qcow2 chain of the same shape; the opening of a chain of 64 clean files; and reads of what the base alone owns
# through 1, 8 and 64 files. Run by hand; needs the kit, and the packages qemu-utils, python3-libvhdi and time.
. "$(dirname "$0")/common.sh"

awk 'BEGIN { for (i = 0; i < 2048; i++) printf "write %d 128 a1\n", 256 * i; print "flush" }' > even
awk 'BEGIN { for (i = 0; i < 2048; i++) printf "write %d 128 b2\n", 256 * i + 128; print "flush" }' > odd
as_qemu fill even odd read

# The best of five runs: seconds and peak memory.
best() { for _ in 1 2 3 4 5; do /usr/bin/time -f '%e s %M KB' "$@" 2>&1 > /dev/null | tail -n 1; done | sort -n | head -n 1; }

"$program" make dynamic v0.vhdx --sectors 524288 > /dev/null
"$program" steps v0.vhdx < fill > /dev/null
"$program" make child v1.vhdx --parent v0.vhdx > /dev/null
"$program" steps v1.vhdx < even > /dev/null
"$program" make child v2.vhdx --parent v1.vhdx > /dev/null
"$program" steps v2.vhdx < odd > /dev/null
qemu-img create -q -f qcow2 q0.qcow2 256M
qemu-io -f qcow2 q0.qcow2 < fill.qemu > /dev/null
qemu-img create -q -f qcow2 -b q0.qcow2 -F qcow2 q1.qcow2
qemu-io -f qcow2 q1.qcow2 < even.qemu > /dev/null
qemu-img create -q -f qcow2 -b q1.qcow2 -F qcow2 q2.qcow2
qemu-io -f qcow2 q2.qcow2 < odd.qemu > /dev/null

# Reads the disk of a chain, and prints its checksum where that is asked for.
cat > libvhdi.py <<'PY'
import hashlib
import sys

import pyvhdi

files = []
for name in sys.argv[2:]:
    file = pyvhdi.file()
    file.open(name)
    if files:
        files[-1].set_parent(file)
    files.append(file)
total = hashlib.sha256()
for place in range(0, 268435456, 1048576):
    part = files[0].read_buffer_at_offset(1048576, place)
    if sys.argv[1] == "sum":
        total.update(part)
print(total.hexdigest())
PY
ours() { "$program" steps "$1" --read-only < "$2"; }
export -f ours
export program
echo "256 MB through three files:  steps $(best bash -c 'ours v2.vhdx read')"
echo "                             libvhdi $(best /usr/bin/python3 libvhdi.py read v2.vhdx v1.vhdx v0.vhdx)"
echo "                             qemu-io, qcow2 $(best sh -c 'qemu-io -f qcow2 -r q2.qcow2 < read.qemu')"
# Both see the same disk.
qemu-img convert -O raw q2.qcow2 raw.img
echo "libvhdi reads the qcow2's disk: $( [ "$(/usr/bin/python3 libvhdi.py sum v2.vhdx v1.vhdx v0.vhdx)" = "$(sha256sum < raw.img | cut -d' ' -f1)" ] && echo yes || echo NO )"

"$program" make dynamic f1.vhdx --sectors 524288 > /dev/null
"$program" steps f1.vhdx < fill > /dev/null
for i in $(seq 2 64); do "$program" make child "f$i.vhdx" --parent "f$((i - 1)).vhdx" > /dev/null; done
echo "opening 64 files:            info $(best "$program" info f64.vhdx)"
for i in 1 8 64; do echo "256 MB of the base, $i files: steps $(best bash -c "ours f$i.vhdx read")"; done
