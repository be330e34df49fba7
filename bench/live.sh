#!/usr/bin/env bash
# Time and peak memory of the merge of a leaf that is written meanwhile: 256 MB in 65,536 pieces of 4 KB all over a disk of 16 GB, stripe by
# stripe, with a write of 4 KB behind every fourth stripe, 4,096 in all; then what these made missing is copied again, and the leaf is retired.
# Beside it qemu's live commit of the same writes in a qcow2 file into a VHDX file, with the same 4,096 writes made over NBD meanwhile.
# Run by hand; needs the kit, and the packages qemu-utils, qemu-system-common, python3 and time.
here=$(cd "$(dirname "$0")" && pwd)
. "$here/common.sh"

sectors=33554432
awk 'BEGIN { for (i = 0; i < 65536; i++) printf "write %d 8 5a\n", 512 * (i * 40503 % 65536); print "flush" }' > scattered
awk 'BEGIN { for (i = 0; i < 4096; i++) printf "write %d 8 a5\n", 512 * (i * 25173 % 65536) + 8 }' > meanwhile
awk '{ for (k = 0; k < 4; k++) printf "fetch %d\nput\n", 4 * (NR - 1) + k; print } END { print "copy\nfinish" }' meanwhile > live
as_qemu scattered meanwhile

for run in 1 2 3; do
  rm -f base.vhdx leaf.vhdx under.vhdx over.qcow2
  "$program" make dynamic base.vhdx --sectors "$sectors" > /dev/null
  "$program" make child leaf.vhdx --parent base.vhdx > /dev/null
  "$program" steps leaf.vhdx < scattered > /dev/null
  qemu-img create -q -f vhdx -o block_size=32M under.vhdx 16G
  qemu-img create -q -f qcow2 -F vhdx -b under.vhdx over.qcow2
  qemu-io -f qcow2 -t writeback over.qcow2 < scattered.qemu > /dev/null
  sync
  ours=$(/usr/bin/time -f '%e s %M KB' "$program" steps leaf.vhdx --merge leaf.vhdx < live 2>&1 > told | tail -n 1)
  grep -q 'finish = done' told || tail -n 2 told
  theirs=$(python3 "$here/live_commit.py" under.vhdx over.qcow2 meanwhile.qemu)
  printf 'live merge %-18s qemu live commit %s\n' "$ours" "$theirs"
  "$program" info leaf.vhdx | head -n 1
  qemu-img check -q base.vhdx && echo 'qemu-img check: clean'
done
