#!/usr/bin/env bash
# Time and peak memory of a merge with no guest: 256 MB of a middle file are copied into its parent, in 65,536 pieces of 4 KB all over a disk
# of 16 GB, and in 256 of 1 MB. Beside it `cp` of the middle file, which has the same bytes at the same distances, with one sync; `cp` of as
# many bytes that lie together; and `qemu-img commit` of the same writes in a qcow2 file into a VHDX file.
# Run by hand; needs the kit, and the packages qemu-utils and time.
. "$(dirname "$0")/common.sh"

sectors=33554432
awk 'BEGIN { for (i = 0; i < 65536; i++) printf "write %d 8 5a\n", 512 * (i * 40503 % 65536); print "flush" }' > scattered
awk 'BEGIN { for (i = 0; i < 256; i++) printf "write %d 2048 5a\n", 131072 * i; print "flush" }' > whole
printf 'copy\nfinish\n' > merge

as_qemu scattered whole

timed() { /usr/bin/time -f '%e s %M KB' "$@" 2>&1 > /dev/null | tail -n 1; }

for script in scattered whole; do
  rm -f base.vhdx middle.vhdx leaf.vhdx under.vhdx over.qcow2
  "$program" make dynamic base.vhdx --sectors "$sectors" > /dev/null
  "$program" make child middle.vhdx --parent base.vhdx > /dev/null
  "$program" steps middle.vhdx < "$script" > /dev/null
  "$program" make child leaf.vhdx --parent middle.vhdx > /dev/null
  qemu-img create -q -f vhdx -o block_size=32M under.vhdx 16G
  qemu-img create -q -f qcow2 -F vhdx -b under.vhdx over.qcow2
  qemu-io -f qcow2 -t writeback over.qcow2 < "$script.qemu" > /dev/null
  head -c 268435456 /dev/zero | tr '\0' 'Z' > bytes
  sync
  apart=$(timed sh -c 'cp middle.vhdx copy && sync copy')
  rm copy
  ours=$(/usr/bin/time -f '%e s %M KB' "$program" steps leaf.vhdx --merge middle.vhdx < merge 2>&1 > /dev/null | tail -n 1)
  together=$(timed sh -c 'cp bytes copy && sync copy')
  rm copy bytes
  theirs=$(timed qemu-img commit -q -t writeback over.qcow2)
  printf '%-10s merge %-18s cp of the file %-18s of bytes together %-18s qemu-img commit %s\n' "$script:" "$ours" "$apart" "$together" "$theirs"
  "$program" info leaf.vhdx | tail -n 2 | cut -d ' ' -f 1
  qemu-img check -q base.vhdx && echo 'qemu-img check: clean'
done
