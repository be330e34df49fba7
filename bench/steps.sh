#!/usr/bin/env bash
# Time and peak memory of `steps`, beside `qemu-io` with the same calls over a file of its own: 256 sequential writes of 1 MB into a
# new file, 65,536 writes of 4 KB into the blocks that are there then, 4,096 writes of 4 KB that each allocate a block of 1 MB, and
# 256 reads of 1 MB. qemu-io's cache is writeback, so that it syncs where the format or a flush asks for it, as `steps` does.
# Run by hand; needs the kit, and the packages qemu-utils and time.
. "$(dirname "$0")/common.sh"

awk 'BEGIN { for (i = 0; i < 65536; i++) printf "write %d 8 5a\n", 8 * (i * 40503 % 65536); print "flush" }' > small
awk 'BEGIN { for (i = 0; i < 4096; i++) printf "write %d 8 5a\n", 2048 * (i * 2531 % 4096) + 1024; print "flush" }' > spread

as_qemu fill small spread read

# Seconds and peak memory of a script over a file.
ours() { /usr/bin/time -f '%e s %M KB' "$program" steps ours.vhdx < "$1" 2>&1 > /dev/null | tail -n 1; }
qemu() { /usr/bin/time -f '%e s %M KB' qemu-io -f vhdx -t writeback qemu.vhdx < "$1.qemu" 2>&1 > /dev/null | tail -n 1; }
both() { printf '%-28s steps %-20s qemu-io %s\n' "$1" "$(ours "$2")" "$(qemu "$2")"; }

anew() {
  rm -f ours.vhdx qemu.vhdx
  "$program" make dynamic ours.vhdx --sectors 2147483648 --block "$1" > /dev/null
  qemu-img create -q -f vhdx -o "block_size=${1}M" qemu.vhdx 1T
}
anew 32
both '256 MB, 1 MB at a time:' fill
both '65,536 of 4 KB, in place:' small
both '256 MB read:' read
anew 1
both '4,096 of 4 KB, each anew:' spread
qemu-img check -q ours.vhdx && echo 'qemu-img check: clean'
