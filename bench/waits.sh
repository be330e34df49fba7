#!/usr/bin/env bash
# How long a guest's write of 4 KB takes inside a merge, and the merge beside guests that write without a pause: of a middle file and of the leaf,
# by two workers, beside qemu's live commit of the same writes in qcow2 files into a VHDX file, with the same calls made over NBD meanwhile.
# 256 MB on a disk of 16 GB, in 4,096 pieces of 64 KB and in 65,536 of 4 KB; 32,768 writes into pieces that the leaf has, by one guest and by four.
# Each three times: ours without probes, ours with them, qemu's; before each the load of the machine. Beside them `cp` of the middle file with one
# sync. What stands in the merged files at the last is compared. Run by hand, as root, for the kernel's probes; needs the kit, and the packages
# qemu-utils, qemu-system-common, python3, binutils and time.
here=$(cd "$(dirname "$0")" && pwd)
. "$here/common.sh"

sectors=33554432
awk 'BEGIN { for (i = 0; i < 4096; i++) printf "write %d 128 5a\n", 8192 * (i * 2517 % 4096); print "flush" }' > pieces64
awk 'BEGIN { for (i = 0; i < 65536; i++) printf "write %d 8 5a\n", 512 * (i * 40503 % 65536); print "flush" }' > pieces4
awk 'BEGIN { for (i = 0; i < 32768; i++) printf "write %d 8 a5\n", 8192 * (i * 1237 % 4096) + 8 * int(i / 4096) }' > writes64
awk 'BEGIN { for (i = 0; i < 32768; i++) printf "write %d 8 a5\n", 512 * (i * 25173 % 65536) }' > writes4
for size in 64 4; do
  as_qemu "pieces$size" "writes$size"
  for guests in 1 4; do
    awk -v guests="$guests" '{ print NR % guests + 1, $0 }' "writes$size" > "calls$size.$guests"
  done
done

load() { cut -d ' ' -f 1 /proc/loadavg; }

# Files anew: the pieces in a middle file, and in the leaf what guests write; or the pieces in the leaf, over the base.
fresh() {
  rm -f base.vhdx middle.vhdx leaf.vhdx
  "$program" make dynamic base.vhdx --sectors "$sectors" > /dev/null
  "$program" make child "$2.vhdx" --parent base.vhdx > /dev/null
  "$program" steps "$2.vhdx" < "pieces$1" > /dev/null
  if [ "$2" = middle ]; then
    "$program" make child leaf.vhdx --parent middle.vhdx > /dev/null
    "$program" steps leaf.vhdx < "writes$1" > /dev/null
  fi
  sync
}

# The same for qemu.
fresh_qemu() {
  rm -f under.vhdx over.qcow2 top.qcow2 ./*.sock
  qemu-img create -q -f vhdx -o block_size=32M under.vhdx 16G
  qemu-img create -q -f qcow2 -F vhdx -b under.vhdx over.qcow2
  qemu-io -f qcow2 -t writeback over.qcow2 < "pieces$1.qemu" > /dev/null
  if [ "$2" = middle ]; then
    qemu-img create -q -f qcow2 -F qcow2 -b over.qcow2 top.qcow2
    qemu-io -f qcow2 -t writeback top.qcow2 < "writes$1.qemu" > /dev/null
  fi
  sync
}

commit() {
  if [ "$2" = middle ]; then set -- "$1" qcow2:top.qcow2; else set -- "$1"; fi
  python3 "$here/waits.py" commit "$1" vhdx:under.vhdx qcow2:over.qcow2 "${@:2}"
}

copied() {
  /usr/bin/time -f '%e s' sh -c 'cp middle.vhdx copy && sync copy' 2>&1
  rm copy
}

for size in ${SIZES:-64 4}; do
  fresh "$size" middle
  echo "pieces of $size KB, cp of the middle file: $(copied) $(copied) $(copied)"
  for source in middle leaf; do
    for guests in 1 4; do
      echo "pieces of $size KB, $source, $guests guests"
      for run in 1 2 3; do
        fresh "$size" "$source"
        echo "  load $(load), serve:  $(/usr/bin/time -f '%e s %M KB' "$program" serve leaf.vhdx --workers 2 --merge $source.vhdx < "calls$size.$guests" 2>&1 > told | tail -n 1)"
        fresh "$size" "$source"
        echo "  load $(load), probed: $(python3 "$here/waits.py" serve "$program" "calls$size.$guests" "$source")"
        fresh_qemu "$size" "$source"
        echo "  load $(load), qemu:   $(commit "calls$size.$guests" "$source")"
      done
    done
    "$program" info leaf.vhdx | cut -d ' ' -f 1 | tr '\n' ' '
    qemu-img compare base.vhdx under.vhdx
  done
done
