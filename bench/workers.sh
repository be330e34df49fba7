#!/usr/bin/env bash
# Time and peak memory of a merge that workers copy, beside `steps` with `copy`: 256 MB of a middle file in 65,536 pieces of 4 KB all over a disk
# of 16 GB, copied into its parent, by 0, 1, 2 and 4 workers with no guest; and by 2 beside four guests that write 4,096 times 4 KB meanwhile.
# Then the same of the leaf. Run by hand; needs the kit, and the package time.
. "$(dirname "$0")/common.sh"

sectors=33554432
awk 'BEGIN { for (i = 0; i < 65536; i++) printf "write %d 8 5a\n", 512 * (i * 40503 % 65536); print "flush" }' > scattered
awk 'BEGIN { for (i = 0; i < 4096; i++) printf "%d write %d 8 a5\n", i % 4 + 1, 512 * (i * 25173 % 65536) + 8 }' > guests
printf 'copy\nfinish\n' > merge
: > none

timed() { /usr/bin/time -f '%e s, processor %U + %S s, %M KB' "$program" "${@:2}" < "$1" 2>&1 > told | tail -n 1; }

# Files anew, with the pieces in the middle one, or in the leaf.
fresh() {
  rm -f base.vhdx middle.vhdx leaf.vhdx
  "$program" make dynamic base.vhdx --sectors "$sectors" > /dev/null
  "$program" make child middle.vhdx --parent base.vhdx > /dev/null
  [ "$1" = middle ] && "$program" steps middle.vhdx < scattered > /dev/null
  "$program" make child leaf.vhdx --parent middle.vhdx > /dev/null
  [ "$1" = leaf ] && "$program" steps leaf.vhdx < scattered > /dev/null
  sync
}

for source in middle leaf; do
  fresh "$source"
  echo "$source, steps with copy:            $(timed merge steps leaf.vhdx --merge $source.vhdx)"
  for workers in 0 1 2 4; do
    fresh "$source"
    echo "$source, serve, $workers workers:            $(timed none serve leaf.vhdx --workers $workers --merge $source.vhdx)"
  done
  fresh "$source"
  echo "$source, serve, 2 workers, 4 guests: $(timed guests serve leaf.vhdx --workers 2 --merge $source.vhdx)"
  "$program" info leaf.vhdx | cut -d ' ' -f 1
done
