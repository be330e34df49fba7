#!/usr/bin/env bash
# Time and peak memory of `serve`, beside `steps` with the same calls: 40,000 writes of 4 KB into blocks that are there, and a flush, by one
# guest and by four at once; 10,000 reads of 4 KB; and 4,000 reads of 1 MB of a child's parent, which the session seals. Run by hand; needs the
# kit, and the package time.
. "$(dirname "$0")/common.sh"

awk 'BEGIN { for (i = 0; i < 256; i++) printf "write %d 2048 11\n", 2048 * i; print "flush" }' > full
awk 'BEGIN { for (i = 0; i < 40000; i++) printf "write %d 8 %02x\n", 8 * (i * 40503 % 65536), i % 256; print "flush" }' > writes
awk 'BEGIN { for (i = 0; i < 10000; i++) printf "read %d 8\n", 8 * (i * 40503 % 65536) }' > reads
awk 'BEGIN { for (i = 0; i < 4000; i++) printf "read %d 2048\n", 2048 * (i * 131 % 256) }' > sealed
for calls in writes reads sealed; do
  awk '{ print 1, $0 }' $calls > $calls.1
  awk '{ print NR % 4 + 1, $0 }' $calls > $calls.4
done
"$program" make dynamic disk.vhdx --sectors 2097152 --block 32 > /dev/null
"$program" steps disk.vhdx < full > /dev/null

# Seconds of the best of five runs of a command over a script, and its processor seconds and memory.
best() {
  for _ in 1 2 3 4 5; do
    /usr/bin/time -f '%e s, processor %U + %S s, %M KB' "$program" "${@:2}" < "$1" 2>&1 > /dev/null | tail -n 1
  done | sort -n | head -n 1
}

for calls in writes reads; do
  echo "$calls, steps:             $(best $calls steps disk.vhdx)"
  echo "$calls, serve, one guest:  $(best $calls.1 serve disk.vhdx --workers 0)"
  echo "$calls, serve, four:       $(best $calls.4 serve disk.vhdx --workers 0)"
done
"$program" make child child.vhdx --parent disk.vhdx > /dev/null
echo "sealed, steps:             $(best sealed steps child.vhdx)"
echo "sealed, serve, one guest:  $(best sealed.1 serve child.vhdx --workers 0)"
echo "sealed, serve, four:       $(best sealed.4 serve child.vhdx --workers 0)"
