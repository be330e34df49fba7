# What the measurements of the program share: a folder of their own, the program, scripts in qemu-io's words, and the time of a command.
# The program is the one that the launcher runs, or another one that the variable `program` names from the root on.
set -e
top=$(cd "$(dirname "$0")/.." && pwd)
work=$(mktemp -d)
trap 'rm -rf "$work"' EXIT
cd "$work"
if [ -z "$program" ]; then
  "$top/vhdx" --version > /dev/null
  program=$top/crates/vhdx/out/vhdx
  [ -x "$program" ] || program=$top/dist/vhdx
fi

# The calls of scripts once more, as qemu-io takes them: it counts bytes.
as_qemu() {
  for calls in "$@"; do
    awk '$1 == "write" { printf "write -q -P 0x%s %.0f %d\n", $4, 512 * $2, 512 * $3 }
         $1 == "read" { printf "read -q %.0f %d\n", 512 * $2, 512 * $3 }
         $1 == "flush" { print "flush" }' "$calls" > "$calls.qemu"
  done
}

# 256 MB by 1 MB: written, and read.
awk 'BEGIN { for (i = 0; i < 256; i++) printf "write %d 2048 %02x\n", 2048 * i, i; print "flush" }' > fill
awk 'BEGIN { for (i = 0; i < 256; i++) printf "read %d 2048\n", 2048 * i }' > read

# Milliseconds of the best of five runs of a command, and its peak memory.
measure() {
  local best=999999999 start took
  for _ in 1 2 3 4 5; do
    start=$(date +%s%N)
    "$@" > /dev/null
    took=$(($(date +%s%N) - start))
    [ "$took" -lt "$best" ] && best=$took
  done
  local peak
  peak=$( { /usr/bin/time -f %M "$@" > /dev/null; } 2>&1 | tail -n 1)
  awk -v ns="$best" -v kb="$peak" 'BEGIN { printf "%7.1f ms %7d KB\n", ns / 1e6, kb }'
}
