#!/usr/bin/env bash
# Runs scripts of calls of a memory (bench/memory.py), and prints the last answer of each, processor time and peak memory. Shapes:
# blocks that are made and ended, one after the other, with the bytes that each further one takes at the peak; one large block
# that is made, filled, copied to another, and moved within itself; and variables at the start, beside which stands what
# reading and linking them takes without a memory.
set -eu
. "$(dirname "$0")/build.sh"
build memory_rows
work=$(mktemp -d)
trap 'rm -rf "$work"' EXIT

measured() { # words; sets seconds, peak and answer
  /usr/bin/time -o "$work/time" -f '%U %S %M' "$program" "$@" >"$work/lines"
  seconds=$(tail -n 1 "$work/time" | awk '{ printf "%.2f", $1 + $2 }')
  peak=$(tail -n 1 "$work/time" | awk '{ print $3 }')
  answer=$(sed 's/.*[ ,:]//' "$work/lines")
}
run() { # shape size
  python3 "$(dirname "$0")/memory.py" "$1" "$2" >"$work/rows"
  measured "$work/rows"
  printf '%-10s %9s  %-7s %s s, %s KiB' "$1" "$2" "$answer" "$seconds" "$peak"
}
few=0
for n in 1000000 10000000; do
  run blocks "$n"
  if [ "$few" != 0 ]; then awk -v a="$few" -v b="$peak" 'BEGIN { printf "; %.2f bytes a further block", (b - a) * 1024 / 9000000 }'; fi
  few=$peak
  printf '\n'
done
for shape in make fill copy move; do
  for n in 16777216 67108864; do run "$shape" "$n"; printf '\n'; done
done
for n in 250000 1000000; do
  run variables "$n"
  measured --linked "$work/rows"
  printf '; linked alone: %s s, %s KiB\n' "$seconds" "$peak"
done
