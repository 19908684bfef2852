#!/usr/bin/env bash
# Finds the functions on call cycles in rings and chains of growing size (bench/cycles.py), and prints how many they are,
# processor time and peak memory; beside it the processor time of reading, checking and linking alone.
set -eu
. "$(dirname "$0")/build.sh"
build link_rows
work=$(mktemp -d)
trap 'rm -rf "$work"' EXIT

measured() { # words
  /usr/bin/time -o "$work/time" -f '%U %S %M' "$program" "$@" >"$work/lines"
  tail -n 1 "$work/time" | awk '{ printf "%.2f s, %d MiB", $1 + $2, $3 / 1024 }'
}
run() { # shape size
  python3 "$(dirname "$0")/cycles.py" "$1" "$2" >"$work/rows"
  alone=$(measured "$work/rows")
  with=$(measured --cycles "$work/rows")
  printf '%-6s %8s  on cycles: %-6s %s; linked alone: %s\n' "$1" "$2" "$(tr ' ' '\n' <"$work/lines" | grep -c '^f')" "$with" "$alone"
}
for n in 16384 65535; do run ring "$n"; done
for n in 250000 1000000; do run chain "$n"; done
