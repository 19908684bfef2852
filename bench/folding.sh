#!/usr/bin/env bash
# Folds functions of growing size and of many shapes (bench/folding.py) by a worklist, and prints the number of transfers, the
# time and the peak memory; beside it the time of reading and checking alone.
set -eu
. "$(dirname "$0")/build.sh"
build fold_bench
work=$(mktemp -d)
trap 'rm -rf "$work"' EXIT

run() { # shape size
  python3 "$(dirname "$0")/folding.py" "$1" "$2" >"$work/f.ll"
  /usr/bin/time -f '%e' "$program" read "$work/f.ll" 2>"$work/read" >/dev/null
  /usr/bin/time -f '%e s, %M KiB' "$program" worklist "$work/f.ll" 2>"$work/time" >"$work/line"
  printf '%-8s %8s  %-26s %s; read and checked alone: %s s\n' "$1" "$2" "$(cat "$work/line")" "$(tail -n 1 "$work/time")" "$(tail -n 1 "$work/read")"
}
for n in 262144 1048576; do run adds "$n"; done
for n in 5000 20000; do run nest "$n"; done
for n in 15000 60000; do run switch "$n"; done
for n in 7500 30000; do run fan "$n"; done
for n in 5000 20000; do run ladder "$n"; done
