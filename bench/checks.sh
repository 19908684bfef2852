#!/usr/bin/env bash
# Runs the two checks of modules over one function of growing size, and prints the checks' answer, time and peak
# memory. Shapes: a chain of blocks, each using the register of the block before; a ladder of branches and joins, three
# blocks to a join; one block of additions; and one switch with all its edges to one block. The greatest sizes are near
# the most blocks that a body may have, 65,535.
set -eu
. "$(dirname "$0")/build.sh"
build checks_bench
work=$(mktemp -d)
trap 'rm -rf "$work"' EXIT

run() { # shape size
  /usr/bin/time -f '%e s, %M KiB' "$program" "$1" "$2" 2>"$work/time" >"$work/line" || true
  printf '%-32s  %s\n' "$(cat "$work/line")" "$(tail -n 1 "$work/time")"
}
for n in 4000 16000 65535; do run chain "$n"; done
for n in 1300 5400 21800; do run ladder "$n"; done
for n in 25000 100000 400000; do run line "$n"; done
for n in 4000 16000 60000; do run switch "$n"; done
