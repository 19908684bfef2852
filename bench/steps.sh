#!/usr/bin/env bash
# Runs loops of arithmetic, calls, memory and phis (bench/steps.py) of some 10,000,000 steps each by `step_rows`, and prints the
# steps, processor time and steps a second; beside it the processor time of the interpreter of Debian's LLVM 14 on the same
# module.
set -eu
. "$(dirname "$0")/build.sh"
build step_rows
work=$(mktemp -d)
trap 'rm -rf "$work"' EXIT

measured() { # words
  /usr/bin/time -o "$work/time" -f '%U %S' "$@" >"$work/lines"
  tail -n 1 "$work/time" | awk '{ printf "%.2f", $1 + $2 }'
}
run() { # shape rounds
  python3 "$(dirname "$0")/steps.py" "$1" "$2" >"$work/m.ll"
  printf '; == %s\n{"version":1,"modules":["m.ll"],"entry":{"name":"main","args":[]}}\n; --\n' "$1" | cat - "$work/m.ll" >"$work/rows"
  own=$(measured "$program" "$work/rows")
  steps=$(sed 's/.* in //' "$work/lines")
  other=$(measured lli --jit-kind=mcjit --force-interpreter -opaque-pointers "$work/m.ll")
  rate=$(awk -v n="$steps" -v s="$own" 'BEGIN { printf "%.1f", n / s / 1000000 }')
  printf '%-8s %10s steps  %s s, %s million a second; lli %s s\n' "$1" "$steps" "$own" "$rate" "$other"
}
run sums 530000
run calls 1700000
run memory 1120000
run phis 3340000
