#!/usr/bin/env bash
# Finds the least sets of demands of programs of many copies (bench/least.py) by `expand_rows`, compares how many demands they
# are and what their sizes add to with what the generator works out, and prints processor time and peak memory; beside it the
# same of reading, checking, linking and the roots alone.
set -eu
. "$(dirname "$0")/build.sh"
build expand_rows
work=$(mktemp -d)
trap 'rm -rf "$work"' EXIT

measured() { # mode
  /usr/bin/time -o "$work/time" -f '%U %S %M' "$program" "$1" "$work/rows" >"$work/line"
  tail -n 1 "$work/time" | awk '{ printf "%.2f s, %d MiB", $1 + $2, $3 / 1024 }'
}
run() { # program
  python3 "$(dirname "$0")/least.py" rows "$1" >"$work/rows"
  python3 "$(dirname "$0")/least.py" answers "$1" >"$work/wanted"
  alone=$(measured --roots)
  with=$(measured --counted)
  cmp "$work/line" "$work/wanted"
  printf '%-44s %s; roots alone: %s\n' "$(cat "$work/line")" "$with" "$alone"
}
for program_of in doubling:14:0 doubling:16:0 doubling:17:0 sharing:80:0 sharing:320:0 doubling:16:251:4 doubling:16:251:5; do
  run "$program_of"
done
