#!/usr/bin/env bash
# Checks programs of many shapes (bench/check.py) with `occam check`, at a fourth of each size and whole, and prints its line,
# the bytes of the modules, processor time and peak memory; beside it the processor time of `opt -passes=verify
# -disable-output` over the same modules, one after another, where that tool is there and takes them.
set -eu
here=$(cd "$(dirname "$0")" && pwd)
. "$here/build.sh"
build occam
work=$(mktemp -d)
trap 'rm -rf "$work"' EXIT

verify() { # folder
  command -v opt >/dev/null || { echo 'no opt here'; return; }
  /usr/bin/time -o "$work/opt" -f '%U %S' bash -c 'for m in "$1"/*.ll; do opt -opaque-pointers -passes=verify -disable-output "$m" || exit 1; done' - "$1" 2>/dev/null || { echo 'opt takes it not'; return; }
  tail -n 1 "$work/opt" | awk '{ printf "opt %.2f s\n", $1 + $2 }'
}
run() { # shape
  rm -rf "$work/p"
  mkdir "$work/p"
  python3 "$here/check.py" "$1" "$work/p"
  (cd "$work/p" && /usr/bin/time -o "$work/time" -f '%U %S %M' "$program" check m.json >"$work/line")
  printf '%-9s %9s bytes  %-62s %s; %s\n' "$1" "$(cat "$work"/p/*.ll | wc -c)" "$(cat "$work/line")" \
    "$(tail -n 1 "$work/time" | awk '{ printf "%.2f s, %d MiB", $1 + $2, $3 / 1024 }')" "$(verify "$work/p")"
}
for shape in one two many items shared; do
  run "$shape/4"
  run "$shape"
done
