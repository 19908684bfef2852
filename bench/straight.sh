#!/usr/bin/env bash
# Generates modules of straight-line functions, winnows each, and prints time and peak memory. Shapes: one call chain
# of many functions (at most 65,536 are taken), one function of many additions, of about 1, 4 and 16 MiB, and a
# family whose functions and copies double with each function more: 2^n - 1 are needed of n functions.
set -eu
top=$(cd "$(dirname "$0")/.." && pwd)
work=$(mktemp -d)
trap 'rm -rf "$work"' EXIT
(cd "$work" && "$top/occam" >/dev/null 2>&1) || true

chain() { # functions
  awk -v n="$1" 'BEGIN {
    print "define i32 @main() {\n  %r = call i32 @f1()\n  ret i32 %r\n}"
    for (i = 1; i < n; i++) printf "define internal i32 @f%d() {\n  %%r = call i32 @f%d()\n  %%s = add i32 %%r, %d\n  ret i32 %%s\n}\n", i, i + 1, i
    printf "define internal i32 @f%d() {\n  ret i32 1\n}\n", n
  }'
}
adds() { # additions
  awk -v n="$1" 'BEGIN {
    print "define internal i32 @one() {\n  ret i32 1\n}" > "/dev/null"
    print "define i32 @main() {\n  %x0 = call i32 @one()"
    for (i = 1; i <= n; i++) printf "  %%x%d = add i32 %%x%d, %d\n", i, i - 1, i
    printf "  ret i32 %%x%d\n}\ndefine internal i32 @one() {\n  ret i32 1\n}\n", n
  }'
}
family() { # functions
  awk -v n="$1" 'BEGIN {
    for (k = 0; k + 1 < n; k++) {
      printf "define %si32 @l%d(i32 %%x) {\n  %%d = add i32 %%x, %%x\n  %%e = add i32 %%d, 1\n", k ? "internal " : "", k
      printf "  %%p = call i32 @l%d(i32 %%d)\n  %%q = call i32 @l%d(i32 %%e)\n  %%s = add i32 %%p, %%q\n  ret i32 %%s\n}\n", k + 1, k + 1
    }
    printf "define internal i32 @l%d(i32 %%x) {\n  ret i32 %%x\n}\n", n - 1
  }'
}
run() { # shape size entry arguments
  printf '{"version":1,"modules":["a.ll"],"entry":{"name":"%s","args":[%s]}}\n' "$3" "$4" >"$work/m.json"
  "$1" "$2" >"$work/a.ll"
  bytes=$(wc -c <"$work/a.ll")
  ( cd "$work" && rm -rf out
    /usr/bin/time -f '%e s, %M KiB' "$top/occam" winnow m.json out 2>"$work/time" >"$work/line" || true )
  printf '%-6s %9d  %9d bytes: %s  %s\n' "$1" "$2" "$bytes" "$(tail -n 1 "$work/time")" "$(cut -c1-90 "$work/line")"
}
for n in 16000 32000 64000; do run chain "$n" main ''; done
for n in 31000 118000 445000; do run adds "$n" main ''; done
for n in 12 14 16; do run family "$n" l0 1; done
