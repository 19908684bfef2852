#!/usr/bin/env bash
# Reads modules of growing size and of many shapes and writes them again, and prints what the program says, time and peak
# memory, and the time of reading alone; beside it the time of `opt -S` on the same file, where that tool is there and
# takes the file. Shapes: many symbols, lines of metadata, one long c"..", one long array of bytes, a chain of named
# types, and bodies of every kind of instruction. The sizes are 1, 4 and near 16 MiB. One shape is read alone, for at most
# a minute: an array of parts of a named type of 4,000 nodes, whose canonical text would write the type out at each part.
set -eu
. "$(dirname "$0")/build.sh"
build modules_bench
work=$(mktemp -d)
trap 'rm -rf "$work"' EXIT

symbols() { # count
  awk -v n="$1" 'BEGIN { for (i = 0; i < n; i++) printf "@symbol_%d = internal constant ptr @symbol_%d, align 8 ; filler filler filler filler filler filler filler filler\n", i, (i * 7919 + 1) % n }'
}
metadata() { # count
  awk -v n="$1" 'BEGIN { print "@g = global i32 0"; for (i = 0; i < n; i++) printf "!%d = !{i32 %d}\n", i, i % 9 }'
}
text() { # bytes
  awk -v n="$1" 'BEGIN { printf "@text = constant [%d x i8] c\"", n; for (i = 0; i < n; i++) printf "%c", 97 + i % 26; print "\"" }'
}
bytes() { # count
  awk -v n="$1" 'BEGIN { printf "@bytes = constant [%d x i8] [i8 0", n; for (i = 1; i < n; i++) printf ", i8 %d", i % 10; print "]" }'
}
chain() { # count: each name stands for the next one, so a later line is needed for each
  awk -v n="$1" 'BEGIN { for (i = 0; i < n; i++) printf "%%t%d = type %%t%d\n", i, i + 1; printf "%%t%d = type { i32, ptr }\n@g = global %%t0 zeroinitializer\n", n }'
}
bodies() { # functions of some 24 lines
  awk -v n="$1" 'BEGIN {
    print "declare void @puts(ptr)"
    print "declare i32 @printf(ptr, ...)"
    print "@fmt = private constant [3 x i8] c\"%d\\00\", align 1"
    for (i = 0; i < n; i++) {
      printf "define internal i32 @f%d(i32 %%x, ptr %%p) {\nentry:\n", i
      print "  %a = alloca { i32, [4 x i64] }, i64 3, align 8"
      print "  %s = add nuw nsw i32 %x, 17"
      print "  %u = udiv exact i32 %s, 3"
      print "  %o = or disjoint i32 %u, 8"
      print "  %c = icmp slt i32 %o, %x"
      print "  %e = select i1 %c, i32 %s, i32 %u"
      print "  %w = zext nneg i32 %e to i64"
      print "  %t = trunc i64 %w to i8"
      print "  %q = getelementptr inbounds { i32, [4 x i64] }, ptr %a, i64 0, i32 1, i64 2"
      print "  store i64 %w, ptr %q, align 8"
      print "  %l = load i32, ptr %p, align 4"
      print "  %r = call i32 (ptr, ...) @printf(ptr @fmt, i32 %l)"
      print "  tail call void @puts(ptr nonnull @fmt) #0"
      print "  br i1 %c, label %one, label %other"
      print "one:"
      print "  switch i32 %l, label %other [ i32 0, label %last i32 1, label %last i32 -7, label %other ]"
      print "other:"
      print "  %ph = phi i32 [ %l, %entry ], [ %r, %one ], [ 5, %one ]"
      printf "  %%again = call i32 @f%d(i32 signext %%ph, ptr null)\n", (i * 31 + 7) % n
      print "  br label %last"
      print "last:"
      print "  ret i32 %x"
      print "}"
    }
    print "attributes #0 = { nounwind }"
  }'
}

parts() { # count: an array of parts whose type is a name that stands for a struct of 3,999 fields
  awk -v n="$1" 'BEGIN {
    printf "%%t = type { i8"
    for (i = 1; i < 3999; i++) printf ", i8"
    printf " }\n@parts = global [%d x %%t] [%%t zeroinitializer", n
    for (i = 1; i < n; i++) printf ", %%t zeroinitializer"
    print "]"
  }'
}

reads() { # name file
  local status=0
  timeout 60 /usr/bin/time -f '%e s, %M KiB' "$program" read "$2" >"$work/line" 2>"$work/time" || status=$?
  if [ "$status" -eq 124 ]; then echo 'not read in 60 s' >"$work/line"; fi
  printf '%-9s %8d bytes  %-32s read: %s\n' "$1" "$(wc -c <"$2")" "$(cat "$work/line")" "$(tail -n 1 "$work/time")"
}

run() { # name file
  /usr/bin/time -f '%e s, %M KiB' "$program" "$2" 2>"$work/time" >"$work/line" || true
  /usr/bin/time -f '%e s' "$program" read "$2" >"$work/line2" 2>"$work/alone" || true
  local beside='opt: not there'
  if command -v opt >/dev/null 2>&1; then
    if /usr/bin/time -f '%e s' opt -S "$2" -o /dev/null 2>"$work/opt"; then beside="opt: $(tail -n 1 "$work/opt")"; else beside='opt: refused'; fi
  fi
  printf '%-9s %8d bytes  %-32s %s; read: %s; %s\n' "$1" "$(wc -c <"$2")" "$(cat "$work/line")" "$(tail -n 1 "$work/time")" "$(tail -n 1 "$work/alone")" "$beside"
}
for scale in 1 4 16; do
  symbols $((scale * 7500)) >"$work/module.ll" && run symbols "$work/module.ll"
  metadata $((scale * 50000)) >"$work/module.ll" && run metadata "$work/module.ll"
  text $((scale * 1000000)) >"$work/module.ll" && run text "$work/module.ll"
  bytes $((scale * 160000)) >"$work/module.ll" && run bytes "$work/module.ll"
  chain $((scale * 6250)) >"$work/module.ll" && run chain "$work/module.ll"
  bodies $((scale * 980)) >"$work/module.ll" && run bodies "$work/module.ll"
  parts $((scale * 47600)) >"$work/module.ll" && reads parts "$work/module.ll"
done
symbols 100000 >"$work/module.ll" && run symbols "$work/module.ll"
metadata 1000000 >"$work/module.ll" && run metadata "$work/module.ll"
parts 837000 >"$work/module.ll" && reads parts "$work/module.ll"
