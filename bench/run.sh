#!/usr/bin/env bash
# Runs whole programs by `occam run` for 10,000,000 steps: the loops of bench/steps.py, a loop that makes and ends a block in each
# round, and one that copies its input. Prints processor time and peak memory; of blocks also the bytes for each, over the peak of
# a loop without any.
set -eu
. "$(dirname "$0")/build.sh"
build occam
steps_of=$(cd "$(dirname "$0")" && pwd)/steps.py
work=$(mktemp -d)
trap 'rm -rf "$work"' EXIT
cd "$work"
head -c 2000000 /dev/zero | tr '\0' 'x' >input
echo '{"version":1,"modules":["m.ll"],"entry":{"name":"main","args":[]},"outside":["getchar","putchar"]}' >m.json

blocks() {
  cat <<'LL'
define i32 @main() {
  br label %loop
loop:
  call void @block()
  br label %loop
}
define internal void @block() {
  %p = alloca i32
  ret void
}
LL
}
copy() {
  cat <<'LL'
define i32 @main() {
  br label %next
next:
  %c = call i32 @getchar()
  %end = icmp eq i32 %c, -1
  br i1 %end, label %done, label %more
more:
  %d = call i32 @putchar(i32 %c)
  br label %next
done:
  ret i32 0
}
declare i32 @getchar()
declare i32 @putchar(i32)
LL
}
measured() { # shape
  /usr/bin/time -o time -f '%U %S %M' "$program" run m.json 10000000 <input >lines
  read -r user system peak <time
  printf '%-8s %s s, %s KiB at most; %s\n' "$1" "$(awk -v a="$user" -v b="$system" 'BEGIN { printf "%.2f", a + b }')" "$peak" "$(tail -n 1 lines | tail -c 60)"
}
for shape in sums calls memory phis; do
  python3 "$steps_of" "$shape" 6000000 >m.ll
  measured "$shape"
  [ "$shape" != sums ] || base=$peak
done
blocks >m.ll
measured blocks
# four steps a round: the call, the block, the return, the branch
awk -v a="$base" -v b="$peak" 'BEGIN { printf "         %.1f bytes for each of 2,500,000 ended blocks\n", (b - a) * 1024 / 2500000 }'
copy >m.ll
measured copy
