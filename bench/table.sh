#!/usr/bin/env bash
# Ten times 60,000 rows, of which half are inserted by every worker and the others by one each, and each claimed once it is there:
# on a shared table with 1, 2 and 4 workers, and on a set behind a lock with one thread. A table takes its memory at once, so the
# time of ten empty tables is taken off. Prints inserts and claims a second, where a row that several workers bring counts for each.
set -eu
. "$(dirname "$0")/build.sh"
build table_bench

seconds() { # words; the least of three runs
  for _ in 1 2 3; do
    start=$(date +%s%N)
    "$program" "$@" >/dev/null
    end=$(date +%s%N)
    echo $((end - start))
  done | sort -n | head -n 1 | awk '{ print $1 / 1e9 }'
}
rate() { # name, workers, seconds, seconds of the empty run
  awk -v name="$1" -v n="$2" -v all="$3" -v empty="$4" 'BEGIN {
    rows = 10 * (30000 * n + 30000); t = all - empty
    printf "%-6s %s  %.3f s (%.3f s of it for the tables), %.0f inserts and as many claims a second, %.0f distinct rows a second\n", name, n, all, empty, rows / t, 600000 / t }'
}
for n in 1 2 4; do rate table "$n" "$(seconds table "$n")" "$(seconds empty "$n")"; done
rate set 1 "$(seconds set 1)" 0
