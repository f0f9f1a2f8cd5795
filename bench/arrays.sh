#!/usr/bin/env bash
# Times one array beside mawk and gawk on one machine in one run: user + system seconds, the best of three, and the bytes
# that an element takes. `bump` looks an element up and increments it; mawk is timed with subscripts that are numbers (for
# which it has tables of their own) and that are texts. Nothing here is a test: make check runs crates/bench_parts on
# a few lines.
set -u
cd "$(dirname "$0")/.." || exit 2
export LC_ALL=C
bench="$PWD/crates/bench_parts/out/bench_parts"
[ -x "$bench" ] || (rt=$(tools/kit.py) && cd crates/bench_parts && "$rt" run -- arrays < stdin > /dev/null) || exit 2
folder=$(mktemp -d)
trap 'rm -rf "$folder"' EXIT

spent() { # program and words, on the lines: the best user + system seconds of three runs
  local best="" TIMEFORMAT='%U %S' now
  for _ in 1 2 3; do
    now=$( { time "$@" < "$folder/lines" > /dev/null; } 2>&1 | tail -1 | awk '{ printf "%.3f", $1 + $2 }')
    if [ -z "$best" ] || awk -v a="$now" -v b="$best" 'BEGIN { exit !(a < b) }'; then best=$now; fi
  done
  echo "$best"
}

ours() { # lines of the plan: seconds
  printf '%b' "$1" > "$folder/lines"
  spent "$bench" arrays
}

less() { awk -v a="$1" -v b="$2" 'BEGIN { printf "%.3f", a - b }'; }

echo "5000000 increments over 100000 keys: $(ours 'bump 5000000 100000\n') s"
: > "$folder/lines"
for awk in mawk gawk; do
  command -v "$awk" > /dev/null || continue
  echo "  $awk, subscripts that are numbers: $(spent "$awk" 'BEGIN { for (i = 0; i < 5000000; i++) a[i % 100000]++ }') s; texts: $(spent "$awk" 'BEGIN { for (i = 0; i < 5000000; i++) a[(i % 100000) ""]++ }') s"
done
for size in 500000 1000000 2000000; do
  fill=$(ours "fill $size\n")
  keys=$(ours "fill $size\nkeys\n")
  clear=$(ours "fill $size\nclear\n")
  echo "$size elements: made in $fill s; their keys in order $(less "$keys" "$fill") s; all deleted $(less "$clear" "$fill") s"
done
if [ -x /usr/bin/time ]; then
  printf 'fill 1000000\n' > "$folder/lines"
  full=$( { /usr/bin/time -f %M "$bench" arrays < "$folder/lines" > /dev/null; } 2>&1)
  printf 'fill 1\n' > "$folder/lines"
  bare=$( { /usr/bin/time -f %M "$bench" arrays < "$folder/lines" > /dev/null; } 2>&1)
  echo "an element with a key of 6 bytes: $(awk -v a="$full" -v b="$bare" 'BEGIN { printf "%.0f", (a - b) * 1024 / 1000000 }') bytes"
fi
