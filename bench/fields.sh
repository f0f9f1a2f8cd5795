#!/usr/bin/env bash
# Times the reading of records and the splitting of their fields beside the other awks on one machine in one run: user + system
# seconds, the best of three, on 100 MB of lines of eight fields made here from a fixed seed. Nothing here is a test: make check runs
# crates/bench_parts on a few lines.
set -u
cd "$(dirname "$0")/.." || exit 2
export LC_ALL=C
bench="$PWD/crates/bench_parts/out/bench_parts"
[ -x "$bench" ] || (rt=$(tools/kit.py) && cd crates/bench_parts && "$rt" run -- arrays < stdin > /dev/null) || exit 2
folder=$(mktemp -d)
trap 'rm -rf "$folder"' EXIT
bench/make_input.sh "${LINES_OF_INPUT:-1400000}" > "$folder/lines"
echo "input: $(wc -c < "$folder/lines") bytes, $(wc -l < "$folder/lines") lines"

spent() { # program and words, on the lines: the best user + system seconds of three runs
  local best="" TIMEFORMAT='%U %S' now
  for _ in 1 2 3; do
    now=$( { time "$@" < "$folder/lines" > /dev/null; } 2>&1 | tail -1 | awk '{ printf "%.3f", $1 + $2 }')
    if [ -z "$best" ] || awk -v a="$now" -v b="$best" 'BEGIN { exit !(a < b) }'; then best=$now; fi
  done
  echo "$best"
}

for fs in ' ' 0 ' +' '0+|1' '[0-4]+ '; do
  ours=$("$bench" records "$fs" < "$folder/lines")
  us=$(spent "$bench" records "$fs")
  line="FS '$fs': $ours, $us s"
  for awk in mawk gawk; do
    command -v "$awk" > /dev/null || continue
    theirs=$("$awk" -F"$fs" '{ n += NF } END { print NR " records, " n " fields" }' "$folder/lines")
    them=$(spent "$awk" -F"$fs" '{ n += NF } END { print NR " records, " n " fields" }')
    line="$line; $awk $them s ($(awk -v a="$us" -v b="$them" 'BEGIN { printf "%.2f", a / b }'))"
    [ "$theirs" = "$ours" ] || line="$line, but $theirs"
  done
  echo "$line"
done
