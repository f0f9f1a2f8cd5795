#!/usr/bin/env bash
# Times bin/rawk beside the other awks on one machine in one run: user + system seconds, the best of three.
# The input is made here from a fixed seed. Nothing here is a test.
set -u
cd "$(dirname "$0")/.." || exit 2
lines=${LINES_OF_INPUT:-1400000}
folder=$(mktemp -d)
trap 'rm -rf "$folder"' EXIT
bench/make_input.sh "$lines" > "$folder/input"
echo "input: $(wc -c < "$folder/input") bytes, $lines lines"

seconds() { # program, file: the best user + system seconds of three runs
  local best="" TIMEFORMAT='%U %S'
  for _ in 1 2 3; do
    local spent
    spent=$( { time "$@" > /dev/null; } 2>&1 | tail -1 | awk '{ printf "%.3f", $1 + $2 }')
    if [ -z "$best" ] || awk -v a="$spent" -v b="$best" 'BEGIN { exit !(a < b) }'; then best=$spent; fi
  done
  echo "$best"
}

beside() { # program, file: our time beside the others
  echo "== $1 ($(basename "$2"))"
  base=""
  for awk in mawk gawk bin/rawk; do
    command -v "$awk" > /dev/null || continue
    spent=$(seconds "$awk" "$1" "$2")
    [ "$awk" = mawk ] && base=$spent
    ratio=""
    [ -n "$base" ] && ratio=$(awk -v a="$spent" -v b="$base" 'BEGIN { printf "  %.2f of mawk", a / b }')
    echo "$awk: $spent s$ratio"
  done
}

for program in '{ s += $2 } END { print s }' '{ n += NF } END { print n, NR }' '{ print $3, $1 }'; do
  beside "$program" "$folder/input"
done
yes 'abcd 57 c 3' | head -n 1000000 > "$folder/lines"
for program in '{ n += NF } END { print n, NR }' '{ s += $2 } END { print s }' '{ print $3, $1 }'; do
  beside "$program" "$folder/lines"
done
yes x | head -n 3000000 > "$folder/short"
for program in '{ x = 1; y = 2; z = x; x = 3; y = 4; z = 5; x = 6; y = 7 }' '{ n += 1 } END { print n }'; do
  beside "$program" "$folder/short"
done
