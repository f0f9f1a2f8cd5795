#!/usr/bin/env bash
# Times the search for extended regular expressions beside the other awks on one machine in one run: user + system
# seconds, the best of three, on 50 MB of lines made here from a fixed seed. Nothing here is a test: make check runs
# crates/bench_parts on a few lines.
set -u
cd "$(dirname "$0")/.." || exit 2
export LC_ALL=C
bench="$PWD/crates/bench_parts/out/bench_parts"
[ -x "$bench" ] || (rt=$(tools/kit.py) && cd crates/bench_parts && "$rt" run -- arrays < stdin > /dev/null) || exit 2
folder=$(mktemp -d)
trap 'rm -rf "$folder"' EXIT
bench/make_lines.sh "${LINES_OF_INPUT:-1160000}" > "$folder/lines"
echo "input: $(wc -c < "$folder/lines") bytes, $(wc -l < "$folder/lines") lines"

spent() { # program and words, on the lines: the best user + system seconds of three runs
  local best="" TIMEFORMAT='%U %S' now
  for _ in 1 2 3; do
    now=$( { time "$@" < "$folder/lines" > /dev/null; } 2>&1 | tail -1 | awk '{ printf "%.3f", $1 + $2 }')
    if [ -z "$best" ] || awk -v a="$now" -v b="$best" 'BEGIN { exit !(a < b) }'; then best=$now; fi
  done
  echo "$best"
}

for pattern in '[0-9]+' 'foo|bar|longer' '^[a-z]+:.*x$' '(a*)*b' '^[a-z]+ .*x$' 'zzz+y' '(a|ab)(c|bcd)(d*)' '[[:alpha:]]+[0-9]{2,4}'; do
  ours=$("$bench" expressions "$pattern" < "$folder/lines")
  us=$(spent "$bench" expressions "$pattern")
  line="$pattern: $ours lines, $us s"
  fastest=""
  for awk in mawk gawk; do
    command -v "$awk" > /dev/null || continue
    theirs=$("$awk" "/$pattern/ { n++ } END { print n + 0 }" "$folder/lines")
    them=$(spent "$awk" "/$pattern/ { n++ } END { print n + 0 }")
    if [ "$theirs" = "$ours" ]; then
      line="$line; $awk $them s"
      if [ -z "$fastest" ] || awk -v a="$them" -v b="$fastest" 'BEGIN { exit !(a < b) }'; then fastest=$them; fi
    else
      line="$line; $awk $them s, but $theirs lines"
    fi
  done
  [ -n "$fastest" ] && line="$line; $(awk -v a="$us" -v b="$fastest" 'BEGIN { printf "%.2f", a / b }') of the fastest"
  echo "$line"
done

long=$(printf 'a%.0s' $(seq 100000))
once() { # a text, a pattern: seconds for one search
  local TIMEFORMAT='%U %S'
  { time "$bench" expressions "$2" <<< "$1" > "$folder/answer"; } 2>&1 | awk '{ printf "%.3f", $1 + $2 }'
}
for pattern in '(a?){30}a{30}' '(a*)*b' 'a*b|c'; do
  echo "$pattern on 100000 bytes a: $(once "$long" "$pattern") s; on 200000: $(once "$long$long" "$pattern") s; with a c behind: $(once "${long}c" "$pattern") s and $(once "$long${long}c" "$pattern") s"
done
wide=$(printf 'ab[c-e]*|%.0s' $(seq 1111))x
echo "to read a pattern of ${#wide} bytes: $(once '' "$wide") s; (a{255}){127}: $(once '' '(a{255}){127}') s; ((a?){127}){127}: $(once '' '((a?){127}){127}') s"
