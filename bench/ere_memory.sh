#!/usr/bin/env bash
# Measures the memory that one expression holds once it is read, and the most while it is read, in bytes as the allocator counts
# them, without the 64 KiB in which crates/bench_parts reads its input. It wants a C compiler. Nothing here is a test.
set -u
cd "$(dirname "$0")/.." || exit 2
export LC_ALL=C
bench="$PWD/crates/bench_parts/out/bench_parts"
[ -x "$bench" ] || (rt=$(tools/kit.py) && cd crates/bench_parts && "$rt" run -- arrays < stdin > /dev/null) || exit 2
folder=$(mktemp -d)
trap 'rm -rf "$folder"' EXIT
cc -shared -fPIC -O1 -o "$folder/held.so" bench/held.c -ldl || exit 2

times() { awk -v n="$1" -v text="$2" 'BEGIN { while (n-- > 0) printf "%s", text }'; }
different() { # so many bracket expressions, no two alike
  awk -v n="$1" 'BEGIN {
    for (a = 33; a < 127; a++) if (a < 91 || a > 94) bytes = bytes sprintf("%c", a)
    gsub(/-/, "", bytes)
    for (i = 1; i <= length(bytes); i++) for (j = i + 1; j <= length(bytes); j++) { if (n-- <= 0) exit; printf "[%s%s]", substr(bytes, i, 1), substr(bytes, j, 1) }
    for (i = 1; i <= length(bytes); i++) for (j = i + 1; j <= length(bytes); j++) for (k = j + 1; k <= length(bytes); k++) { if (n-- <= 0) exit; printf "[%s%s%s]", substr(bytes, i, 1), substr(bytes, j, 1), substr(bytes, k, 1) }
  }'
}

tell() { # a name, a pattern
  LD_PRELOAD=$folder/held.so "$bench" expressions "$2" < /dev/null 2>&1 > /dev/null | awk -v name="$1" '{ printf "%s: holds %d, at most %d while it is read\n", name, $1 - 65536, $2 - 65536 }'
}
tell '[[:alpha:]]+[0-9]{2,4}' '[[:alpha:]]+[0-9]{2,4}'
tell '10,000 bytes side by side' "$(times 10000 a)"
tell '32,768 bytes side by side' "$(times 32768 a)"
tell '32,768 alternatives of a byte' "$(times 32767 'a|')a"
tell '(a{255}){127}' '(a{255}){127}'
tell '26,000 bracket expressions, no two alike' "$(different 26000)"
tell '32,766 bracket expressions, each unlike the one before' "$(times 16383 '[ab][cd]')"
tell '32,768 alternatives of sets, each unlike the one before' "$(times 16383 '.|[ab]|').|[ab]"
tell 'a part of 60,000 bytes that stands no time' "a($(times 60000 b)){0}"
