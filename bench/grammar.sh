#!/usr/bin/env bash
# Times the reading of texts by the grammar of the whole language: user + system seconds, the least of five runs, on texts of 1 MiB (or
# what is named) that are made here. Nothing here is a test: make check runs crates/rows on its cases.
set -u
cd "$(dirname "$0")/.." || exit 2
export LC_ALL=C
reader=$PWD/crates/rows/out/rows
[ -x "$reader" ] || tools/build rows || exit 2
text=$(mktemp)
trap 'rm -f "$text"' EXIT

spent() { # the least user + system seconds of five runs on the text
  local best="" TIMEFORMAT='%U %S' now
  for _ in 1 2 3 4 5; do
    now=$( { time "$reader" read < "$text" > /dev/null; } 2>&1 | tail -1 | awk '{ printf "%.3f", $1 + $2 }')
    if [ -z "$best" ] || awk -v a="$now" -v b="$best" 'BEGIN { exit !(a < b) }'; then best=$now; fi
  done
  echo "$best"
}

repeated() { # head, part, tail and how often the part stands there (without: as often as 1 MiB has room for)
  awk -v head="$1" -v part="$2" -v tail="$3" -v times="${4:-0}" 'BEGIN {
    if (times == 0) times = int((1048576 - length(head) - length(tail)) / length(part))
    printf "%s", head
    for (i = 0; i < times; i++) printf "%s", part
    printf "%s", tail
  }' > "$text"
}

told() { # what the text is
  echo "$1, $(wc -c < "$text") bytes: $(spent) s ($("$reader" read < "$text"))"
}

repeated '{ x = 1' ' + 1' ' }'
told "one sum"
repeated '{ x = 1' ' + 1' ' }' 200000
told "a sum of 200,001 operands"
repeated '{ x = a' ' b' ' }'
told "one concatenation"
repeated '{ x = a' ' && b' ' }'
told "one test"
repeated '{ x = 1' ' in a' ' }'
told "one chain of in"
repeated '{ ' 'x = x + $1; print x, NR\n' '}' 30000
told "30,000 short statements"
repeated '{ ' 'x;' '}'
told "the shortest statements"
nested() { # what begins and ends a construct, and how many are open at once
  awk -v begin="$1" -v end="$2" -v deep="$3" 'BEGIN {
    for (i = 0; i < deep; i++) { front = front begin; back = back end }
    part = front back "\n"
    for (size = 0; size + length(part) <= 1048576; size += length(part)) printf "%s", part
  }' > "$text"
}
nested '{ ' '} ' 200
told "200 nested blocks, repeated"
repeated '{ x = 0' " + $(awk 'BEGIN { for (i = 0; i < 197; i++) { a = a "("; b = b ")" } print a "1" b }')" ' }'
told "197 nested parentheses, repeated"
repeated '{ ' "$(awk 'BEGIN { for (i = 0; i < 198; i++) a = a "if (a) "; print a "b\n" }')\n" ' }'
told "198 nested ifs, repeated"
repeated "{ $(awk 'BEGIN { for (i = 0; i < 99; i++) printf "if (a) while (b) " }') c" '\n' '}'
told "newlines behind 99 nested ifs"
repeated '{ if (a) b' '\nelse if (a) b' '\n}'
told "one chain of else if"
awk 'BEGIN { printf "{"; for (i = 0; size < 1048560; i++) { name = sprintf(" n%06d;", i); size += length(name); printf "%s", name } print "}" }' > "$text"
told "names, each once"
awk 'BEGIN { printf "{"; for (i = 0; i < 200000; i++) printf "x%x;", i; print "}" }' > "$text"
told "200,000 names"
repeated '{ ' "$(printf 'a%.0s' $(seq 1 1000)) " '}'
told "long names"
repeated '{ x = f(1' ', 1' ') }'
told "one call"
repeated '{ print 1' ', 1' ' }'
told "one print"
repeated '{ print (1' ', 1' ') }'
told "one print in parentheses"
repeated '{ x = "' 'a' '" }'
told "one string"
repeated '{ x ~ /' 'a' '/ }'
told "one regular expression"
repeated '#' 'a' ''
told "one comment"
repeated '' '\n' ''
told "newlines"
repeated '{ if (a) b' '\n' '}'
told "newlines behind the body of an if"
repeated '' 'a\n' ''
told "patterns"
