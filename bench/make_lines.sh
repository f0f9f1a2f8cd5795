#!/usr/bin/env bash
# Writes lines of words and numbers, about 43 bytes each, from a fixed seed: make_lines.sh LINES > FILE
exec awk -v lines="${1:?how many lines}" 'BEGIN {
  seed = 20240229
  n = split("alpha beta gamma delta foo bar longer window server error warning info request response zzzy abcd abc aab aaaab value index", words, " ")
  for (i = 0; i < lines; i++) {
    seed = (seed * 1103515245 + 12345) % 2147483648
    kind = int(seed / 65536) % 8
    line = ""
    for (f = 0; f < 8; f++) {
      seed = (seed * 1103515245 + 12345) % 2147483648
      r = int(seed / 65536)
      if (kind < 6 || f % 3) word = words[r % n + 1]; else word = (r % 7 == 0 ? "id" : "") (r % 100000)
      line = line (f ? " " : "") word
    }
    if (kind == 3) line = "key: " line " box"
    if (kind == 5) sub(/ .*/, "", line)
    print line
  }
}'
