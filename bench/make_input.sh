#!/usr/bin/env bash
# Writes lines of eight fields, about 72 bytes each, from a fixed seed: make_input.sh LINES > FILE
exec awk -v lines="${1:?how many lines}" 'BEGIN {
  seed = 20240229
  for (i = 0; i < lines; i++) {
    line = ""
    for (f = 0; f < 8; f++) {
      seed = (seed * 1103515245 + 12345) % 2147483648
      line = line (f ? " " : "") sprintf("%08d", seed % 100000000)
    }
    print line
  }
}'
