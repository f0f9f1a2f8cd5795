#!/usr/bin/env bash
# Times sessions of bin/rawk over 1,000,000 steps beside a run of the same program: user seconds, elapsed seconds, and the most memory that
# was held. Where gdb is there, also the elapsed seconds of its `record full` over 120,000 instructions of a small loop, forward and back.
# Nothing here is a test.
set -u
cd "$(dirname "$0")/.." || exit 2
folder=$(mktemp -d)
trap 'rm -rf "$folder"' EXIT
program='{ s += $1 } END { print s }'
awk 'BEGIN { for (line = 1; line <= 333400; line++) print line }' > "$folder/input"
printf 'continue\n' > "$folder/forward"
printf 'continue\nreverse-continue\n' > "$folder/there_and_back"

measured() { # name, words of rawk: user seconds, elapsed seconds and KB at most
  local name=$1
  shift
  python3 - "$name" "$folder/input" "$@" <<'P'
import resource, subprocess, sys, time
name, path, words = sys.argv[1], sys.argv[2], sys.argv[3:]
begun = time.time()
subprocess.run(words, stdin=open(path, "rb"), stdout=subprocess.DEVNULL, stderr=subprocess.DEVNULL)
elapsed = time.time() - begun
used = resource.getrusage(resource.RUSAGE_CHILDREN)
print(f"{name}: {used.ru_utime:.2f} s user, {elapsed:.2f} s elapsed, {used.ru_maxrss} KB")
P
}

measured "run" bin/rawk --steps 1000000 "$program"
measured "continue" bin/rawk --debug "$folder/forward" "$program"
measured "continue, reverse-continue" bin/rawk --debug "$folder/there_and_back" "$program"
measured "the same with --history 1000" bin/rawk --history 1000 --debug "$folder/there_and_back" "$program"

command -v gdb > /dev/null && command -v cc > /dev/null || exit 0
cat > "$folder/loop.c" <<'P'
volatile long total;
__attribute__((noinline)) void ended(void) { total++; }
int main(void) { for (long turn = 0; turn < 20000; turn++) total += turn; ended(); return 0; }
P
cc -O1 -o "$folder/loop" "$folder/loop.c" || exit 0
cat > "$folder/commands" <<'P'
set pagination off
set record full insn-number-max unlimited
break main
run
record full
break ended
python import time; begun = time.time()
continue
python print("gdb, forward: %.2f s elapsed" % (time.time() - begun)); begun = time.time()
reverse-continue
python print("gdb, back: %.2f s elapsed" % (time.time() - begun))
info record
P
gdb -q -batch -x "$folder/commands" "$folder/loop" 2>&1 | grep -E '^gdb, |^Log contains'
