#!/usr/bin/env bash
# How fast a program wakes: a trace of two lines, and a wake at each millisecond between them, each with one transition and its
# line; beside a script of python3 that writes the same lines, in the same run.
#
#   bench/wakes.sh [WAKES]         10,000,000 wakes where none are given
. "$(dirname "$0")/timing.sh"
wakes=${1:-10000000}

cat > "$work/p.st" <<'PROGRAM'
program wakes
option +s;
ss s { state a { when (delay(0.001)) {} state a } }
PROGRAM
cat > "$work/p.py" <<PROGRAM
import sys
write = sys.stdout.write
write("0 start wakes\n")
for time in range(1, $wakes + 1):
    write(f"{time} go s a a\n")
PROGRAM
printf '0 tick\n%s tick\n' "$wakes" > "$work/wakes.trace"

compare "wakes" "$wakes" "$wakes go s a a" "$work/wakes.trace"
expect_same
