#!/usr/bin/env bash
# How fast lines are written: `printf` lines of three numbers a second, beside the same in python3 in the same run.
#
#   bench/print.sh [LINES]         1,000,000 lines where none are given
. "$(dirname "$0")/timing.sh"
lines=${1:-1000000}

cat > "$work/p.st" <<PROGRAM
program lines
option +s;
int i;
ss all { state write { when () { for (i = 0; i < $lines; i++) printf("%d %d %d", i, i * 2, -i); } exit } }
PROGRAM
cat > "$work/p.py" <<PROGRAM
import sys
def lines():
    write = sys.stdout.write
    write("0 start lines\n")
    for i in range($lines):
        write("%d print all %d %d %d\n" % (0, i, i * 2, -i))
    write("0 go all write exit\n0 exit lines\n")
lines()
PROGRAM
compare "lines" "$lines" "0 exit lines" "$work/tick.trace"
expect_same
