#!/usr/bin/env bash
# How fast flat code runs: turns of two loops a second, beside the same loops in python3 in the same run.
#
#   bench/loop.sh [TURNS]          10,000,000 turns where none are given
. "$(dirname "$0")/timing.sh"
turns=${1:-10000000}

cat > "$work/p.st" <<PROGRAM
program loop
option +s;
int i; int x;
ss all {
  state count { when (x == 0) { for (i = 0; i < $turns; i = i + 1) { x = i * 2 + 1; } } state done }
  state done { when (x == 0) {} state count }
}
PROGRAM
cat > "$work/p.py" <<PROGRAM
def count():
    x = 0
    i = 0
    while i < $turns:
        x = i * 2 + 1
        i = i + 1
    return x
count()
PROGRAM
compare "products" "$turns" "0 go all count done" "$work/tick.trace"

cat > "$work/p.st" <<PROGRAM
program loop
option +s;
int i; long t;
ss all {
  state count { when (t == 0) { for (i = 0; i < $turns; i++) { t = t + i % 7; } } state done }
  state done { when (t == 0) {} state count }
}
PROGRAM
cat > "$work/p.py" <<PROGRAM
def count():
    t = 0
    i = 0
    while i < $turns:
        t = t + i % 7
        i += 1
    return t
count()
PROGRAM
compare "remainders" "$turns" "0 go all count done" "$work/tick.trace"
