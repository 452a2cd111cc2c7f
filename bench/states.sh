#!/usr/bin/env bash
# How fast conditions are evaluated in a large program: transitions a second of one with 1,000 states, each of which has a sum
# of array elements as its condition; beside the same in python3 in the same run.
#
#   bench/states.sh [ROUNDS]       1,000 rounds through all states where none are given
. "$(dirname "$0")/timing.sh"
rounds=${1:-1000}

{
    echo "program many option +s; int a[8] = {1, 2, 3, 4, 5, 6, 7, 8}; int turns;"
    echo "ss all {"
    for ((state = 0; state < 1000; state++)); do
        next=$(((state + 1) % 1000))
        if [ "$state" -eq 0 ]; then
            echo "state s0 { when (turns == $rounds) {} exit when (a[0] + a[1] + a[2] + a[3] < 11) { turns++; } state s1 }"
        else
            echo "state s$state { when (a[$((state % 8))] + a[$(((state + 3) % 8))] + a[$(((state + 5) % 8))] > 0) {} state s$next }"
        fi
    done
    echo "}"
} > "$work/p.st"
cat > "$work/p.py" <<PROGRAM
import sys
def many():
    a = [1, 2, 3, 4, 5, 6, 7, 8]
    write = sys.stdout.write
    write("0 start many\n")
    turns = 0
    while turns != $rounds:
        if a[0] + a[1] + a[2] + a[3] < 11:
            turns += 1
        write("0 go all s0 s1\n")
        for state in range(1, 1000):
            if a[state % 8] + a[(state + 3) % 8] + a[(state + 5) % 8] > 0:
                write("0 go all s%d s%d\n" % (state, (state + 1) % 1000))
    write("0 go all s0 exit\n0 exit many\n")
many()
PROGRAM
compare "transitions" "$((rounds * 1000))" "0 exit many" "$work/tick.trace"
expect_same
