#!/usr/bin/env bash
# How fast lines `done` are: values and answers in turn, beside values and ticks, and values and `up`, in the same run.
#
#   bench/answers.sh [LINES]         2,000,000 lines where none are given
#
# The program puts a value in every second pair of lines.
. "$(dirname "$0")/timing.sh"
lines=${1:-2000000}

# a trace of values, with such a line behind each
trace() {
    awk -v lines="$lines" -v other="$1" 'BEGIN {
        print "0 up PUMP:SPEED"
        print "0 up PUMP:LIMIT"
        for (i = 1; i < lines / 2; i++)
            printf "%d val PUMP:SPEED %d\n%d %s\n", i * 20, i % 2 ? 1100 + i % 90 : 1300 + i % 90, i * 20 + 10, other
    }' > "$work/$2.trace"
    enter "$2" "$work/$2.trace" "$snlrun" "$work/limit.st"
}

trace "done PUMP:LIMIT" answers
trace tick ticks
trace "up PUMP:LIMIT" ups
race
awk -v lines="$lines" -v answers="${milliseconds[answers]}" -v ticks="${milliseconds[ticks]}" -v ups="${milliseconds[ups]}" 'BEGIN {
    printf "done: %.3f s, %.2f million lines a second\n", answers / 1e3, lines / answers / 1e3
    printf "tick: %.3f s; with done it is %.2f of that speed\n", ticks / 1e3, ticks / answers
    printf "up:   %.3f s; with done it is %.2f of that speed\n", ups / 1e3, ups / answers
}'
