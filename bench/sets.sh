#!/usr/bin/env bash
# What a value costs in a program of 64 state sets, each with conditions on a channel of its own, beside one state set over one
# channel.
#
#   bench/sets.sh [LINES]          1,000,000 lines where none are given
#
# The values come to the channels round robin. `own` has each variable inside its state set, so a value is copied for one of
# them alone; `shared` has all variables outside, so that each state set has a copy of all. The time of a start over an empty
# trace is taken off.
. "$(dirname "$0")/timing.sh"
. bench/programs.bash
lines=${1:-1000000}

sets 1 own > "$work/one.st"
sets 64 own > "$work/own.st"
sets 64 shared > "$work/shared.st"
channel_lines 1 values "$lines" > "$work/one.trace"
channel_lines 64 values "$lines" > "$work/many.trace"
for name in one own shared; do
    if [ "$name" = one ]; then traced=$work/one.trace; else traced=$work/many.trace; fi
    enter "$name" "$traced" "$snlrun" "$work/$name.st"
    enter "$name-start" "$work/empty" "$snlrun" "$work/$name.st"
done
race
one=$((milliseconds[one] - milliseconds[one-start]))
for where in own shared; do
    awk -v where="$where" -v lines="$lines" -v one="$one" -v many=$((milliseconds[$where] - milliseconds[$where-start])) 'BEGIN {
        printf "%s: %.2f million values a second with one state set, %.3f with 64: %.1f times as long\n",
            where, lines / one / 1e3, lines / many / 1e3, many / one
    }'
done
