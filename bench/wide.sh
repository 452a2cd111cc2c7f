#!/usr/bin/env bash
# What an event costs in a wide program: values, ticks, and both in turn, with 1,000 monitored channels and with one.
#
#   bench/wide.sh [LINES]          1,000,000 lines where none are given
#
# The values of the wide program come to its channels round robin. The last figure is of a program that never starts, since one
# of its channels is never there. The time of a start over an empty trace is taken off.
. "$(dirname "$0")/timing.sh"
. bench/programs.bash
lines=${1:-1000000}

wide 1 > "$work/one.st"
wide 1000 > "$work/wide.st"
for kind in values ticks both; do
    channel_lines 1 "$kind" "$lines" > "$work/one-$kind.trace"
    channel_lines 1000 "$kind" "$lines" > "$work/wide-$kind.trace"
done
# all channels but the last are there
grep -v 'up CHANNEL:999$' "$work/wide-values.trace" > "$work/wide-waiting.trace"
for name in one-values one-ticks one-both wide-values wide-ticks wide-both wide-waiting; do
    enter "$name" "$work/$name.trace" "$snlrun" "$work/${name%-*}.st"
done
enter one "$work/empty" "$snlrun" "$work/one.st"
enter wide "$work/empty" "$snlrun" "$work/wide.st"
race

# milliseconds of a run, less those of its start
taken() { echo $((milliseconds[$1] - milliseconds[${1%-*}])); }

values=$(taken wide-values)
for kind in values ticks both; do
    awk -v kind="$kind" -v lines="$lines" -v one="$(taken "one-$kind")" -v many="$(taken "wide-$kind")" -v values="$values" 'BEGIN {
        printf "%s: %.2f million lines a second with one channel, %.2f with 1,000: %.2f times as long; %.2f of a value\n",
            kind, lines / one / 1e3, lines / many / 1e3, many / one, many / values
    }'
done
awk -v lines="$lines" -v many="$(taken wide-waiting)" -v values="$values" 'BEGIN {
    printf "waiting: %.2f million lines a second with 1,000: %.2f of a value\n", lines / many / 1e3, many / values
}'
