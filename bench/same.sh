#!/usr/bin/env bash
# How long `snl same` of a program and itself takes beside `snlrun` over the trace of bench/trace.sh, and its peak memory over that and
# over ten lines.
#
#   bench/same.sh [LINES]          5,000,000 lines where none are given
#
# It is to take at most 2.3 times as long as `snlrun`, since it runs two programs. Needs GNU time.
. "$(dirname "$0")/timing.sh"
lines=${1:-5000000}
snl=$(program "${SNL:-}" snl snl run examples/ramp.st)

limit_trace "$lines" > "$work/long.trace"
limit_trace 10 > "$work/short.trace"

# what is run: `snlrun`, and `snl same` of all lines and of puts alone
ways=(same puts)
declare -A words=([same]="same" [puts]="same --puts")
enter plain "$work/long.trace" "$snlrun" "$work/limit.st"
for way in "${ways[@]}"; do
    # (${words[..]} is more than one word)
    enter "$way" "$work/long.trace" "$snl" ${words[$way]} "$work/limit.st" "$work/limit.st"
done
race
for way in "${ways[@]}"; do
    grep -q "^the same over $lines lines of the trace: $(wc -l < "$work/plain.out") lines, " "$work/$way.out"
    awk -v way="snl ${words[$way]}" -v took="${milliseconds[$way]}" -v plain="${milliseconds[plain]}" \
        -v memory="$(peak "$work/long.trace" "$snl" ${words[$way]} "$work/limit.st" "$work/limit.st")" \
        -v start="$(peak "$work/short.trace" "$snl" ${words[$way]} "$work/limit.st" "$work/limit.st")" 'BEGIN {
        printf "%-15s %.3f s beside %.3f of snlrun, %.2f times; peak %d KB, %d over 10 lines\n",
            way, took / 1e3, plain / 1e3, took / plain, memory, start
    }'
done
