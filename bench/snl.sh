#!/usr/bin/env bash
# How long `snl run`, `snl cover` and `snl graph` take beside `snlrun` over the trace of bench/trace.sh, and their peak memory over
# that and over ten lines.
#
#   bench/snl.sh [LINES]           5,000,000 lines where none are given
#
# Each is to take at most 1.6 times as long as `snlrun`. Needs GNU time.
. "$(dirname "$0")/timing.sh"
lines=${1:-5000000}
snl=$(program "${SNL:-}" snl snl run examples/ramp.st)

limit_trace "$lines" > "$work/long.trace"
limit_trace 10 > "$work/short.trace"

# what is run: `snlrun`, and words of the companion with their options
ways=(whole run cover graph)
declare -A words=([whole]="run --whole" [run]=run [cover]=cover [graph]=graph)
enter plain "$work/long.trace" "$snlrun" "$work/limit.st"
for way in "${ways[@]}"; do
    # (${words[..]} is more than one word)
    enter "$way" "$work/long.trace" "$snl" ${words[$way]} "$work/limit.st"
done
race
grep -v '^#' "$work/whole.out" | cmp - "$work/plain.out"
for way in "${ways[@]}"; do
    awk -v way="snl ${words[$way]}" -v took="${milliseconds[$way]}" -v plain="${milliseconds[plain]}" \
        -v memory="$(peak "$work/long.trace" "$snl" ${words[$way]} "$work/limit.st")" \
        -v start="$(peak "$work/short.trace" "$snl" ${words[$way]} "$work/limit.st")" \
        -v written="$(wc -l < "$work/$way.out")" 'BEGIN {
        printf "%-15s %.3f s beside %.3f of snlrun, %.2f times; %d lines written; peak %d KB, %d over 10 lines\n",
            way, took / 1e3, plain / 1e3, took / plain, written, memory, start
    }'
done
