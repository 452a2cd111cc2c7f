#!/usr/bin/env bash
# A long run: 100,000,000 lines of a trace through one process. It has to take no more memory than over ten lines.
#
#   bench/long.sh [LINES]          100,000,000 lines where none are given
#
# The trace comes through a pipe, so that it takes no room on the disk; the processor time of `snlrun` is told, since what makes the
# lines may be slower. Needs GNU time.
. "$(dirname "$0")/timing.sh"
lines=${1:-100000000}

# SECONDS KILOBYTES of a run over so many lines, and how many it wrote
run_over() {
    limit_trace "$1" | /usr/bin/time -o "$work/took" -f '%U %S %M' "$snlrun" "$work/limit.st" | wc -l > "$work/written"
    awk '{ printf "%.1f %d ", $1 + $2, $3 }' "$work/took"
    cat "$work/written"
}

read -r _ start _ <<< "$(run_over 10)"
read -r seconds memory written <<< "$(run_over "$lines")"
awk -v lines="$lines" -v seconds="$seconds" -v memory="$memory" -v start="$start" -v written="$written" 'BEGIN {
    printf "long: %d lines, %d written, %.1f s of processor time, %.2f million lines a second\n", lines, written, seconds, lines / seconds / 1e6
    printf "peak: %d KB; %d KB over 10 lines\n", memory, start
}'
