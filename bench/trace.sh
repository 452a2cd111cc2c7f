#!/usr/bin/env bash
# How fast a trace is run: lines a second and peak memory, beside `wc -l` on the same file in the same run.
#
#   bench/trace.sh [LINES]         5,000,000 lines where none are given
#
# The program puts a value in every second line. A trace of 10 lines shows what memory the start alone takes. A second
# program makes 100,000 transitions in each instant, and each of them writes its line. Needs GNU time.
. "$(dirname "$0")/timing.sh"
lines=${1:-5000000}

cat > "$work/tight.st" <<'PROGRAM'
program tight
option +s;
int turns;
assign turns to "TURNS";
monitor turns;
ss all { state turn { when (turns < 100000) { turns = turns + 1; } state turn } }
PROGRAM

limit_trace "$lines" > "$work/long.trace"
limit_trace 10 > "$work/short.trace"
awk 'BEGIN { print "0 up TURNS"; for (i = 1; i <= 50; i++) printf "%d val TURNS 0\n", i }' > "$work/tight.trace"

enter run "$work/long.trace" "$snlrun" "$work/limit.st"
enter counted "$work/long.trace" wc -l
enter tight "$work/tight.trace" "$snlrun" "$work/tight.st"
race
memory=$(peak "$work/long.trace" "$snlrun" "$work/limit.st")
start=$(peak "$work/short.trace" "$snlrun" "$work/limit.st")
awk -v lines="$lines" -v bytes="$(wc -c < "$work/long.trace")" -v run="${milliseconds[run]}" -v memory="$memory" \
    -v written="$(wc -l < "$work/run.out")" -v start="$start" -v counted="${milliseconds[counted]}" \
    -v tight="${milliseconds[tight]}" -v turns=$(($(wc -l < "$work/tight.out") - 1)) 'BEGIN {
    printf "trace: %d lines, %d bytes; %d lines written\n", lines, bytes, written
    printf "run:   %.3f s, %.2f million lines a second\n", run / 1e3, lines / run / 1e3
    printf "wc -l: %.3f s; the run takes %.1f times that\n", counted / 1e3, run / counted
    printf "peak:  %d KB; %d KB over 10 lines\n", memory, start
    printf "tight: %d transitions in 50 instants, %.3f s, %.2f million a second\n", turns, tight / 1e3, turns / tight / 1e3
}'
