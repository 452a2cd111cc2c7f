#!/usr/bin/env bash
# How fast `snl same --search` is, beside `snl search` of the same program.
#
#   bench/pairs.sh [SECONDS]       each search for at most so many; 60 where none are given
#
# Each program is searched beside itself. There are as many pairs as worlds, but where `snl search` takes worlds as one that differ in
# their times alone. The ramp is searched until no new pair is found; the interlock over so many lines. The certificate comes behind each
# search and is in its time.
. "$(dirname "$0")/timing.sh"
seconds=${1:-60}
snl=$(program "${SNL:-}" snl snl run examples/ramp.st)
words=(--memory 8000 --worlds 100000000 --seconds "$seconds")

# measure FILE LINES: both searches, over so many lines
measure() {
    local name worlds pairs
    name=$(basename "$1" .st)
    enter one "$work/empty" "$snl" search "${words[@]}" --lines "$2" "$1"
    enter two "$work/empty" "$snl" same --search "${words[@]}" --lines "$2" "$1" "$1"
    race
    worlds=$(sed -nE 's/^(none up to .*|never.*) \(([0-9]+) worlds.*/\2/p' "$work/one.out")
    pairs=$(sed -nE 's/^same.* \(([0-9]+) pairs.*/\1/p' "$work/two.out")
    awk -v name="$name" -v worlds="$worlds" -v pairs="$pairs" -v one="${milliseconds[one]}" -v two="${milliseconds[two]}" 'BEGIN {
        printf "%s: %d pairs in %.3f s, %.0f a second; %d worlds in %.3f s, %.0f a second: a pair takes %.2f worlds\n",
            name, pairs, two / 1e3, pairs * 1e3 / two, worlds, one / 1e3, worlds * 1e3 / one, (two / pairs) / (one / worlds)
    }'
    tail -n 1 "$work/two.out" | sed 's/^/  /'
}

measure examples/ramp.st "${RAMP:-1000000}"
measure examples/interlock.st "${INTERLOCK:-4}"
