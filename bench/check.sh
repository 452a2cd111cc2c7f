#!/usr/bin/env bash
# How fast a program is checked: tokens a second from its bytes to its messages, and whether the time grows with the source.
#
#   bench/check.sh [RUNS]          so many runs for each time that is taken, 10 where none are given
#
# The source has some 60,000 tokens, 1,000 states, 64 state sets and 1,000 links, and no error. The one it is compared with is
# half of it: half the tokens, states, state sets and links. The whole has to take at most 2.2 times the time of the half. A third
# source has 250 functions, each of which calls the one above it 49 times.
# Each time is less that for an empty file.
. "$(dirname "$0")/timing.sh"
. bench/programs.bash
runs=${1:-10}
snc=$(program "${SNC:-}" snc_main snc examples/ramp.st)

# a source with so many functions, and so many calls in each
functions_of() {
    awk -v count="$1" -v calls="$2" 'BEGIN {
        print "program chain"
        print "option +s;"
        print "int f0(int n) { return n; }"
        for (i = 1; i < count; i++) {
            printf "int f%d(int n) { return n", i
            for (call = 0; call < calls; call++) printf " + f%d(n)", i - 1
            print "; }"
        }
        printf "ss s { state a { when (f%d(1)) {} exit } }\n", count - 1
    }' > "$3"
}

magnets 64 1000 1000 > "$work/whole.st"
magnets 32 500 500 > "$work/half.st"
functions_of 250 49 "$work/chain.st"
: > "$work/none.st"
for source in whole half chain none; do
    enter "$source" "$work/empty" repeat "$runs" "$snc" "$work/$source.st"
done
race
for source in whole half chain; do
    [ ! -s "$work/$source.err" ] || { echo "$source.st has a message: $(head -n 1 "$work/$source.err")" >&2; exit 1; }
done
awk -v runs="$runs" -v tokens="$(tokens_of "$work/whole.st")" -v halved="$(tokens_of "$work/half.st")" \
    -v chained="$(tokens_of "$work/chain.st")" -v whole=$((milliseconds[whole] - milliseconds[none])) \
    -v half=$((milliseconds[half] - milliseconds[none])) -v chain=$((milliseconds[chain] - milliseconds[none])) '
function told(what, tokens, took) {
    printf "%s %.2f million tokens a second (%.2f ms a source)", what, tokens * runs / took / 1e3, took / runs
}
BEGIN {
    printf "sources: %d and %d tokens, %d runs for each time\n", tokens, halved, runs
    told("check:  ", tokens, whole); print ""
    told("half:   ", halved, half); print ""
    printf "ratio:   %.2f times the time for %.2f times the tokens\n", whole / half, tokens / halved
    told("calls:  ", chained, chain); printf ", %.2f of the speed of the first\n", (chained / chain) / (tokens / whole)
    exit whole > 2.2 * half
}'
