#!/usr/bin/env bash
# How fast a program is loaded: the time of `snlrun` over an empty trace, beside that of `snc` on the same source, and whether it grows
# with the source.
#
#   bench/load.sh [RUNS]           so many runs for each time that is taken, 10 where none are given
#
# The source has four state sets with 1,000 states, and 1,000 links; each state has a condition on a link of its own, and a block that
# names it four times. The one it is compared with is half of it: half the states and half the links, in as many state sets. The whole
# has to take at most 2.2 times the time of the half, and at most 1.5 times that of `snc`, which judges it and loads nothing.
#
# Then 1,000 links with 15,000 `monitor` definitions, which has to take less than 0.1 s; and a sum of 28,000 names inside 60
# parentheses, each of them behind an operator of every level, which has to take no more than 3 times `snc`. Each time is less that for an
# empty file.
. "$(dirname "$0")/timing.sh"
. bench/programs.bash
runs=${1:-10}
snc=$(program "${SNC:-}" snc_main snc examples/ramp.st)

magnets 4 1000 1000 > "$work/whole.st"
magnets 4 500 500 > "$work/half.st"
awk 'BEGIN {
    print "program monitors"
    print "option +s;"
    for (i = 0; i < 1000; i++) printf "int v%d; assign v%d to \"c%d\";\n", i, i, i
    for (i = 0; i < 15000; i++) printf "monitor v%d;\n", i % 1000
    print "ss all { state first { when (v0) {} exit } }"
}' > "$work/monitors.st"
awk 'BEGIN {
    print "program deep"
    print "option +s;"
    print "int x;"
    printf "ss all { state first { when ("
    for (i = 0; i < 60; i++) printf "x || x && x | x ^ x & x == x < x << x + x * ("
    for (i = 1; i < 28000; i++) printf "x + "
    printf "x"
    for (i = 0; i < 60; i++) printf ")"
    print ") {} exit } }"
}' > "$work/deep.st"
: > "$work/none.st"
for source in whole half monitors deep none; do
    enter "$source" "$work/empty" repeat "$runs" "$snlrun" "$work/$source.st"
    enter "$source-checked" "$work/empty" repeat "$runs" "$snc" "$work/$source.st"
done
race
for source in whole half monitors deep; do
    [ ! -s "$work/$source.err" ] || { echo "$source.st has a message: $(head -n 1 "$work/$source.err")" >&2; exit 1; }
done

# milliseconds that a source took to load, and to check
loaded() { echo $((milliseconds[$1] - milliseconds[none])); }
checked() { echo $((milliseconds[$1-checked] - milliseconds[none-checked])); }

awk -v runs="$runs" -v whole="$(loaded whole)" -v half="$(loaded half)" -v judged="$(checked whole)" \
    -v monitors="$(loaded monitors)" -v deep="$(loaded deep)" -v sound="$(checked deep)" 'BEGIN {
    printf "sources: 1,000 and 500 states, each with a link; %d runs for each time\n", runs
    printf "load:     %.2f ms\n", whole / runs
    printf "half:     %.2f ms\n", half / runs
    printf "ratio:    %.2f times the time for twice the states and links\n", whole / half
    printf "snc:      %.2f ms; the load takes %.2f times as long\n", judged / runs, whole / judged
    printf "monitors: %.2f ms for 1,000 links with 15,000 of them\n", monitors / runs
    printf "deep:     %.2f ms for 28,000 names inside 60 parentheses; %.2f times as long as snc\n", deep / runs, deep / sound
    exit whole > 2.2 * half || whole > 1.5 * judged || monitors / runs > 100 || deep > 3 * sound
}'
