#!/usr/bin/env bash
# How fast a source is cut into tokens: MB a second, beside `wc -w` on the same file in the same run.
#
# The source is 1 MiB less a few bytes with some 65,000 tokens, and its first token begins no program. So what
# `snlrun` does with it is to start, read it, cut it whole and say E01. A start with an empty source is taken off.
#
#   bench/tokens.sh [RUNS]         so many runs for each time that is taken, 50 where none are given
. "$(dirname "$0")/timing.sh"
runs=${1:-50}

awk 'BEGIN {
    lines = 8125
    print "not_a_program"
    for (i = 0; i < lines; i++)
        printf "    magnet_current_%06d = magnet_current_%06d * 0x%06x + 017; /* as the ramp wants it to stand: step %06d of many */\n", i, i + 1, i, i
}' > "$work/source.st"

enter whole "$work/empty" repeat "$runs" "$snlrun" "$work/source.st"
enter start "$work/empty" repeat "$runs" "$snlrun" "$work/empty"
enter words "$work/empty" repeat "$runs" wc -w "$work/source.st"
enter nothing "$work/empty" repeat "$runs" wc -w "$work/empty"
race
bytes=$(wc -c < "$work/source.st")
awk -v bytes="$bytes" -v runs="$runs" -v ours=$((milliseconds[whole] - milliseconds[start])) \
    -v words=$((milliseconds[words] - milliseconds[nothing])) 'BEGIN {
    tokens = 8125 * 8 + 1
    printf "source: %d bytes, %d tokens, %d runs for each time\n", bytes, tokens, runs
    printf "tokens: %.1f MB a second (%.2f ms a source)\n", bytes * runs / ours / 1e3, ours / runs
    printf "wc -w:  %.1f MB a second (%.2f ms a source)\n", bytes * runs / words / 1e3, words / runs
    printf "ratio:  %.2f times the time of wc -w\n", ours / words
}'
