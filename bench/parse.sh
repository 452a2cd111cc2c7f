#!/usr/bin/env bash
# How fast tokens are read as a program: tokens a second, beside `wc -w` on the same file in the same run.
#
#   bench/parse.sh [RUNS]          so many runs for each time that is taken, 20 where none are given
#
# The source is a program of 1,000 states without its last brace, so it is cut and parsed to its end, and answered E01 there.
# Behind a token that begins no program the same tokens are only cut: E01 stands at that token. The difference of the two is the
# parser's, with the time to give the tree's memory back.
#
# Then the stack: what is nested 64 deep in parentheses and 64 deep in blocks has to run in 8 MiB.
. "$(dirname "$0")/timing.sh"
runs=${1:-20}

awk 'BEGIN {
    states = 1000
    print "program magnets"
    print "option +s;"
    print "int measured[8] = {0, 1}, wanted, limit;"
    print "assign measured to {\"MAG:1\", \"MAG:2\"};"
    print "monitor measured;"
    print "ss ramp {"
    for (i = 0; i < states; i++) {
        printf "    state step_%d {\n", i
        printf "        when (measured[1] - wanted >= limit * 2 + %d && !(busy || held)) {\n", i
        printf "            int turn;\n"
        printf "            for (turn = 0; turn < 8; turn++) {\n"
        printf "                if (wanted > turn) wanted -= rise(turn, 3); else pvPut(wanted);\n"
        printf "            }\n"
        printf "        } state step_%d\n", (i + 1) % states
        printf "    }\n"
    }
}' > "$work/program.st"
{ echo "not_a_program"; cat "$work/program.st"; } > "$work/tokens.st"

# fails unless the message about a source is this one
expect() {
    local said
    said=$( (ulimit -s "$3"; "$snlrun" "$1") 2>&1 < /dev/null || true)
    case $said in *": $2"*) ;; *) echo "$1: $2 is wanted, not: $said" >&2; exit 1 ;; esac
}

expect "$work/program.st" "error: E01 syntax error at end of file" 8192
expect "$work/tokens.st" "error: E01" 8192
enter whole "$work/empty" repeat "$runs" "$snlrun" "$work/program.st"
enter cut "$work/empty" repeat "$runs" "$snlrun" "$work/tokens.st"
enter start "$work/empty" repeat "$runs" "$snlrun" "$work/empty"
enter words "$work/empty" repeat "$runs" wc -w "$work/program.st"
enter nothing "$work/empty" repeat "$runs" wc -w "$work/empty"
race
bytes=$(wc -c < "$work/program.st")
tokens=$(grep -oE '"[^"]*"|[A-Za-z_0-9]+|[-+|&]{2}|[-<>=!+*/]=|[^ ]' "$work/program.st" | wc -l)
awk -v bytes="$bytes" -v tokens="$tokens" -v runs="$runs" -v parse=$((milliseconds[whole] - milliseconds[cut])) \
    -v both=$((milliseconds[whole] - milliseconds[start])) -v words=$((milliseconds[words] - milliseconds[nothing])) '
function rate(took) { return sprintf("%.2f million tokens a second", tokens * runs / took / 1e3) }
BEGIN {
    printf "source: %d bytes, %d tokens, %d runs for each time\n", bytes, tokens, runs
    printf "parse:  %s (%.2f ms a source)\n", rate(parse), parse / runs
    printf "both:   %s, cut and parsed (%.2f ms a source)\n", rate(both), both / runs
    printf "wc -w:  %s (%.2f ms a source)\n", rate(words), words / runs
    printf "ratio:  %.2f times the time of wc -w to parse, %.2f to cut and parse\n", parse / words, both / words
}'

# a program with an expression in so many parentheses, in so many blocks
nested() {
    awk -v parentheses="$1" -v blocks="$2" 'function row(sign, count) { while (count-- > 0) printf "%s", sign }
    BEGIN {
        printf "program deep ss s { state a { when (1) "
        row("{", blocks); row("(", parentheses); printf "1"; row(")", parentheses); printf ";"; row("}", blocks)
        print " state a } }"
    }' > "$work/deep.st"
}

nested 65 64
expect "$work/deep.st" "error: E02" 8192
nested 64 65
expect "$work/deep.st" "error: E02" 8192
nested 64 64
expect "$work/deep.st" "warning: W1" 8192
least=8192
while (expect "$work/deep.st" "warning: W1" $((least - 64))) 2> /dev/null; do least=$((least - 64)); done
echo "stack:  64 parentheses in 64 blocks run in 8192 KB and down to $least KB; 65 of either, E02"
