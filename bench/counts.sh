#!/usr/bin/env bash
# How many instructions of the processor a thing takes: by callgrind, of the same program at two sizes, the difference over the things
# that the larger one has more. So the start is not in it. A count is the same in each run, whatever else the machine does.
#
#   bench/counts.sh [FIGURE..]     all figures where none is named
#
# The last lines tell what memory `snc` and `snlrun` take over bench/check.sh's and bench/load.sh's programs: bytes of the heap at its
# highest, by massif, and page faults, by GNU time. Needs valgrind.
. "$(dirname "$0")/timing.sh"
. bench/programs.bash
snc=$(program "${SNC:-}" snc_main snc examples/ramp.st)
command -v valgrind > "$work/valgrind" || { echo "bench: there is no valgrind" >&2; exit 1; }

# Each of these makes $work/p.st and $work/p.trace of a size.
channels() { wide "$1" > "$work/p.st"; channel_lines "$1" "$2" "$3" > "$work/p.trace"; }
make_value() { channels 1 values "$1"; }
make_tick() { channels 1 ticks "$1"; }
make_both() { channels 1 both $(($1 * 2)); }
make_wide() { channels 1000 values "$1"; }
make_sets() { sets 64 own > "$work/p.st"; channel_lines 64 values "$1" > "$work/p.trace"; }
make_put() { cp "$work/limit.st" "$work/p.st"; limit_trace "$1" > "$work/p.trace"; }
make_wake() {
    echo 'program wakes option +s; ss s { state a { when (delay(0.001)) {} state a } }' > "$work/p.st"
    printf '0 tick\n%s tick\n' "$1" > "$work/p.trace"
}
make_go() {
    echo "program turns option +s; int n; ss s { state a { when (n++ < $1) {} state a } }" > "$work/p.st"
    cp "$work/tick.trace" "$work/p.trace"
}

# A program that does a statement so often: SIZE STATEMENT [FUNCTION].
turns() {
    cat > "$work/p.st" <<PROGRAM
program turns
option +s;
int i; int x; long t;
${3:-}
ss all {
  state count { when (t == 0) { for (i = 0; i < $1; i++) { $2 } } state done }
  state done { when (FALSE) {} state count }
}
PROGRAM
    cp "$work/tick.trace" "$work/p.trace"
}
make_turn() { turns "$1" 't = t + i % 7;'; }
make_call() { turns "$1" 't = t + step(i, 1) % 7;' 'int step(int n, int m) { return n * 2 + m; }'; }
make_line() { turns "$1" 'printf("%d", i);'; }
make_lines() { turns "$1" 'printf("%d %d %d", i, i * 2, -i);'; }

# Instructions of a command over a file: INPUT WORD..
counted() {
    valgrind --tool=callgrind --callgrind-out-file=/dev/null "${@:2}" < "$1" > "$work/out" 2> "$work/err" || [ $? -lt 126 ]
    sed -n 's/.* Collected : //p' "$work/err"
}

# The highest heap of a command over an empty trace in bytes, and its page faults: WORD..
memory() {
    local bytes
    valgrind --tool=massif --massif-out-file="$work/massif" "$@" < "$work/empty" > "$work/out" 2> "$work/err" || [ $? -lt 126 ]
    bytes=$(sed -n 's/^mem_heap_B=//p' "$work/massif" | sort -n | tail -n 1)
    /usr/bin/time -q -o "$work/faults" -f %R "$@" < "$work/empty" > "$work/out" 2> "$work/err" || true
    echo "$bytes bytes of heap, $(< "$work/faults") page faults"
}

# Prints a figure, by two sizes and the instructions at each: WHAT SMALL LARGE FEW MANY.
tell() {
    awk -v what="$1" -v less="$2" -v more="$3" -v few="$4" -v many="$5" 'BEGIN { printf "%-40s %10.1f\n", what, (many - few) / (more - less) }'
}

# A figure of runs at two sizes: NAME WHAT SMALL LARGE.
run_figure() {
    local few many
    "make_$1" "$3"
    few=$(counted "$work/p.trace" "$snlrun" --budget 1000000000 "$work/p.st")
    "make_$1" "$4"
    many=$(counted "$work/p.trace" "$snlrun" --budget 1000000000 "$work/p.st")
    tell "$2" "$3" "$4" "$few" "$many"
}

# A figure of tokens, by a source and one of twice the size: WHAT PROGRAM STATE-SETS-OF-EACH..
token_figure() {
    magnets "$3" 500 500 > "$work/half.st"
    magnets "$4" 1000 1000 > "$work/whole.st"
    tell "$1" "$(tokens_of "$work/half.st")" "$(tokens_of "$work/whole.st")" \
        "$(counted "$work/empty" "$2" "$work/half.st")" "$(counted "$work/empty" "$2" "$work/whole.st")"
}

figures=(value tick both wide sets put wake go turn call line lines checked loaded memory)
for figure in "${@:-${figures[@]}}"; do
    case $figure in
        value) run_figure value "a value" 1000 9000 ;;
        tick) run_figure tick "a tick" 1000 9000 ;;
        both) run_figure both "a value and a tick" 1000 5000 ;;
        wide) run_figure wide "a value, with 1,000 channels" 1000 9000 ;;
        sets) run_figure sets "a value, with 64 state sets" 640 1920 ;;
        put) run_figure put "a line of trace.sh" 1000 9000 ;;
        wake) run_figure wake "a wake with its line" 1000 9000 ;;
        go) run_figure go "a transition with its line" 1000 9000 ;;
        turn) run_figure turn "a turn of a loop" 2000 6000 ;;
        call) run_figure call "a turn with a call" 2000 6000 ;;
        line) run_figure line "a printf line of one number" 1000 3000 ;;
        lines) run_figure lines "a printf line of three numbers" 1000 3000 ;;
        checked) token_figure "a token, by snc" "$snc" 32 64 ;;
        loaded) token_figure "a token, loaded by snlrun" "$snlrun" 4 4 ;;
        memory)
            magnets 64 1000 1000 > "$work/whole.st"
            echo "snc: $(memory "$snc" "$work/whole.st")"
            magnets 4 1000 1000 > "$work/whole.st"
            echo "snlrun: $(memory "$snlrun" "$work/whole.st")"
            ;;
        *) echo "bench: there is no figure '$figure'; the figures are ${figures[*]}" >&2; exit 2 ;;
    esac
done
