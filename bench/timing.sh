# What the benches share: the programs, a folder to work in, and a race of commands by their processor time. To be sourced.
#
# SNLRUN, SNC and SNL name other programs than those of this tree, such as older builds to compare with.
set -eu
for name in SNLRUN SNC SNL; do
    [ -z "${!name:-}" ] || printf -v "$name" %s "$(realpath -- "${!name}")"
done
cd "$(dirname "${BASH_SOURCE[0]}")/.."
work=$(mktemp -d)
trap 'rm -rf "$work"' EXIT
echo "0 tick" > "$work/tick.trace"
: > "$work/empty"

# The program that is named, or that of a crate; a call of it by bin/ proves and builds it first, where it is not there:
# NAMED CRATE NAME WORD..
program() {
    local path=${1:-$PWD/crates/$2/out/$2}
    [ -x "$path" ] || [ -n "$1" ] || "bin/$3" "${@:4}" < examples/ramp.trace > /dev/null
    [ -x "$path" ] || { echo "bench: $path: no such program" >&2; return 1; }
    echo "$path"
}
snlrun=$(program "${SNLRUN:-}" snlrun snlrun examples/ramp.st)

# What ran in a race, in order; of each its input, its command and the least milliseconds of processor time that it took.
entered=()
declare -A inputs commands milliseconds

# Enters a command over a file into the next race: NAME INPUT WORD..
enter() {
    entered+=("$1")
    inputs[$1]=$2
    commands[$1]=$(printf '%q ' "${@:3}")
    milliseconds[$1]=999999999
}

# Runs a command so often, unless it can't be run or is ended by a signal: TIMES WORD..
repeat() {
    local turn
    for ((turn = 0; turn < $1; turn++)); do "${@:2}" || [ $? -lt 126 ] || return 126; done
}

# Runs what was entered in turn, five times where no number is given. `milliseconds` then has the least of each, and $work/NAME.out what
# it wrote in its last run. What else the machine does only adds to a time. Fails where a command can't be run or is ended by a signal; no
# other status is looked at.
race() {
    local turn name took user system TIMEFORMAT='%3U %3S'
    for ((turn = 0; turn < ${1:-5}; turn++)); do
        for name in "${entered[@]}"; do
            echo 0 > "$work/status"
            read -r user system < <({ time { eval "${commands[$name]}" < "${inputs[$name]}" > "$work/$name.out" 2> "$work/$name.err" ||
                echo $? > "$work/status"; }; } 2>&1)
            [ "$(< "$work/status")" -lt 126 ] || { echo "bench: not measured: ${commands[$name]}" >&2; exit 1; }
            took=$((10#${user/[.,]/} + 10#${system/[.,]/}))
            if ((took < milliseconds[$name])); then milliseconds[$name]=$took; fi
        done
    done
    entered=()
}

# The most kilobytes of memory that a command over a file took: INPUT WORD.. Needs GNU time.
peak() {
    /usr/bin/time -q -o "$work/peak" -f %M "${@:2}" < "$1" > /dev/null || true
    cat "$work/peak"
}

# Compares $work/p.st over a trace with $work/p.py, a script of python3, and says what was done so often. The time of a start is taken
# off: of `snlrun` over an empty trace, of python3 with an empty script.
#
#   compare WHAT COUNT LAST-LINE TRACE
compare() {
    enter ours "$4" "$snlrun" --budget 1000000000 "$work/p.st"
    enter start "$work/empty" "$snlrun" --budget 1000000000 "$work/p.st"
    enter theirs "$work/empty" python3 "$work/p.py"
    enter nothing "$work/empty" python3 "$work/empty"
    race
    [ "$(tail -n 1 "$work/ours.out")" = "$3" ] || { echo "$1: the last line is not: $3" >&2; exit 1; }
    awk -v what="$1" -v count="$2" -v ours=$((milliseconds[ours] - milliseconds[start])) \
        -v theirs=$((milliseconds[theirs] - milliseconds[nothing])) 'BEGIN {
        printf "%s: %d times, %.3f s, %.2f million a second; python3 %.3f s, %.1f times as long\n",
            what, count, ours / 1e3, count / ours / 1e3, theirs / 1e3, theirs / ours
    }'
}

# Fails unless both programs of a comparison wrote the same.
expect_same() { cmp -s "$work/ours.out" "$work/theirs.out" || { echo "the two differ" >&2; exit 1; }; }

# The program of the benches of trace lines: it puts a value in every second pair of lines.
cat > "$work/limit.st" <<'PROGRAM'
program limit
option +s;
int speed;
assign speed to "PUMP:SPEED";
monitor speed;
int limit;
assign limit to "PUMP:LIMIT";
ss guard {
  state low { when (speed > 1200) { limit = speed; pvPut(limit); } state high }
  state high { when (speed < 1200) {} state low }
}
PROGRAM

# A trace of so many lines for that program.
limit_trace() {
    awk -v lines="$1" 'BEGIN {
        print "0 up PUMP:SPEED"
        print "0 up PUMP:LIMIT"
        for (i = 2; i < lines; i++)
            printf "%d val PUMP:SPEED %d\n", i * 10, i % 4 < 2 ? 1100 + i % 90 : 1300 + i % 90
    }'
}
