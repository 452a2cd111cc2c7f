#!/usr/bin/env bash
# How fast functions are called: calls of a function of two parameters a second, beside the same in python3 in the same run, and
# beside the same program with the body written out in its loop.
#
#   bench/calls.sh [CALLS]         10,000,000 calls where none are given
#
# All three have to come to the same sum. The time of a start is taken off each.
. "$(dirname "$0")/timing.sh"
calls=${1:-10000000}

# a program whose loop adds up a value, with functions in front or none
program_of() {
    cat <<PROGRAM
program calls
option +s;
int i; long t;
$2
ss all {
  state count { when (t == 0) { for (i = 0; i < $calls; i++) t = t + $1 % 7; printf("%ld", t); } state done }
  state done { when (t == 0) {} state count }
}
PROGRAM
}

program_of "step(i, 1)" "int step(int n, int m) { return n * 2 + m; }" > "$work/called.st"
program_of "(i * 2 + 1)" "" > "$work/written.st"
cat > "$work/p.py" <<PROGRAM
def step(n, m):
    return n * 2 + m
def count():
    t = 0
    i = 0
    while i < $calls:
        t = t + step(i, 1) % 7
        i += 1
    return t
print("0 start calls\\n0 print all %d\\n0 go all count done" % count())
PROGRAM

for name in called written; do
    enter "$name" "$work/tick.trace" "$snlrun" --budget 1000000000 "$work/$name.st"
    enter "$name-start" "$work/empty" "$snlrun" --budget 1000000000 "$work/$name.st"
done
enter python "$work/empty" python3 "$work/p.py"
enter nothing "$work/empty" python3 "$work/empty"
race
for name in called written; do
    cmp -s "$work/$name.out" "$work/python.out" || { echo "$name.st: not what python3 prints" >&2; exit 1; }
done
awk -v calls="$calls" -v called=$((milliseconds[called] - milliseconds[called-start])) \
    -v written=$((milliseconds[written] - milliseconds[written-start])) -v python=$((milliseconds[python] - milliseconds[nothing])) 'BEGIN {
    printf "calls: %d times, %.3f s, %.2f million a second; python3 %.3f s, %.1f times as long\n",
        calls, called / 1e3, calls / called / 1e3, python / 1e3, python / called
    printf "written out: %.3f s; with the calls %.2f times as long\n", written / 1e3, called / written
}'
