#!/usr/bin/env bash
# How fast logs become a trace: lines a second and peak memory of `snl trace`, beside the same work in Python.
#
#   bench/logs.sh [LINES]          1,000,000 lines of each log where none are given
#
# The logs: what camonitor writes of 20 channels, and the CSV of an archiver. The reader in Python moves the point of each value by
# three digits with whole numbers, as `--scale NAME=3` does, and keeps of each channel whether it is connected. Its traces have to be
# the same, but for their comments. Needs GNU time and Python 3.
. "$(dirname "$0")/timing.sh"
lines=${1:-1000000}
snl=$(program "${SNL:-}" snl snl waits examples/ramp.st)

awk -v lines="$lines" 'BEGIN {
    for (i = 0; i < lines; i++) {
        seconds = int(i / 1000) % 60; minutes = int(i / 60000) % 60; hours = int(i / 3600000) % 24
        printf "CHANNEL:%-22d 2026-03-02 %02d:%02d:%02d.%06d %d.%03d  \n", i % 20, hours, minutes, seconds, i % 1000 * 1000, i % 97, i % 1000
    }
}' > "$work/monitor.log"
awk -v lines="$lines" 'BEGIN { for (i = 0; i < lines; i++) printf "%d,%d.%03d,0,0,%d\n", 1772442900 + i / 1000, i % 97, i % 1000, i % 1000 * 1000000 }' \
    > "$work/CHANNEL.csv"

cat > "$work/reader.py" <<'PYTHON'
import sys
from datetime import datetime

up, begin = set(), None


def thousandths(text):
    whole, _, part = text.partition(".")
    return int(whole + part.ljust(3, "0"))


def camonitor(line):
    name, day, clock, value = line.split()
    return name, int(datetime.fromisoformat(f"{day} {clock}").timestamp() * 1000 + 0.5), value


def archive(line):
    seconds, value, _, _, nanos = line.split(",")
    return "CHANNEL", int(seconds) * 1000 + int(nanos) // 1000000, value


read = camonitor if sys.argv[1].endswith(".log") else archive
with open(sys.argv[1], encoding="ascii") as log:
    for line in log:
        name, ms, value = read(line)
        begin = ms if begin is None else begin
        if name not in up:
            up.add(name)
            print(ms - begin, "up", name)
        print(ms - begin, "val", name, thousandths(value))
PYTHON

scales=(--scale CHANNEL=3)
for channel in {0..19}; do
    scales+=(--scale "CHANNEL:$channel=3")
done
for log in monitor.log CHANNEL.csv; do
    enter "snl-$log" "$work/empty" "$snl" trace "${scales[@]}" "$work/$log"
    enter "python-$log" "$work/empty" python3 "$work/reader.py" "$work/$log"
done
race
for log in monitor.log CHANNEL.csv; do
    cmp -s <(grep -v '^#' "$work/snl-$log.out") "$work/python-$log.out" || { echo "logs: of $log Python makes another trace" >&2; exit 1; }
    memory=$(peak "$work/empty" "$snl" trace "${scales[@]}" "$work/$log")
    python=$(peak "$work/empty" python3 "$work/reader.py" "$work/$log")
    awk -v log_name="$log" -v lines="$lines" -v bytes="$(wc -c < "$work/$log")" -v snl="${milliseconds[snl-$log]}" \
        -v python="${milliseconds[python-$log]}" -v memory="$memory" -v other="$python" 'BEGIN {
        printf "%s: %d lines, %d bytes\n", log_name, lines, bytes
        printf "snl trace: %.3f s, %.2f million lines a second; peak %d KB\n", snl / 1e3, lines / snl / 1e3, memory
        printf "python3:   %.3f s, %.2f million lines a second; peak %d KB\n", python / 1e3, lines / python / 1e3, other
    }'
done
