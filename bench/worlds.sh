#!/usr/bin/env bash
# Which programs have worlds that end: `snl search --lines 1000000` over the examples, over programs of pages and cases, and over the ports in
# cases/port.
#
#   bench/worlds.sh [SECONDS [PORTS]]      each program for at most so many, and each port; 10 and 5 where none are given
#
# Each program is searched twice: once with an end that may have a time in it, so that worlds are compared with their times, and once as it
# is usually called. A line tells the program, what came of each, the seconds by the clock of the second, and what its worlds grow by.
# Worlds take up to 2 GB.
. "$(dirname "$0")/timing.sh"
seconds=${1:-10}
ports=${2:-5}
snl=$(program "${SNL:-}" snl snl run examples/ramp.st)

# What a search answered: `never` and its worlds, its worlds and how many lines are certain, or what was found.
answer() {
    local found
    found=$(sed -nE 's/^found: ([0-9]+ )?(.*), [0-9]+ lines? after .*/found: \2/p; s/^found: ([0-9]+ )?(.*), at the start.*/found: \2/p' "$1" | head -n 1)
    [ -z "$found" ] || { echo "$found"; return; }
    tail -n 1 "$1" | sed -E 's/^(in vain: )?never(, but an overflow of .*)? \(([0-9]+) worlds?.*/\1never\2, \3/
        s/^(not all was seen: )?none up to ([0-9]+ lines?)(, but an overflow of .*)? \(([0-9]+) worlds?.*/\4 up to \2\3/'
}

# measure NAME SECONDS FILE
measure() {
    local words=(search --lines 1000000 --seconds "$2" "$3") TIMEFORMAT=%2R took
    "$snl" "${words[@]:0:1}" --never-end '#' "${words[@]:1}" > "$work/times.out" 2>&1 || true
    took=$({ time "$snl" "${words[@]}" > "$work/later.out" 2>&1 || true; } 2>&1)
    echo "$1 | $(answer "$work/times.out") | $(answer "$work/later.out") | $took | $(sed -n 's/^worlds grow by: //p' "$work/later.out")"
}

# A program that stands in a page, up to the end of its block, with a change: PAGE FIRST-LINE CHANGE
from_page() {
    awk -v first="$2" 'index($0, first) == 1 { on = 1 } on && /^```/ { exit } on' "$1" | sed "$3" > "$work/page.st"
    echo "$work/page.st"
}

for name in handshake interlock light motor ramp shutter station/station interlock-watched; do measure "$name" "$seconds" "examples/$name.st"; done
measure gate "$seconds" "$(from_page docs/tools/search.md 'program gate option +s;' 's/speed > 950/speed > 950 \&\& severity <= 1/')"
measure vent "$seconds" "$(from_page docs/tools/search.md 'program vent option +s;' 's/550/500/')"
measure vacuum "$seconds" "$(from_page docs/BY_HAND.md 'program vacuum ("P=LAB,GV=GV1")' '')"
measure pump-dry "$seconds" examples/porting/pump-dry.st
measure permit "$seconds" cases/epics/permit.st
for port in cases/port/*.new; do measure "port $(basename "$port" .new)" "$ports" "$port"; done
