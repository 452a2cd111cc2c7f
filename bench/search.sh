#!/usr/bin/env bash
# How fast `snl search` is over two programs, and how much memory a world takes.
#
#   bench/search.sh [SECONDS]      each program for at most so many; 20 where none are given
#
# Each program is searched twice over the same lines. With `--cover`, and a line of the output that always comes, the search goes on
# to its end and nothing is certified; without them the certificate comes behind it. An input in a world is one line that is tried:
# those at the next wake where there is none are counted too, and take no time. Needs GNU time.
. "$(dirname "$0")/timing.sh"
seconds=${1:-20}
snl=$(program "${SNL:-}" snl snl run examples/ramp.st)
search=("$snl" search --memory 8000 --worlds 100000000 --seconds "$seconds")

# measure FILE LINES INPUTS: a search of so many lines, with so many inputs in a world
measure() {
    local name all worlds before memory
    name=$(basename "$1" .st)
    all=("${search[@]}" --lines "$2" --cover "$work/suite" --never "start $name" "$1")
    enter all "$work/empty" "${all[@]}"
    enter certain "$work/empty" "${search[@]}" --lines "$2" "$1"
    race
    worlds=$(sed -nE 's/^([0-9]+) worlds, .*/\1/p' "$work/all.out")
    before=$(peak "$work/empty" "${search[@]}" --lines 1 "$1")
    memory=$(peak "$work/empty" "${all[@]}")
    awk -v name="$name" -v lines="$2" -v worlds="$worlds" -v inputs="$3" -v all="${milliseconds[all]}" \
        -v certain="${milliseconds[certain]}" -v memory=$((memory - before)) 'BEGIN {
        printf "%s, %d lines: %d worlds of %d bytes, %d inputs in each: %.3f s, %.2f million a second\n",
            name, lines, worlds, memory * 1024 / worlds, inputs, all / 1e3, worlds * inputs / all / 1e3
        printf "  with the certificate: %.3f s, %.2f million a second\n", certain / 1e3, worlds * inputs / certain / 1e3
    }'
    tail -n 1 "$work/certain.out" | sed 's/^/  /'
}

measure examples/shutter.st "${SHUTTER:-10000}" 10
measure examples/ramp.st "${RAMP:-12}" 25
