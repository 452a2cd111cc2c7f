#!/usr/bin/env python3
"""Runs a program beside a plant: a magnet that answers each put of ramp.st, and an operator who asks for currents.

    examples/plant.py bin/try snlrun examples/ramp.st

The words are those of the call. The lines of the run come on standard output, the trace as it came about goes to plant.trace.
"""
import subprocess
import sys

CURRENTS = [15, 12]

if not sys.argv[1:]:
    sys.exit(__doc__.strip())
run = subprocess.Popen(sys.argv[1:], stdin=subprocess.PIPE, stdout=subprocess.PIPE, text=True)
with open("plant.trace", "w") as trace:

    def tell(line):
        for file in (trace, run.stdin):
            print(line, file=file, flush=True)

    try:
        for name in ("MAG:WANTED", "MAG:MEASURED", "MAG:CURRENT"):
            tell(f"0 up {name}")
        tell("0 val MAG:MEASURED 0")
        tell(f"1000 val MAG:WANTED {CURRENTS.pop(0)}")
        for line in run.stdout:
            print(line, end="")
            ms, word, *rest = line.split()
            if word == "put":  # the magnet is there 400 ms later
                tell(f"{int(ms) + 400} val MAG:MEASURED {rest[1]}")
            elif word == "print" and rest[1] == "there,":  # the operator waits a second, or goes home
                if CURRENTS:
                    tell(f"{int(ms) + 1000} val MAG:WANTED {CURRENTS.pop(0)}")
                else:
                    run.stdin.close()
    except BrokenPipeError:
        pass  # the run has ended, by a fault, say
sys.exit(run.wait())
