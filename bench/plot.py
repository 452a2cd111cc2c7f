#!/usr/bin/env python3
"""What scripts/plot takes for the picture of a long run: processor time, memory, and the size of the page.

    bench/plot.py [LINES] [--snc PATH] [--snl PATH]        200,000 lines where none are given

The first run is a night of examples/interlock.st, with bursts of pressure, a gauge that is silent, a channel that is down, and a
valve that chatters; the second one has 24 channels of noise. The time of `snl run` is told apart from that of the script.
"""
import argparse
import random
import subprocess
import sys
import tempfile
from pathlib import Path

ROOT = Path(__file__).resolve().parent.parent
CHANNELS = 24
# Runs a call, and tells on standard error the processor seconds and the kilobytes that it took.
STARTER = """import resource, subprocess, sys
status = subprocess.run(sys.argv[1:]).returncode
used = resource.getrusage(resource.RUSAGE_CHILDREN)
print(used.ru_utime + used.ru_stime, used.ru_maxrss, file=sys.stderr)
sys.exit(status)
"""


def night(lines):
    """A trace of a night for examples/interlock.st, a line each 100 ms."""
    span, beat, events = lines * 100, 1, []
    bursts = [int(span * it) for it in (0.31, 0.48, 0.81)]
    for number in range(lines * 99 // 100):
        time = number * 100 + random.randrange(20)
        if number % 10 == 0 and not 0 < time - span * 0.62 < 9_000:
            beat += 1
            events.append((time, f"val VAC:GAUGE:BEAT {beat}"))
            continue
        rise = max((900 - (time - it) * 900 // 60_000 for it in bursts if 0 <= time - it < 60_000), default=0)
        events.append((time, f"val VAC:PRESSURE {80 + random.randrange(-15, 16) + rise}"))
    for time in (2_000, *(int(span * it) for it in (0.34, 0.52, 0.7, 0.9))):
        events += [(time, "val VAC:RESET 1"), (time + 5, "val VAC:RESET 0")]
    chatter = int(span * 0.86)
    events.append((chatter - 1, "val VAC:RESET 1"))
    events += [(chatter + it * 200, f"val VAC:PRESSURE {620 if it % 2 else 90}") for it in range(lines // 130)]
    events += [(int(span * 0.75), "down VAC:VALVE:OPEN"), (int(span * 0.79), "up VAC:VALVE:OPEN")]
    names = "VAC:PRESSURE", "VAC:GAUGE:BEAT", "VAC:RESET", "VAC:VALVE:OPEN"
    front = [f"0 up {it}" for it in names] + ["0 val VAC:RESET 0", "0 val VAC:PRESSURE 80", "0 val VAC:GAUGE:BEAT 1"]
    return (ROOT / "examples/interlock.st").read_text(), front + [f"{time} {text}" for time, text in sorted(events)]


def noise(lines):
    """A program of 24 channels, and a trace in which all of them are noise."""
    links = "".join(f'int c{it}; assign c{it} to "N:C{it}"; monitor c{it};\n' for it in range(CHANNELS))
    states = "state a { when (c0 > 50) { c2 = c0; pvPut(c2); } state b } state b { when (c0 < 50) {} state a }"
    front = [f"0 {word}" for it in range(CHANNELS) for word in (f"up N:C{it}", f"val N:C{it} 0")]
    rest = [f"{it * 25} val N:C{random.randrange(CHANNELS)} {random.randrange(101)}" for it in range(lines)]
    return f"program noise\noption +s;\n{links}ss s {{ {states} }}\n", front + rest


def measured(call, trace, out):
    """The processor seconds and the kilobytes of a call."""
    with open(trace, "rb") as lines, open(out, "wb") as written:
        ran = subprocess.run([sys.executable, "-c", STARTER, *call], stdin=lines, stdout=written, stderr=subprocess.PIPE, text=True)
    if ran.returncode:
        sys.exit(f"{call[0]}: status {ran.returncode}\n{ran.stderr}")
    seconds, kilobytes = ran.stderr.split()[-2:]
    return float(seconds), int(kilobytes)


def main():
    words = argparse.ArgumentParser(description="What scripts/plot takes for the picture of a long run.")
    words.add_argument("lines", nargs="?", type=int, default=200_000)
    words.add_argument("--snc", default=str(ROOT / "crates/snc_main/out/snc_main"))
    words.add_argument("--snl", default=str(ROOT / "crates/snl/out/snl"))
    given = words.parse_args()
    random.seed(3)
    for name, (source, lines) in (("a night", night(given.lines)), ("24 channels of noise", noise(given.lines))):
        with tempfile.TemporaryDirectory(prefix="plot-") as folder:
            program, trace, run, page = (Path(folder, it) for it in ("p.st", "trace", "run", "page"))
            program.write_text(source)
            trace.write_text("".join(f"{it}\n" for it in lines))
            first, _ = measured([given.snl, "run", "--whole", program], trace, run)
            call = [ROOT / "scripts/plot", "--snc", given.snc, "--run", run, program]
            seconds, kilobytes = measured(call, trace, page)
            size = page.stat().st_size
        print(f"{name}, {len(lines)} lines: snl run {first:.2f} s, plot {seconds:.2f} s, {kilobytes} kB, a page of {size} bytes")


if __name__ == "__main__":
    main()
