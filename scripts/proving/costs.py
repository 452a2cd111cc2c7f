#!/usr/bin/env python3
"""What proofs take, as bin/parts/costs.txt tells it. As a script it prints how many tasks may run at a time here, for .ci/run.

Any tasks that may run beside each other fit into the memory that is available then: two crates may, where neither stands on the other.
Below 8 GB it is one. There is no more than one for a processor.
"""
import os
import re
from dataclasses import dataclass
from pathlib import Path

ROOT = Path(__file__).resolve().parent.parent.parent
TABLE = ROOT / "bin/parts/costs.txt"
OTHER = "other"
LEAST = 8.0


@dataclass
class Cost:
    minutes: float
    gigabytes: float


def costs(table=TABLE):
    """The table: the cost of each crate that has a line, and of `other`."""
    rows = [it.split() for it in table.read_text().splitlines() if it.strip() and it[0] != "#"]
    return {name: Cost(float(minutes), float(gigabytes)) for name, minutes, gigabytes in rows}


def cost(name, table):
    """What the proof of a crate, or that of CRATE.tests, takes."""
    return table.get(name, table[OTHER])


def crates_of(root=ROOT):
    """Each crate of crates.txt with all on which it stands, lowest first."""
    lines = (root / "crates.txt").read_text().splitlines()
    named = [it.partition(":")[::2] for it in lines if it.strip() and it[0] != "#"]
    direct = {name.split()[0]: below.split() for name, below in named}
    found = {}
    while len(found) < len(direct):
        ready = [it for it in direct if it not in found and all(dep in found for dep in direct[it] if dep in direct)]
        if not ready:
            raise SystemExit("crates.txt: a crate stands on itself")
        for name in ready:
            own = [it for it in direct[name] if it in direct]
            found[name] = set(own).union(*(found[it] for it in own))
    return found


def has_tests(crate, root=ROOT):
    """Whether a crate has tests, which are a task of their own then."""
    files = (root / "crates" / crate / "src").rglob("*.rt")
    return any(re.search(rb"#\s*\[[^]]*\btest\b", it.read_bytes()) for it in files)


def available():
    """GB of memory that new processes may take."""
    return int(re.search(r"^MemAvailable:\s+(\d+)", Path("/proc/meminfo").read_text(), re.MULTILINE)[1]) * 1024 / 1e9


def dearest(count, tasks, below):
    """The most GB that `count` tasks take beside each other: `tasks` are pairs of name and GB, dearest first."""
    if not count or not tasks:
        return 0.0
    most = 0.0
    for at, (name, need) in enumerate(tasks):
        if need + (count - 1) * need <= most:
            break
        others = [it for it in tasks[at + 1 :] if it[0] not in below[name] and name not in below[it[0]]]
        most = max(most, need + dearest(count - 1, others, below))
    return most


def tasks_at_a_time(room, processors, root=ROOT):
    """How many tasks fit into `room` GB, whichever they are."""
    table, below = costs(), crates_of(root)
    for name in [it for it in below if has_tests(it, root)]:
        below[f"{name}.tests"] = below[name] | {name}
    tasks = sorted(((name, cost(name, table).gigabytes) for name in below), key=lambda it: -it[1])
    fits = [it for it in range(2, processors + 1) if dearest(it, tasks, below) <= room]
    return max(fits, default=1) if room >= LEAST else 1


if __name__ == "__main__":
    print(tasks_at_a_time(available(), len(os.sched_getaffinity(0))))
