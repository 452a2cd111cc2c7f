"""Cases of many programs and days: what `scripts/many` and the recipes of docs/tools/many.md make of them, on the engines that are there.

A machine that lacks GNU parallel, Snakemake or Slurm has none of them: `run` then tells them as skipped.
"""
import os
import random
import shutil
import subprocess
from dataclasses import dataclass

from outside import Outside, called

SECONDS = 300
# Programs that begin at once, and put where a channel passes a limit.
SOURCE = """program {name} option +s; int x; assign x to "X"; monitor x; int y; assign y to "Y";
ss s { state low { when (x > {limit}) { y = 1; pvPut(y); } state high } state high { when (x < 3) { y = 0; pvPut(y); } state low when (x == 50) {} exit } }
"""
LIMITS = {"lamp": 5, "pump": 20, "valve": 90}
SUMS = {"lamp": "2 of 3 clauses taken", "pump": "2 of 3 clauses taken", "valve": "0 of 3 clauses taken"}
BAD = "pump-3"


@dataclass
class Engine(Outside):
    of_root: bool = False

    def lacks(self):
        """What the engine lacks here, in words."""
        if not shutil.which(self.needs, path=f"{os.environ['PATH']}:/usr/sbin:/sbin"):
            return f"there is no {self.needs} here"
        return f"{self.needs} is started by root alone" if self.of_root and os.getuid() else ""


def cases(root):
    yield Engine("many: GNU parallel tells each answer in its order, with its name", lambda *it: parallel(*it), "parallel", "snl")
    yield Engine("many: Snakemake runs, adds up, tests and reports, and does nothing twice", lambda *it: snakemake(root, *it), "snakemake", "snl")
    yield Engine("many: an array of 8 tasks of Slurm, one of them killed", lambda *it: slurm(root, *it), "slurmctld", "snl", of_root=True)


def made(folder, days=4):
    """Programs with traces, of which one has a bad line."""
    dice = random.Random(3)
    (folder / "programs").mkdir()
    for name, limit in LIMITS.items():
        text = SOURCE.replace("{name}", name).replace("{limit}", str(limit))
        (folder / f"programs/{name}.st").write_text(text)
        for day in range(days):
            values = (dice.choice((0, 2, 30, 40)) for _ in range(20))
            lines = ["0 up X\n", "0 up Y\n", "0 val X 1\n", *(f"{ms} val X {value}\n" for ms, value in enumerate(values, 1)), "30 val X 40\n", "31 val X 0\n"]
            (folder / f"programs/{name}-{day}.trace").write_text("".join(lines) + "nonsense\n" * (f"{name}-{day}" == BAD))


def surroundings(folder, built):
    return {**os.environ, "PATH": f"{built}:{os.environ['PATH']}", "HOME": str(folder), "XDG_CACHE_HOME": str(folder / "cache"), "SNL": str(built / "snl")}


def direct(folder, built, name, days=4):
    """The file of counts of all traces of a program, by one call."""
    traces = [word for day in range(days) for word in ("--trace", f"programs/{name}-{day}.trace")]
    subprocess.run([built / "snl", "cover", *traces, "--counts", f"{name}.cov", f"programs/{name}.st"], cwd=folder, capture_output=True, timeout=SECONDS)
    return (folder / f"{name}.cov").read_text()


def parallel(folder, built):
    made(folder)
    call = "snl cover --trace programs/{}.trace --counts {}.counts programs/lamp.st | tail -n 1"
    names = [f"lamp-{day}" for day in range(4)]
    ran = subprocess.run(
        ["parallel", "-k", "--tag", "--joblog", "log", call, ":::", *names],
        cwd=folder, env=surroundings(folder, built), stdin=subprocess.DEVNULL, capture_output=True, text=True, timeout=SECONDS,
    )  # fmt: skip
    wanted = "".join(f"{it}\t2 of 3 clauses taken, 2 of 2 states entered, 1 of 1 channels put\n" for it in names)
    if (ran.returncode, ran.stdout) != (0, wanted):
        return f"{ran}"
    added = called(built / "snl", "cover", *(word for it in names for word in ("--add", f"{it}.counts")), "--counts", "sum.cov", "programs/lamp.st", cwd=folder)
    if (folder / "sum.cov").read_text() != direct(folder, built, "lamp"):
        return f"the sum of the counts is another one: {added}"
    statuses = [it.split("\t")[6] for it in (folder / "log").read_text().splitlines()[1:]]
    return "" if statuses == ["0"] * 4 else f"the statuses are {statuses}"


def snakemake(root, folder, built):
    made(folder)
    call = ["snakemake", "-s", root / "scripts/many/Snakefile", "-c", "2", "--nolock", "--config", "programs=programs", "out=out"]
    run = lambda: subprocess.run(call, cwd=folder, env=surroundings(folder, built), stdin=subprocess.DEVNULL, capture_output=True, text=True, timeout=SECONDS)
    ran = run()
    if ran.returncode:
        return f"status {ran.returncode}: {ran.stderr[-2000:]}"
    for name, sums in SUMS.items():
        if (folder / f"out/{name}/all.cov").read_text() != direct(folder, built, name):
            return f"the counts of {name} are not those of one call"
        if not (folder / f"out/{name}/cover.txt").read_text().splitlines()[-1].startswith(sums):
            return f"{name} has not {sums}"
    report = (folder / "out/report.html").read_text()
    lacking = [it for it in ("<td>pump</td><td>4</td>", f"{BAD}: bad line", "<td>s low 1 to high (line 2)<br>", "lamp/cover.txt") if it not in report]
    if lacking:
        return f"the report has no {lacking}: {report}"
    again = run()
    return "" if "Nothing to be done" in again.stdout + again.stderr else f"a second call does {again.stdout}{again.stderr}"


def slurm(root, folder, built):
    made(folder)
    stems = [f"{name}-{day}" for day in range(4) for name in LIMITS]
    (folder / "runs.txt").write_text("".join(f"programs/{it.split('-')[0]}.st\tprograms/{it}.trace\n" for it in stems))
    shutil.copy(root / "scripts/many/eighths.sh", folder)
    # A program that kills the shell of its task at one trace, once, as a machine that fails would.
    killer = folder / "snl"
    killer.write_text(f'#!/bin/sh\ncase "$*" in *lamp-2.trace*) [ -e killed ] || {{ : > killed; kill -9 $PPID; exit 9; }} ;; esac\nexec {built / "snl"} "$@"\n'.replace(f"{built}", f"'{built}'"))
    killer.chmod(0o755)
    env = {**surroundings(folder, built), "SNL": str(killer)}
    script = "sbatch --wait eighths.sh; cut -f 1 task-*.statuses | sort | uniq -c > sums; sbatch --wait eighths.sh; cut -f 1 task-*.statuses | sort | uniq -c > again"
    ran = subprocess.run(
        [root / "scripts/many/slurm", folder / "one", "sh", "-c", script],
        cwd=folder, env=env, stdin=subprocess.DEVNULL, capture_output=True, text=True, timeout=SECONDS,
    )  # fmt: skip
    sums, again = ((folder / it).read_text().split() if (folder / it).exists() else None for it in ("sums", "again"))
    # Trace 2 of the lamp, and what its task had behind it.
    if ran.returncode or not sums or sums[-2:] != ["1", "6"] or int(sums[0]) >= 11 or again[:2] != ["11", "0"]:
        return f"status {ran.returncode}, {sums}, {again}: {ran.stdout}{ran.stderr}"
    for name in LIMITS:
        adds = [word for day in range(4) for word in ("--add", f"programs/{name}-{day}.trace.cov")]
        called(built / "snl", "cover", *adds, "--counts", f"{name}.sum", f"programs/{name}.st", cwd=folder)
        if (folder / f"{name}.sum").read_text() != direct(folder, built, name):
            return f"the counts of {name} are not those of one call"
    return ""
