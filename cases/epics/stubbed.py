"""Runs scripts/epics without a control system: a stub stands in the place of pyepics and plays what a case says.

The cases are in recordcases.py and livecases.py. They need no pyepics, and run on the Python of the cases.
"""
import os
import subprocess
import sys
import tempfile
from dataclasses import dataclass
from typing import Callable

from stage import HERE, SCRIPTS, SECONDS, NotSo, Stage, events, failed, is_rising, untimed

LIGHT = ("up LAB:VOLTAGE double", "val LAB:VOLTAGE 2", "up LAB:LAMP enum")


@dataclass
class Stubbed:
    """A case with a stub in the place of pyepics."""

    name: str
    # Gets the stage, and raises `NotSo`.
    check: Callable
    tool: str = "snlrun"

    def failure(self, programs):
        """Runs the case; None where all is as it has to be."""
        with tempfile.TemporaryDirectory(prefix="snlrun-") as folder:
            paths = {"EPICS_PLAY": os.path.join(folder, "play"), "EPICS_PUTS": os.path.join(folder, "puts")}
            with Stage(folder, programs, sys.executable, {**paths, "PYTHONPATH": str(HERE / "stub")}) as stage:
                try:
                    self.check(stage)
                except Exception as wrong:  # a case that stumbles is one that failed
                    return failed(self.name, wrong)
        return None


def play(stage, *lines):
    """Writes the play of the next script."""
    (stage.folder / "play").write_text("".join(f"{it}\n" for it in lines))
    (stage.folder / "puts").write_text("")


def put_lines(stage):
    """The puts that came."""
    return (stage.folder / "puts").read_text().splitlines()


def recorded(stage, last, *words):
    """What record.py writes of the play up to a last line, without times, and what it says then."""
    script = stage.start("record", *words)
    stage.wait(f"the line {last}", lambda: last in untimed(script.text("out")))
    stage.same("the status", [script.end()], [0])
    if not is_rising(script.text("out")) or untimed(script.text("out"))[-1] != "tick":
        raise NotSo(f"times, or the last line\n{stage.told()}")
    return events(script.text("out")), script.text("said").splitlines()


def lived(stage, program, last, *words, status=0, snlrun=(), **how):
    """The lines of a run over the play up to a last event of the trace; and the script, ended, with its replay compared."""
    script = stage.live(program, *words, snlrun=snlrun, **how)
    stage.wait(f"the line {last}", lambda: last in untimed(script.text("kept")))
    stage.same("the status", [script.end()], [status])
    again = stage.replayed(program, script.path("kept"), *snlrun)
    stage.same("the replay", again.splitlines(), script.text("out").splitlines())
    return untimed(script.text("out")), script


def called(stage, words, status, said, more=()):
    """Calls a script, and compares its status and a part of what it says."""
    play(stage)
    how = {"cwd": stage.folder, "env": {**stage.environment, **dict(more)}, "timeout": SECONDS, "stdin": subprocess.DEVNULL}
    ran = subprocess.run([sys.executable, SCRIPTS / f"{words[0]}.py", *words[1:]], capture_output=True, **how)
    if ran.returncode != status or said not in ran.stderr.decode() or b"Traceback" in ran.stderr:
        raise NotSo(f"{words}: the status {ran.returncode}, not {status}; {ran.stderr.decode()}")
