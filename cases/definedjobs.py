"""`scripts/definitions` with several processes: the same report for each count of them, one that dies, a program that fails, a signal."""
import os
import signal
import subprocess
import sys
import tempfile
import time
from dataclasses import dataclass
from pathlib import Path
from typing import Callable

from case import SECONDS

# Cases of few sources; the first ones name a program by what their source has.
WORDS = ("flags.cases", "puts.cases")
FEW = ("flags.cases: one state set asks",)
# A program in the place of snc that ends the process which calls it, as memory that ends does, or says what no snc says.
KILLS = '#!/bin/sh\nkill -9 "$PPID"\n'
LIES = '#!/bin/sh\necho nothing\n'
STATUS_OF_INTERRUPT = -signal.SIGINT


@dataclass
class Jobs:
    """Calls of the script."""

    name: str
    root: Path
    # Gets a function that begins a call, and a folder; gives what is wrong, or nothing.
    check: Callable
    tool: str = "snl"

    def lacks(self):
        """Python 3.11, where there is none."""
        return "" if sys.version_info >= (3, 11) else "there is no Python 3.11 here"

    def failure(self, programs):
        """What is wrong, or nothing."""
        with tempfile.TemporaryDirectory(prefix="snlrun-") as folder:

            def begun(*words, **others):
                """A call over the programs, of which some may be others, with files of its own below the folder."""
                named = [f"--{it}={others.get(it, programs[it])}" for it in ("snl", "snlrun", "snc")]
                how = {"stdout": subprocess.PIPE, "stderr": subprocess.PIPE, "text": True, "env": {**os.environ, "TMPDIR": folder}}
                return subprocess.Popen([self.root / "scripts/definitions", *named, *words], stdin=subprocess.DEVNULL, **how)

            wrong = self.check(begun, Path(folder))
        return f"FAILED {self.name}\n  {wrong}" if wrong else None


def cases(root):
    """All of them."""
    yield Jobs("definitions: processes: one and three tell the same", root, same)
    yield Jobs("definitions: processes: one that dies is named by its case, and is a failure", root, dying)
    yield Jobs("definitions: processes: a program that says something else", root, lying)
    yield Jobs("definitions: processes: a signal ends all of them", root, interrupted)


def ended(call):
    """The status and both streams of a call."""
    stdout, stderr = call.communicate(timeout=SECONDS)
    return call.returncode, stdout, stderr


def same(begun, _):
    """With clauses and counts; what it took is told as well."""
    one, three = (ended(begun("--coverage", "--jobs", it, *WORDS)) for it in ("1", "3"))
    if one[:2] != three[:2] or one[0] or "0 different, 0 skipped\n" not in one[1]:
        return f"{one} is not {three}"
    return "" if all("s of a processor for" in it[2] for it in (one, three)) else f"no times in {one[2]}"


def executable(folder, name, text):
    """A program of these lines."""
    path = folder / name
    path.write_text(text)
    path.chmod(0o755)
    return path


def dying(begun, folder):
    """Of two cases the run does not call snc, and the messages do."""
    status, stdout, _ = ended(begun("--cases", "--jobs", "2", *FEW, snc=executable(folder, "snc", KILLS)))
    told = [it for it in stdout.splitlines() if it.startswith("DIFFERENT")]
    name = f"messages: {FEW[0]}"
    wanted = len(told) == 1 and name in told[0] and told[0].endswith(": the process that ran it died, by SIGKILL")
    sums = "1 runs and the messages about 0 sources by the definitions, 1 different, 0 skipped\n"
    return "" if wanted and status == 1 and stdout.endswith(sums) else f"status {status}: {stdout}"


def lying(begun, folder):
    """What a program writes that is no tree is told beside the case."""
    status, stdout, _ = ended(begun("--cases", "--jobs", "2", *FEW, snl=executable(folder, "snl", LIES)))
    told = [it for it in stdout.splitlines() if it.startswith("DIFFERENT") and ": this is no JSON: " in it]
    return "" if status == 1 and len(told) == 2 else f"status {status}: {stdout}"


def interrupted(begun, folder):
    """At the first file that a process makes; no process and no file is left."""
    call, until = begun("--cases", "--jobs", "2"), time.monotonic() + SECONDS
    while not list(folder.glob("definitions-*/*")) and call.poll() is None and time.monotonic() < until:
        time.sleep(0.02)
    call.send_signal(signal.SIGINT)
    status, stdout, stderr = ended(call)
    left = [it.name for it in folder.iterdir()]
    said = stderr.startswith("definitions: stopped when ") and stderr.endswith(" different\n") and stderr.count("\n") == 1
    alive, until = running(folder), time.monotonic() + 10
    # One that was killed may take a moment, where others want the processors.
    while alive and time.monotonic() < until:
        time.sleep(0.05)
        alive = running(folder)
    if status != STATUS_OF_INTERRUPT or stdout or not said or left or alive:
        return f"status {status}, {left} is left, {len(alive)} run on: {stdout}{stderr}"
    return ""


def running(folder):
    """The processes of a call, by the folder of their files."""
    return [it for it in Path("/proc").glob("[0-9]*/environ") if f"TMPDIR={folder}".encode() in read(it)]


def read(path):
    """The bytes of a file, if it can be read."""
    try:
        return path.read_bytes()
    except OSError:
        return b""
