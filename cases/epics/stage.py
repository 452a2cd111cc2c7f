"""What the cases of scripts/epics stand on: the scripts in a folder of their own, and what they wrote so far."""
import os
import re
import signal
import subprocess
import time
from pathlib import Path

HERE = Path(__file__).resolve().parent
SCRIPTS = HERE.parent.parent / "scripts/epics"
EXAMPLES = HERE.parent.parent / "examples"
# For each thing that is waited for. A channel that was gone is back after ten seconds at most, and machines may be busy.
SECONDS = 120


# The first comment of a trace, and that it is late.
HEAD = re.compile(r"(live|record)\.py \d+\.\d+\.\d+(, program \w+)?, \d{4}-\d\d-\d\dT\d\d:\d\d:\d\d[+-]\d{4}"
                  r"(, SHA-256 of \S+ [0-9a-f]{64})?, called with .+")  # fmt: skip
ZERO = re.compile(r"zero \d{4}-\d\d-\d\dT\d\d:\d\d:\d\d\.\d{3}[+-]\d\d:\d\d")
UNIT = re.compile(r"(?:scale|enum|text) \S+ \S+")
BEHIND = re.compile(r"behind by \d+ ms at \d+; \d+ events wait")


class NotSo(Exception):
    """Something is not as it has to be."""


class Script:
    """A script that runs, with its streams in files."""

    def __init__(self, stage, name, words, out=None, front=()):
        """Starts it with these words, in the folder of the stage, behind those that start it. `out` takes the place of the file."""
        self.name, self.folder = name, stage.folder
        with open(self.path("out"), "wb") as file, open(self.path("said"), "wb") as said:
            how = {"stdin": subprocess.DEVNULL, "stdout": file if out is None else out, "stderr": said}
            call = [*front, stage.python, SCRIPTS / f"{name}.py", *words]
            self.process = subprocess.Popen(call, cwd=stage.folder, env=stage.environment, **how)

    def path(self, stream):
        """The file of a stream: `out`, `said`, and the trace that live.py keeps."""
        return self.folder / f"{self.name}.{stream}"

    def text(self, stream):
        """What stands in a file of the script up to the last end of a line."""
        path = self.path(stream)
        text = path.read_text(errors="replace") if path.exists() else ""
        return text[: text.rfind("\n") + 1]

    def end(self):
        """Ends it as Ctrl-C does. The status."""
        self.process.send_signal(signal.SIGINT)
        return self.process.wait(SECONDS)


class Stage:
    """A folder, the built programs, and the scripts that were started."""

    def __init__(self, folder, programs, python, environment):
        """A stage where the scripts run by this Python. Of our own variables none of EPICS is handed on."""
        self.folder, self.programs, self.python, self.scripts = Path(folder), programs, python, []
        # The most ms that the case itself did not come to run while it waited.
        self.pause = 0
        inherited = {name: it for name, it in os.environ.items() if not name.startswith(("EPICS_", "PYEPICS"))}
        self.environment = {**inherited, **environment}

    def __enter__(self):
        """A block that uses it."""
        return self

    def __exit__(self, *_):
        """Ends what still runs."""
        for script in self.scripts:
            if script.process.poll() is None:
                script.process.kill()
                script.process.wait()

    def start(self, name, *words, **how):
        """Starts a script."""
        self.scripts.append(Script(self, name, words, **how))
        return self.scripts[-1]

    def tables(self, program):
        """Writes the tables of a program to a file. Its name."""
        path = self.folder / f"{program.stem}.tables"
        ran = subprocess.run([self.programs["snc"], "--tables", program], capture_output=True, timeout=SECONDS, check=True)
        path.write_bytes(ran.stdout)
        return path

    def live(self, program, *words, snlrun=(), has_tables=True, **how):
        """Starts live.py over a program, with words in front of `--` and behind the program; with tables, as by the old word."""
        words = (*(("--tables", self.tables(program)) if has_tables else ()), "--keep", "live.kept", "--force", *words)
        return self.start("live", *words, "--", self.programs["snlrun"], program, *snlrun, **how)

    def wait(self, what, is_so):
        """Waits until something is so, and no longer than a script runs."""
        last = time.monotonic()
        end = last + SECONDS
        while not is_so():
            self.pause = max(self.pause, 1000 * (time.monotonic() - last))
            last = time.monotonic()
            have_ended = all(it.process.poll() is not None for it in self.scripts)
            if last > end or have_ended and not is_so():
                raise NotSo(f"{what}: not within {SECONDS} seconds, or before all ended\n{self.told()}")
            time.sleep(0.02)

    def replayed(self, program, trace, *words):
        """What snlrun makes of a trace that is kept."""
        with open(trace, "rb") as file:
            how = {"stdin": file, "stdout": subprocess.PIPE, "stderr": subprocess.DEVNULL, "timeout": SECONDS}
            return subprocess.run([self.programs["snlrun"], program, *words], **how).stdout.decode()

    def longest_pause(self):
        """The most ms that the case or a script with ticks did not come to run."""
        return max(self.pause, *(longest_pause(it.text("kept")) for it in self.scripts), 0)

    def told(self):
        """The last lines of all that the scripts wrote, for a message."""
        texts = [(it.path(stream).name, it.text(stream)) for it in self.scripts for stream in ("out", "said", "kept")]
        return "\n".join(f"-- {name}\n" + "\n".join(text.splitlines()[-15:]) for name, text in texts if text)

    def same(self, what, found, expected):
        """Fails where two lists of lines differ."""
        if found != expected:
            at = next((k for k, it in enumerate(expected) if found[k : k + 1] != [it]), len(expected))
            raise NotSo(f"{what}: line {at + 1} is {found[at : at + 1]}, not {expected[at : at + 1]}\n{self.told()}")


def failed(name, wrong):
    """What is said of a case that failed, or that stumbled."""
    return f"FAILED {name}\n  {wrong if isinstance(wrong, NotSo) else repr(wrong)}"


def untimed(text):
    """The lines of a run without their times."""
    return [line.partition(" ")[2] for line in text.splitlines()]


def events(text):
    """The lines of a trace without their times, without ticks and comments."""
    return [it for it in untimed("".join(f"{line}\n" for line in text.splitlines() if line[0] != "#")) if it != "tick"]


def comments(text):
    """The comments of a trace behind the first two, which tell whence it is and the date of 0 ms, and those of its units; but those that a circuit is
    gone, which name the machine by its name or by its number, and those that it is busy."""
    head, zero, *found = [line[2:] for line in text.splitlines() if line.startswith("#")] or ["", ""]
    if not HEAD.fullmatch(head) or not ZERO.fullmatch(zero):
        raise NotSo(f"the first comments are {head} and {zero}")
    found = [it for it in found if not BEHIND.fullmatch(it) and not UNIT.fullmatch(it)]
    return [it for it in found if not re.fullmatch(r"\S+:\d+: Virtual circuit disconnect", it)]


def is_rising(text):
    """Whether the times of a trace never fall."""
    times = [int(line.split()[0]) for line in text.splitlines() if line[0] != "#"]
    return times == sorted(times)


def longest_pause(text):
    """The most ms between two lines of a trace. With ticks each 20 ms it tells how long the script did not come to run."""
    times = [int(line.split()[0]) for line in text.splitlines() if line[0] != "#"]
    return max((later - time for time, later in zip(times, times[1:])), default=0)
