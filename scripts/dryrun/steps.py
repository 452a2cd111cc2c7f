"""The steps of a dry run: port, import, run, draw; each by its own program, with files between them."""
import re
import subprocess
import sys
from pathlib import Path

from dryrun import told
from shared import programs

SCRIPTS = Path(__file__).resolve().parent.parent
# What is made, by the ends of the names of files: the port, its notes, its units, the trace, what was said of the logs, the run, the page.
MADE = ("st", "notes", "units", "trace", "said", "run", "html")
# Statuses of `snl run` with which there is a run to draw.
DRAWN = (0, 5, 6)
# An asked `snc` ends so where the program has an error.
REFUSED = 1


class Failed(Exception):
    """A dry run that can't go on: what is said, and the status."""

    def __init__(self, said: list, status: int):
        """Lines for standard error."""
        super().__init__(said)
        self.said, self.status = said, status


class Day:
    """A program, its logs, and a folder for what is made."""

    def __init__(self, given, folder: Path):
        """Nothing is made yet. In a folder that is kept no file is written over without a word."""
        self.given, self.folder, self.name = given, folder, Path(given.file).stem
        self.snc, self.snl = programs.found("snc", given.snc), programs.found("snl", given.snl)
        # The program that runs, its units, and whether it is a sketch.
        self.program, self.units, self.by_hand = given.file, given.units, []
        if not Path(given.file).exists():
            raise Failed([f"dry-run: there is no file {given.file}"], 3)
        for log in filter(is_trace, given.logs):
            raise Failed([f"dry-run: {log} is a trace, and no log: snl run {given.file} < {log}"], 2)
        folder.mkdir(parents=True, exist_ok=True)
        if given.keep:
            self.make_room()

    def make_room(self) -> None:
        """Takes away what an earlier call left, where the words say so. The program and its logs are never written over."""
        there = [it for it in map(self.path, MADE) if it.exists()]
        if there and not self.given.is_forced:
            raise Failed([f"dry-run: {there[0]} is there already: --force writes over it"], 3)
        for own in (self.given.file, *self.given.logs):
            if Path(own).exists() and any(it.samefile(own) for it in there):
                raise Failed([f"dry-run: {own} stands in {self.folder}: keep what is made in another folder"], 3)
        for it in there:
            it.unlink()

    def path(self, end: str) -> Path:
        """A file of the folder."""
        return self.folder / f"{self.name}.{end}"

    def done(self, tell) -> int:
        """Makes all, and tells of each step as soon as it is done. The status."""
        refused = self.called([self.snc, *self.given.options, self.given.file])
        if refused.returncode not in (0, REFUSED):
            raise Failed(lines_of(refused.stderr), refused.returncode)
        notes = self.port(refused) if refused.returncode else []
        tell([told.program(self.given.file, lines_of(refused.stderr), notes), told.by_hand(self.by_hand)])
        said, is_ported = self.trace(), self.program != self.given.file
        gone = told.vanished(said, self.path("trace"))
        tell([told.logs(said, "" if gone else told.digits(is_ported))])
        status = self.run()
        ending = told.Ending(self.path("run"))
        tell([ending.lacks(said, gone, is_ported), ending.run()])
        self.draw()
        return status or (1 if self.by_hand or gone or not ending.has_begun else 0)

    def called(self, call: list, **streams) -> subprocess.CompletedProcess:
        """Runs a program to its end. What it writes is kept where no file takes it."""
        how = {"stdin": subprocess.DEVNULL, "stdout": subprocess.PIPE, "stderr": subprocess.PIPE, **streams}
        try:
            return subprocess.run(list(map(str, call)), check=False, **how)
        except OSError:
            raise Failed([f"dry-run: cannot run {call[0]}"], 3) from None

    def port(self, refused: subprocess.CompletedProcess) -> list:
        """Ports the program; the notes. What is left by hand becomes nothing, since the run is a sketch then. A program that the port
        makes no better has an error of its own, which is told."""
        ported = self.ported([])
        self.by_hand = [it for it in lines_of(ported.stderr) if told.BY_HAND.search(it)]
        if self.by_hand:
            ported = self.ported(["--sketch"])
        notes = lines_of(ported.stderr)
        self.path("notes").write_bytes(ported.stderr)
        again = self.called([self.snc, *self.given.options, self.path("st")])
        if again.returncode:
            said = [it.replace(str(self.path("st")), f"port of {self.given.file}") for it in lines_of(again.stderr)]
            if any(it.endswith(".st") for it in self.given.logs):
                said.append("dry-run: the program comes first, and its logs behind it")
            raise Failed([*lines_of(refused.stderr), f"dry-run: snc refuses {self.given.file}, and its port too:", *said], 1)
        self.program = self.path("st")
        self.units = self.units or self.path("units")
        return notes

    def ported(self, more: list) -> subprocess.CompletedProcess:
        """A call of the port."""
        given = self.given
        call = [sys.executable, SCRIPTS / "port", "--snc=", "--units", self.path("units"), *([f"--macros={given.macros}"] if given.macros else [])]
        call += [*more, *given.of_port, given.file]
        ported = self.called(call)
        if ported.returncode not in (0, 1):
            raise Failed(lines_of(ported.stderr), ported.returncode if ported.returncode > 0 else 3)
        self.path("st").write_bytes(ported.stdout)
        return ported

    def trace(self) -> list:
        """Makes the trace of the logs; what was said of it."""
        given = self.given
        call = [self.snl, *given.options, "trace", "--program", self.program, *([f"--macros={given.macros}"] if given.macros else [])]
        call += [*(["--units", self.units] if self.units else []), *given.of_trace, *given.logs]
        with open(self.path("trace"), "wb") as file:
            ran = self.called(call, stdout=file)
        self.path("said").write_bytes(ran.stderr)
        # With status 1 something is lacking that the run will show.
        if ran.returncode not in (0, 1) or not self.path("trace").stat().st_size:
            self.path("trace").unlink()
            raise Failed(lines_of(ran.stderr), ran.returncode if ran.returncode > 0 else 1 if ran.returncode == 0 else 3)
        return lines_of(ran.stderr)

    def run(self) -> int:
        """Runs the program over the trace; the status."""
        call = [self.snl, *self.given.options, "run", "--whole", self.program, *([self.given.macros] if self.given.macros else [])]
        with open(self.path("trace"), "rb") as trace, open(self.path("run"), "wb") as run:
            ran = self.called(call, stdin=trace, stdout=run)
        if ran.returncode not in DRAWN:
            raise Failed(lines_of(ran.stderr), ran.returncode if ran.returncode > 0 else 3)
        return ran.returncode

    def draw(self) -> None:
        """Draws the run."""
        given = self.given
        call = [sys.executable, SCRIPTS / "plot", "--snc", self.snc, "--run", self.path("run"), *given.options]
        call += [*(["--units", self.units] if self.units else []), *scales_of(given.of_trace)]
        call += [*(["--note", told.note(given.file, self.by_hand)] if self.program != given.file else [])]
        call += [self.program, *([given.macros] if given.macros else [])]
        with open(self.path("trace"), "rb") as trace, open(self.path("html"), "wb") as page:
            ran = self.called(call, stdin=trace, stdout=page)
        if ran.returncode not in DRAWN:
            raise Failed(lines_of(ran.stderr), ran.returncode if ran.returncode > 0 else 3)


def is_trace(log: str) -> bool:
    """Whether the first line of a file that is no comment is that of a trace. A log has a date there, or a name."""
    if not Path(log).is_file():
        return False
    with open(log, "rb") as lines:
        first = next((it for it in (line.decode("latin-1") for line in lines) if not it.startswith("#")), "")
    return bool(re.match(r"\d+ (?:(?:up|down|val|done) |tick\b)", first))


def scales_of(words: list) -> list:
    """Those words for `snl trace` that plot has, too. A scale below 0 makes a number of many: plot shows it as it is."""
    return [it for it in words if it.startswith("--enum=") or re.fullmatch(r"--scale=.*=\d{1,2}", it)]


def lines_of(data: bytes) -> list:
    """Lines of a stream."""
    return data.decode("latin-1").splitlines()
