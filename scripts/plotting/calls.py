"""Calls `snc --tables` and `snl run --whole`, and hands streams to them that are read here too."""
import os
import stat
import subprocess
import tempfile
from dataclasses import dataclass, field
from pathlib import Path
from typing import BinaryIO, Iterator, Optional

from plotting import notes
from shared import programs

# So much of the end of a run is looked at for how it ended.
END = 1 << 16
# The bytes of a source at most, as `snc` has it; of a line of a run, which a `printf` of such a source never comes to; and of a
# stream that is copied.
MOST_OF_SOURCE, MOST_OF_LINE, MOST_OF_COPY = 1 << 20, 1 << 23, 1 << 32


class Failed(Exception):
    """A call that can't go on: what is said, and the status."""

    def __init__(self, said: list, status: int):
        """Lines for standard error."""
        super().__init__(said)
        self.said, self.status = said, status


def found(name: str, given: Optional[str]) -> str:
    """The program of that name: the one that was given, or the one that belongs to the script."""
    try:
        return programs.found(name, given)
    except programs.NotBuilt as it:
        raise Failed([f"plot: {it}"], 3) from None


def seekable(stream: BinaryIO, name: str, longest: int) -> BinaryIO:
    """A stream that can be read from several places: itself, if it is a file, else a copy, up to a line that is too long."""
    try:
        if stat.S_ISREG(os.fstat(stream.fileno()).st_mode):
            return stream
    except OSError:
        pass
    copy, size, line = tempfile.TemporaryFile(prefix="plot-"), 0, 0
    while line <= longest and (piece := stream.read(END)):
        copy.write(piece)
        size += len(piece)
        if size > MOST_OF_COPY:
            raise Failed([f"plot: {name} is a stream of more than {MOST_OF_COPY} bytes: write it to a file, and take that"], 3)
        newline = piece.rfind(b"\n")
        line = line + len(piece) if newline < 0 else len(piece) - newline - 1
    copy.flush()
    copy.seek(0)
    return copy


@dataclass
class Source:
    """The program of a call: where it stands, and its text."""

    path: str
    text: str
    # What stands in messages for the path, where that is a copy.
    name: str
    copy: "tempfile.TemporaryDirectory | None" = None

    def said(self, data: bytes) -> list:
        """Lines of messages, with the name of the call in them."""
        lines = data.decode("latin-1").splitlines()
        return [it.replace(f"{self.path}:", f"{self.name}:", 1) if it.startswith(self.path) else it for it in lines]


def source_of(file: str) -> Source:
    """The program of a file. A pipe is read to its end, and stands in a copy then. No more is read than tells `snc` that it is too
    long."""
    try:
        with open(file, "rb") as stream:
            data = stream.read(MOST_OF_SOURCE + 1)
        is_file = stat.S_ISREG(os.stat(file).st_mode)
    except OSError:
        raise Failed([f"plot: cannot read {file}"], 3) from None
    text = data.decode("latin-1")
    if is_file:
        return Source(file, text, file)
    folder = tempfile.TemporaryDirectory(prefix="plot-")
    path = Path(folder.name, "source.st")
    path.write_bytes(data)
    return Source(str(path), text, file, folder)


@dataclass
class Run:
    """The text of a run, with what was said and how it ended."""

    lines: BinaryIO
    said: list = field(default_factory=list)
    status: int = 0
    # The bad line of the trace, where there is one.
    bad: Optional[int] = None

    def bad_text(self) -> str:
        """What is said of the bad line."""
        told = [it[len("trace:") :] for it in self.said if it.startswith("trace:")]
        return told[-1] if told else f"{self.bad}"


def tables_of(snc: str, source: Source, options: list) -> str:
    """The tables of a program. Where it is refused the call ends with its messages."""
    ran = called([snc, *options, "--tables", source.path], subprocess.DEVNULL, subprocess.PIPE)
    if ran.returncode:
        raise Failed(source.said(ran.stderr), ran.returncode)
    return ran.stdout.decode("latin-1")


def run_of(snl: str, source: Source, words: list, trace: BinaryIO) -> Run:
    """The run over a trace, which is read from where the file stands."""
    options, budget, macros = words
    limit = ["--budget", budget] if budget else []
    out = tempfile.TemporaryFile(prefix="plot-")
    start = os.lseek(trace.fileno(), 0, os.SEEK_CUR)
    call = [snl, *options, "run", "--whole", *limit, source.path, *([macros] if macros else [])]
    ran = called(call, trace, out)
    os.lseek(trace.fileno(), start, os.SEEK_SET)
    said = source.said(ran.stderr)
    if ran.returncode not in (0, 5, 6):
        raise Failed(said or [f"plot: {snl} ended with status {ran.returncode}"], ran.returncode if ran.returncode > 0 else 3)
    return ended(Run(out, said, ran.returncode))


def called(call: list, stdin: object, stdout: object) -> subprocess.CompletedProcess:
    """Runs a program to its end."""
    try:
        return subprocess.run(call, stdin=stdin, stdout=stdout, stderr=subprocess.PIPE)
    except OSError:
        raise Failed([f"plot: cannot run {call[0]}"], 3) from None


def stored(path: str) -> Run:
    """A run that was written before."""
    try:
        with open(path, "rb") as file:
            lines = seekable(file, path, MOST_OF_LINE)
            run = ended(Run(lines if lines is not file else open(path, "rb")))
    except OSError:
        raise Failed([f"plot: cannot read {path}"], 3) from None
    return run


def lines_of(run: Run, name: str) -> Iterator[bytes]:
    """The lines of a run, none of them longer than one can be."""
    while line := run.lines.readline(MOST_OF_LINE + 1):
        if len(line) > MOST_OF_LINE:
            raise Failed([f"plot: {name} has a line of more than {MOST_OF_LINE} bytes, and is no run"], 3)
        yield line


def ended(run: Run) -> Run:
    """The run, with the bad line of the trace that its end names, and the status where that is of a stored one."""
    size = run.lines.seek(0, os.SEEK_END)
    run.lines.seek(max(0, size - END))
    end = run.lines.read().decode("latin-1")
    run.lines.seek(0)
    run.bad = notes.bad_line(end)
    if not run.status:
        run.status = 6 if run.bad else 5 if notes.FAULT.search(end) else 0
    return run
