"""A case: which program is called, with what, and what it has to answer."""
import contextlib
import difflib
import os
import re
import subprocess
import tempfile
from dataclasses import dataclass, field, replace
from pathlib import Path

SECONDS = 60
# Any lines, and one at least.
ANY = re.compile(rb"[^\n]*\n?")
# The status and the streams of a call of which nothing is said: those of a program that does nothing, too.
SILENT = 0, b"", b""


@dataclass
class Case:
    name: str
    source: bytes = b""
    # What stands on standard input, or the path of what standard input is.
    trace: "bytes | Path" = b""
    words: list = field(default_factory=lambda: [b"p.st"])
    # All bytes of a stream, a pattern for each of its lines, or the path of what standard output is.
    stdout: "bytes | re.Pattern | Path" = b""
    stderr: "bytes | re.Pattern" = b""
    statuses: tuple = (0,)
    # The program that is called: `snlrun`, `snc` or `snl`.
    tool: str = "snlrun"
    # Programs that are named to it in front of the words, as `--snc PATH`.
    named: tuple = ()
    # The text of q.st, where a call names two programs.
    other: "bytes | None" = None

    def failure(self, programs):
        """Runs the case; None where all is as it has to be, else what is not."""
        front = [it for name in self.named for it in (f"--{name}", programs[name])]
        try:
            said = self.wrong_by(lambda case: case.run(programs[self.tool], front))
        except subprocess.TimeoutExpired:
            said = [f"no end within {SECONDS} seconds"]
        return "\n  ".join([f"FAILED {self.name}", *said]) if said else None

    def wrong_by(self, run):
        """What is wrong with the answer that `run` gives of a case. Where nothing was said, a like call shows that there is a program."""
        answer = run(self)
        said = self.wrong(*answer)
        if said or answer != SILENT:
            return said
        sign = self.sign()
        if not sign:
            return ["nothing has to be said: a program that does nothing would pass"]
        return [f"{' '.join(map(os.fsdecode, sign.words))}, to see that it runs: {it}" for it in sign.wrong(*run(sign))]

    def wrong(self, status, stdout, stderr):
        """What is wrong with an answer, in lines."""
        said = [] if status in self.statuses else [f"status {status}, not {' or '.join(map(str, self.statuses))}"]
        if status == 1 and not stderr and not stdout:
            said.append("status 1, and nothing was said")
        return said + differences("stdout", self.stdout, stdout) + differences("stderr", self.stderr, stderr)

    def sign(self):
        """A like call of which something is said, where of this one nothing is: what snc accepts has tables, and a bad line at the
        end of a trace is told by snlrun, with its number, where all before it was read and is no bad one. None of other programs."""
        if self.tool == "snc":
            return replace(self, words=[b"--tables", *self.words], stdout=ANY, stderr=b"", statuses=(0,))
        if self.tool != "snlrun":
            return None
        trace = self.trace.read_bytes() if isinstance(self.trace, Path) else self.trace
        lines = trace + b"\n" * (trace[-1:] not in (b"", b"\n"))
        said = b"trace:%d: bad time\n" % (lines.count(b"\n") + 1)
        return replace(self, trace=lines + b"x\n", stderr=said, statuses=(6,), stdout=self.stdout if isinstance(self.stdout, Path) else b"")

    def run(self, program, front=()):
        with tempfile.TemporaryDirectory(prefix="snlrun-") as folder, contextlib.ExitStack() as opened:
            Path(folder, "p.st").write_bytes(self.source)
            if self.other is not None:
                Path(folder, "q.st").write_bytes(self.other)
            how = {"stdout": subprocess.PIPE, "stderr": subprocess.PIPE, "cwd": folder, "timeout": SECONDS}
            if isinstance(self.trace, Path):
                how["stdin"] = os.open(self.trace, os.O_RDONLY)
                opened.callback(os.close, how["stdin"])
            else:
                how["input"] = self.trace
            if isinstance(self.stdout, Path):
                how["stdout"] = opened.enter_context(open(self.stdout, "wb"))
            ran = subprocess.run([*map(os.fsencode, (program, *front)), *self.words], **how)
        return ran.returncode, ran.stdout, ran.stderr


def differences(name, wanted, found):
    """Lines that tell where a stream is not as it has to be."""
    if isinstance(wanted, Path) or found == wanted:
        return []
    if wanted is ANY and not found:
        return [f"{name} is empty"]
    if isinstance(wanted, re.Pattern):
        bad = [it for it in found.splitlines(keepends=True) if not wanted.fullmatch(it)]
        return [f"{name} has the line {it!r}" for it in bad[:5]]
    lines = [[repr(it)[2:-1] for it in text.splitlines(keepends=True)] for text in (wanted, found)]
    told = list(difflib.unified_diff(*lines, f"{name}, as it has to be", f"{name}, as it is", lineterm="", n=1))
    return [it[:200] for it in told[:20]] + ["..."] * (len(told) > 20)
