"""A case of the lint `unspoken`: it speaks of a channel exactly where no line of a trace can name that."""
import re
import subprocess
import tempfile
from dataclasses import dataclass
from pathlib import Path

from case import SECONDS

SAID = re.compile(rb"^p\.st:(\d+):\d+: warning: .* \[unspoken\]$", re.MULTILINE)
# Bytes that a string of a source cannot hold as they are, and the brace that begins a macro.
APART = {ord('"'), ord("\\"), ord("{")}
# The longest name with which `0 up NAME` is a line, and one that is longer.
LENGTHS = (32_763, 32_764)


def cases():
    """One, over all bytes and both lengths."""
    yield Spoken("snl check: unspoken exactly where no line of a trace can name a channel")


def names():
    """The names that a source can spell, and those that macros alone can give."""
    spelled = [b"a%cc" % byte for byte in range(ord(" "), 256) if byte not in APART | {127}] + [b"n" * length for length in LENGTHS]
    return spelled, [b"a%cc" % byte for byte in (*range(1, ord(" ")), 127)]


def source(all_names):
    """A program with a variable for each name, which stands on a line of its own."""
    lines = (b'int x%d; assign x%d to "%s";' % (at, at, name) for at, name in enumerate(all_names))
    return b"\n".join((b"program p option +s;", *lines, b"ss s { state a { when () { } exit } }"))


@dataclass
class Spoken:
    """Names of channels, each with what the lint says of it and what a run makes of a line that names it."""

    name: str
    tool: str = "snl"

    def failure(self, programs):
        """The names of which both do not say the same."""
        spelled, given = names()
        with tempfile.TemporaryDirectory(prefix="snl-") as folder:
            calls = Calls(programs["snl"], Path(folder))
            said = calls.said(spelled)
            wrong = [name for at, name in enumerate(spelled) if (at in said) == calls.is_named(name, name)]
            macros = {name: b"P=" + name for name in given}
            wrong += [it for it in given if bool(calls.said([b"{P}"], macros[it])) == calls.is_named(b"{P}", it, macros[it])]
        return "\n  ".join([f"FAILED {self.name}", *(f"{it[:9]}, {len(it)} bytes" for it in wrong)]) if wrong else None


@dataclass
class Calls:
    """Calls of the program in a folder."""

    snl: Path
    folder: Path

    def told(self, all_names, words, trace=b""):
        """What a call tells of a program with these names."""
        Path(self.folder, "p.st").write_bytes(source(all_names))
        return subprocess.run([self.snl, *words], input=trace, capture_output=True, cwd=self.folder, timeout=SECONDS).stdout

    def said(self, all_names, macros=b"NONE="):
        """The numbers of the names that the lint speaks of."""
        return {int(it) - 2 for it in SAID.findall(self.told(all_names, ["check", "--macros", macros, "p.st"]))}

    def is_named(self, spelled, name, macros=b"NONE="):
        """Whether a program with a channel of this name begins where a line says that it is connected."""
        return self.told([spelled], ["waits", "p.st", macros], b"0 up %s\n" % name).startswith(b"began")
