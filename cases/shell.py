"""Cases of calls as a page shows them: bash runs them with the words that stand there, and what both streams have is compared."""
import os
import re
import shutil
import subprocess
import tempfile
from dataclasses import dataclass
from pathlib import Path

from case import SECONDS, differences

# Some machines have no cpp, and its versions lay out text in ways of their own. So what it made of each FILE.st is kept in
# FILE.i, and the calls take that.
CPP = 'cpp() { cat "${2%.st}.i"; }\n'


CALLS = re.compile(r"^```sh\n(.*?)^```\n\n```\n(.*?)^```\n", re.MULTILINE | re.DOTALL)


def examples(root, *names):
    """The cases of some pages: each block `sh` has calls, and the block behind it what they print."""
    for name in names:
        for calls, output in CALLS.findall((root / name).read_text()):
            yield Calls(f"{name}: {calls.splitlines()[-1]}", root, calls, output)


def missing(root, *names):
    """Blocks of calls with no output behind them."""
    for name in names:
        page = (root / name).read_text()
        if page.count("```sh\n") != len(CALLS.findall(page)):
            yield f"FAILED {name}: a block of calls has no output right behind it"


@dataclass
class Calls:
    name: str
    root: Path
    calls: str
    output: str
    tool: str = "snlrun"

    def failure(self, programs):
        """Runs the calls in a folder that has bin/, examples/ and scripts/; None where they print what they have to."""
        with tempfile.TemporaryDirectory(prefix="snlrun-") as folder:
            made_up(Path(folder), self.root, programs)
            how = {"stdout": subprocess.PIPE, "stderr": subprocess.STDOUT, "stdin": subprocess.DEVNULL, "cwd": folder}
            try:
                ran = subprocess.run(["bash", "-c", CPP + self.calls], **how, timeout=SECONDS)
            except subprocess.TimeoutExpired:
                return f"FAILED {self.name}\n  no end within {SECONDS} seconds"
        said = differences("output", self.output.encode(), ran.stdout)
        return "\n  ".join([f"FAILED {self.name}", *said]) if said else None


def made_up(folder, root, programs):
    """Makes a folder in which the calls of a page can be run as from the top of the repository."""
    os.mkdir(folder / "bin")
    for name in ("snc", "snlrun", "snl"):
        os.symlink(programs[name], folder / "bin" / name)
    (folder / "bin/try").write_text('#!/bin/sh\nname=$1\nshift\nexec "${0%try}$name" "$@"\n')
    os.chmod(folder / "bin/try", 0o755)
    os.symlink(root / "examples", folder / "examples")
    # A script looks for programs from where it stands itself.
    shutil.copytree(root / "scripts", folder / "scripts")
    for crate, name in ("snc_main", "snc"), ("snl", "snl"):
        os.makedirs(folder / "crates" / crate / "out")
        os.symlink(programs[name], folder / "crates" / crate / "out" / name)
