"""Runs `snc` on what was made, where there is one."""
import os
import subprocess
import tempfile
from pathlib import Path
from typing import Optional

# Where the program stands from the folder of the script in this repository, once it is built.
BUILT = ("../crates/snc_main/out/snc", "../crates/snc_main/out/snc_main", "../crates/snc_main/out/try/snc")
# The folder of the script where it is installed, and where the program stands then.
INSTALLED, PROGRAM = "lib/snlrun", "bin/snc"
SECONDS = 60
NAME = "NEW"


def found(folder: Path) -> Optional[str]:
    """The `snc` that belongs to the script, or None. The one of PATH may be that of EPICS, and is not taken."""
    places = (PROGRAM,) if str(folder).endswith(INSTALLED) else BUILT
    programs = (folder / it for it in places)
    return next((str(it) for it in programs if it.is_file() and os.access(it, os.X_OK)), None)


def said(program: str, text: bytes) -> tuple[bool, list[str]]:
    """Whether `snc` accepts a text, and the lines that it says of it, under the name NEW."""
    with tempfile.TemporaryDirectory(prefix="port-") as folder:
        Path(folder, NAME).write_bytes(text)
        how = {"cwd": folder, "stdin": subprocess.DEVNULL, "stdout": subprocess.DEVNULL, "stderr": subprocess.PIPE}
        ran = subprocess.run([os.path.abspath(program), NAME], timeout=SECONDS, **how)
    return ran.returncode == 0, ran.stderr.decode("latin-1").splitlines()
