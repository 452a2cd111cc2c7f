"""Where the programs stand that belong to a script: in this repository where they were built, or where it is installed."""
import os
from pathlib import Path
from typing import Optional

# From the folder of the scripts in this repository: built by proofs, or else by `bin/try`.
BUILT = {
    "snc": ("../crates/snc_main/out/snc", "../crates/snc_main/out/snc_main", "../crates/snc_main/out/try/snc"),
    "snl": ("../crates/snl/out/snl", "../crates/snl/out/try/snl"),
}
# The folder of the scripts where they are installed, and where the programs stand then.
INSTALLED, PROGRAMS = "lib/snlrun", "bin"
FOLDER = Path(__file__).resolve().parent.parent


class NotBuilt(Exception):
    """A program is not there; the text tells what to do."""


def found(name: str, given: Optional[str]) -> str:
    """The program of that name: the one that was given, or the one that belongs to the scripts. Programs of PATH are not taken,
    since `snc` may be that of EPICS there."""
    if given:
        return os.path.abspath(given)
    is_installed = str(FOLDER).endswith(INSTALLED)
    for it in (f"{PROGRAMS}/{name}",) if is_installed else BUILT[name]:
        if os.access(FOLDER / it, os.X_OK):
            return str(FOLDER / it)
    raise NotBuilt(f"{name} is not built here: call bin/{name} or bin/try {name} once, or name one by --{name} PATH")
