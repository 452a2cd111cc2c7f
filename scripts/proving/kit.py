"""What of the kit the scripts here use: the module of `rt` that knows the crates of a repository, and which calls of `rattle` are right."""
import functools
import hashlib
import os
import re
import shutil
import sys
from pathlib import Path

TOOL = shutil.which("rt") or sys.exit("there is no command rt in PATH")
sys.path.insert(0, str(Path(TOOL).resolve().parent))
import rtlib  # noqa: E402

# The sum of all that a crate is made from; asked for often, and the same while a script runs.
rtlib.Crate.stamp = functools.lru_cache(None)(rtlib.Crate.stamp)
KIT = rtlib.KIT
ROOT = Path(__file__).resolve().parent.parent.parent
# Lines of a library's `format` that change with each body.
OF_BODIES = re.compile(r"(?m)^(checked|sum) .*\n")


def crates():
    """The crates of this repository, lowest first."""
    return rtlib.crates_below(str(ROOT))


def named(names, every):
    """The crates of these names; the call ends with status 2 where there is no such crate."""
    wrong = [it for it in names if it not in {crate.name for crate in every}]
    if wrong:
        print(f"there is no crate {', '.join(wrong)}", file=sys.stderr)
        sys.exit(2)
    return [it for it in every if it.name in names]


def text_of(file):
    return file.read_text(encoding="utf-8", errors="replace")


def sum_of(rlib):
    """The sum of all that a built library has, which stands in it."""
    found = re.search(r"(?m)^sum (\w+)$", text_of(rlib / "format")) if (rlib / "format").is_file() else None
    return found and found[1]


def statements_of(rlib):
    """The sum of what libraries above read of a library: its interface, its specs and the statements of its proofs, and no body.

    What is left out are the checked proofs, the code, and the list of modules that is made of both.
    """
    told = hashlib.sha256(OF_BODIES.sub("", text_of(rlib / "format")).encode())
    for part in ("interface", "lang", "below"):
        for folder, folders, files in os.walk(rlib / part):
            folders.sort()
            for file in (Path(folder, it) for it in sorted(files)):
                if file != rlib / "lang/antt/made.json":
                    told.update(repr((str(file.relative_to(rlib)), file.read_bytes())).encode())
    return told.hexdigest()
