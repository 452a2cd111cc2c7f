#!/usr/bin/env python3
"""Writes the file PROVED of an installation: how its programs were built, and their SHA-256, in lines that `sha256sum -c` takes.

    bin/parts/provenance.py PREFIX HOW [GATE]

HOW is `proved`, for programs that bin/start built of this repository with all proofs, or `given`, for others. GATE is a file with what
.ci/run said; its last line is kept.
"""
import hashlib
import subprocess
import sys
from pathlib import Path

sys.dont_write_bytecode = True
import manual  # noqa: E402

UNKNOWN = "not known"


def said(*call):
    """What a call writes, without the newline; nothing where it fails or is not there."""
    try:
        ran = subprocess.run(call, capture_output=True, text=True, cwd=manual.ROOT)
    except OSError:
        return ""
    return ran.stdout.strip() if ran.returncode == 0 else ""


def commit():
    """The commit of the repository, and whether files differ from it."""
    name = said("git", "rev-parse", "HEAD")
    changed = said("git", "status", "--porcelain", "--untracked-files=no")
    return f"{name}, and changes that are in no commit" if changed else name or UNKNOWN


def last_line(gate):
    """The last line of what the gate said."""
    lines = Path(gate).read_text().split("\n") if gate else []
    return next((it for it in reversed(lines) if it.strip()), "not told")


def sums(prefix):
    """A line for each program, as sha256sum writes it."""
    for name in manual.programs():
        path = Path("bin", name)
        yield f"{hashlib.sha256((prefix / path).read_bytes()).hexdigest()}  {path}"


def main(prefix, how, gate=""):
    is_proved = how == "proved"
    kit, _, logic = said("rt", "version").partition(" logic ")
    lines = [
        "# How the programs were built. `sha256sum -c share/doc/snlrun/PROVED`, called in the folder that has bin/, checks their sums.",
        f"# commit: {commit()}",
        f"# kit: {is_proved and kit or UNKNOWN}",
        f"# logic: {is_proved and logic or UNKNOWN}",
        f"# proofs: {'all of this commit' if is_proved else 'not proved'}",
        f"# gate: {last_line(gate)}",
        *sums(Path(prefix)),
    ]
    Path(prefix, "share/doc/snlrun/PROVED").write_text("".join(f"{it}\n" for it in lines))


if __name__ == "__main__":
    main(*sys.argv[1:])
