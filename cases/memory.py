"""How much memory a program takes at most, and what it wrote meanwhile: a figure of a program that did nothing would say nothing."""
import subprocess
import sys
from typing import NamedTuple

# What the system tells of a child counts the memory that its parent had when it was made, so a small process stands between.
BETWEEN = """
import os, sys
_, status, used = os.wait4(os.posix_spawn(sys.argv[1], sys.argv[1:], os.environ), 0)
print(os.waitstatus_to_exitcode(status), used.ru_maxrss, file=sys.stderr)
"""


class Peak(NamedTuple):
    """How a call ended, its memory at most, and the first and the last line that it wrote."""

    status: int
    kilobytes: int
    first: str
    last: str


def peak(words, folder, stdin):
    """Runs a call, whose output goes to a file in a folder."""
    call = [sys.executable, "-I", "-S", "-c", BETWEEN, *map(str, words)]
    with open(folder / "written", "wb") as stdout:
        ran = subprocess.run(call, cwd=folder, stdin=stdin, stdout=stdout, stderr=subprocess.PIPE, text=True)
    status, kilobytes = ran.stderr.split()[-2:]
    lines = (folder / "written").read_text().splitlines() or [""]
    return Peak(int(status), int(kilobytes), lines[0], lines[-1])


def grown(few, many, slack):
    """What is wrong where a call over a long input takes so many kilobytes more than over a short one."""
    return "" if many < few + slack else f"{few} kilobytes over a short trace, {many} over a long one"
