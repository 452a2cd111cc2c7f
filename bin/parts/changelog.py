#!/usr/bin/env python3
"""Writes the changelog of a Debian package on standard output, made of CHANGELOG.md: of each version its name and what changed.

    bin/parts/changelog.py MAINTAINER SECONDS

SECONDS is the time of the package; a version has its own date, at midnight, where it is no later.
"""
import re
import sys
import textwrap
from datetime import datetime, timezone
from email.utils import format_datetime
from pathlib import Path

ROOT = Path(__file__).resolve().parent.parent.parent
VERSION = re.compile(r"^## (\d[\d.]*), (\d{4}-\d\d-\d\d)\n(.*?)(?=^## |\Z)", re.MULTILINE | re.DOTALL)
WHOLE = {"break_long_words": False, "break_on_hyphens": False}


def entry(version, date, text, maintainer, latest):
    """What Debian writes of a version."""
    changes = re.split(r"^- ", text, flags=re.MULTILINE)[1:]
    lines = "\n".join(textwrap.fill(" ".join(it.split()), 78, initial_indent="  * ", subsequent_indent="    ", **WHOLE) for it in changes)
    moment = min(datetime.fromtimestamp(latest, timezone.utc), datetime.fromisoformat(date).replace(tzinfo=timezone.utc))
    return f"snlrun ({version}) unstable; urgency=medium\n\n{lines}\n\n -- {maintainer}  {format_datetime(moment)}\n"


def main(maintainer, seconds):
    found = VERSION.findall((ROOT / "CHANGELOG.md").read_text())
    print("\n".join(entry(*it, maintainer, int(seconds)) for it in found), end="")


if __name__ == "__main__":
    main(*sys.argv[1:])
