"""Cases of `snl explain`: of each message and each lint it tells the section of the page; and the kept texts are those that scripts/pages makes."""
import re
import subprocess
import sys
from dataclasses import dataclass
from pathlib import Path

from case import SECONDS

# Fewer than these would be a page that is not read.
MESSAGES, LINTS = 38, 11


def cases(root):
    yield Explained("snl explain: each message and each lint, as the pages have them", root)
    yield Made("scripts/pages: the kept texts are those of the pages", root, "scripts/pages")


def sections(page, heading):
    """Of each section of a page that has such a heading, its name and its text."""
    parts = re.split(r"^(?=##? |### )", page, flags=re.MULTILINE)
    found = ((re.match(heading, it), it) for it in parts)
    return {name[1]: text.rstrip("\n") + "\n" for name, text in found if name}


@dataclass
class Explained:
    """Each name that the pages have, by itself."""

    name: str
    root: Path
    tool: str = "snl"

    def failure(self, programs):
        messages = sections((self.root / "docs/MESSAGES.md").read_text(), r"### ([EW]\d+): ")
        lints = sections((self.root / "docs/tools/check.md").read_text(), r"### `(\w+)`\n")
        wrong = [] if (len(messages), len(lints)) == (MESSAGES, LINTS) else [f"{len(messages)} messages and {len(lints)} lints have a section"]
        for name, text in {**messages, **lints}.items():
            ran = subprocess.run([programs["snl"], "explain", name], capture_output=True, timeout=SECONDS)
            if (ran.returncode, ran.stdout, ran.stderr) != (0, text.encode(), b""):
                wrong.append(f"{name}: status {ran.returncode}, {ran.stdout[:60]!r}")
        return "\n  ".join([f"FAILED {self.name}", *wrong[:10]]) if wrong else None


@dataclass
class Made:
    """Files that a script makes, as they are kept."""

    name: str
    root: Path
    script: str
    tool: str = "snl"

    def failure(self, _programs):
        ran = subprocess.run([sys.executable, self.root / self.script, "--check"], capture_output=True, text=True, timeout=SECONDS)
        return "\n  ".join([f"FAILED {self.name}", *ran.stdout.splitlines(), *ran.stderr.splitlines()[-1:]]) if ran.returncode else None
