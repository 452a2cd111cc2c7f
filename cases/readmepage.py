"""Cases from README.md: the run of the interlock before its mistake was mended, which stands there in full; and what it names and counts."""
import re

from case import Case

MENDED = b" && pvConnected(valve)"
PRINTED = re.compile(r"^channel comes back at 2400\. That version printed\n\n```\n(.*?)^```\n", re.MULTILINE | re.DOTALL)
MIRROR = (" int open; assign open; monitor open;", " open = valve; pvPut(open);")
BEFORE = re.compile(r"^when \(pressure > 500\) .*\n", re.MULTILINE)
# Lines at most, and the last line of the search that finds nothing: what the README quotes has to stand on the page of the search.
LINES, MENDS = 180, re.compile(r"`((?:none up to \d+ lines|never) \(.*?\))`")
# A row of the figures: what is measured, how much that is, and the script of bench/ that measures it.
FIGURE = re.compile(r"^\| (.*) \| (.*) \| `(\w+\.(?:sh|py))` \|$", re.MULTILINE)
NUMBER = re.compile(r"\d[\d,]*(?:\.\d+)?")


def examples(root):
    """The first version is that of today without the questions for the channel; the clause of it on the page has to be in it."""
    page = (root / "README.md").read_text()
    source = (root / "examples/interlock.st").read_bytes().replace(MENDED, b"")
    printed, clause = PRINTED.search(page), BEFORE.search(page)
    is_shown = printed and clause and clause[0].encode() in source
    trace = (root / "examples/interlock-down.trace").read_bytes()
    yield Case("README.md: the interlock as it was", source, trace, stdout=printed[1].encode() if is_shown else b"not shown")


def missing(root):
    """What the README has not, and whether the interlock that is watched is that which is not, but for the mirror and the observer."""
    page = (root / "README.md").read_text()
    failures = [*wrong_of_figures(root, page)]
    version = (root / "VERSION").read_text().strip()
    if f"\nVersion {version} " not in page:
        failures.append(f"FAILED README.md: it does not name the version {version}")
    if page.count("\n") > LINES:
        failures.append(f"FAILED README.md: it has more than {LINES} lines")
    quoted = MENDS.search(page)
    if not quoted or f"\n{quoted[1]}\n" not in (root / "docs/tools/search.md").read_text():
        failures.append("FAILED README.md: it quotes no last line that docs/tools/search.md has")
    watched = program(root, "interlock-watched").partition(" ss watch ")[0]
    for added in MIRROR:
        watched = watched.replace(added, "")
    if watched.strip() != program(root, "interlock").strip():
        failures.append("FAILED examples/interlock-watched.st: without what it adds it is not interlock.st")
    return failures


def wrong_of_figures(root, page):
    """Numbers of the table of figures that no row of docs/BENCHMARKS.md has for the script that measures them."""
    rows = (root / "docs/BENCHMARKS.md").read_text().splitlines()
    figures = FIGURE.findall(page)
    if len(figures) < 5:
        yield "FAILED README.md: the table of figures is not found"
    for measured, much, script in figures:
        known = {it for row in rows if row.startswith(f"| `{script}` |") for it in NUMBER.findall(row)}
        for number in NUMBER.findall(f"{measured} {much}"):
            if number not in known:
                yield f"FAILED README.md: docs/BENCHMARKS.md has no figure {number} of {script}"


def program(root, name):
    """The text of an example behind its first comment, with one blank between words."""
    return " ".join((root / f"examples/{name}.st").read_text().partition("*/")[2].split())
