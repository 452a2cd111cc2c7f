"""Whether pages count and name what is there: the crates, the programs with their words, and what else a page tells by a number."""
import re
import sys

import ports
import requests

ONES = "zero one two three four five six seven eight nine".split()
TEENS = "ten eleven twelve thirteen fourteen fifteen sixteen seventeen eighteen nineteen".split()
# The words of the numbers below a hundred, as pages say them.
NUMBERS = [*ONES, *TEENS, *(f"{tens}-{one}" if at else tens for tens in ("twenty", "thirty", "forty", "fifty", "sixty", "seventy", "eighty", "ninety") for at, one in enumerate(ONES))]
# How many lines a page has at most.
LINES = 800
FUNCTION = re.compile(r"^\s*(?:pub(?:\(\w+\))? )?(?:const |unsafe )*fn \w", re.MULTILINE)


def missing(root):
    """What a page counts or names otherwise."""
    yield from wrong_of_crates(root)
    yield from wrong_of_words(root)
    for page, wanted in numbers(root):
        if wanted not in " ".join((root / page).read_text().split()):
            yield f"FAILED {page}: it does not say `{wanted}`"
    yield from wrong_of_sizes(root)
    yield from wrong_of_minutes(root)
    long = [it for it in root.glob("docs/**/*.md") if it.read_text().count("\n") > LINES]
    yield from (f"FAILED {it.relative_to(root)}: it has more than {LINES} lines" for it in sorted(long))
    steps = (root / "docs/DEVELOPING.md").read_text().split("\n## A change, step by step\n")[1].split("\n## ")[0]
    for name in sorted({*re.findall(r"`(?:\S*/)?(\w+\.(?:rt|antt))`", steps)}):
        if not any(root.glob(f"crates/*/*/**/{name}")):
            yield f"FAILED docs/DEVELOPING.md: no crate has a file {name}"


def numbers(root):
    """Pages, with the sentences in them that count something, as they have to be."""
    promises = len(re.findall(r"^\d+\. \*\*", (root / "docs/PROMISES.md").read_text(), re.MULTILINE))
    refused, ported = len(requests.CALLS), {kind: len([*(root / "cases/port").glob(f"*.{kind}")]) for kind in ("st", "trace")}
    yield "README.md", f"has the {NUMBERS[promises]} promises"
    # That these numbers are right, ports.py, defined.py and wrong_of_minutes see.
    hands = [int(it) for _, it in ports.ROW.findall((root / "docs/PORTING.md").read_text())]
    left = [it for it in hands if it]
    yield "README.md", f"leaves nothing by hand in {hands.count(0)} of {len(hands)} programs"
    if left:
        yield "README.md", f"and {NUMBERS[sum(left)]} place in the other:" if len(left) == 1 else f"in the other {NUMBERS[len(left)]}"
    clauses = re.search(r"(\d+) clauses", (root / "docs/DEFINITIONS.md").read_text())[1]
    yield "README.md", f"its {clauses} clauses can be run"
    night = re.search(r"the picture of a night, ([\d,]+ lines) .* (a page of \d+ kB)", (root / "docs/BENCHMARKS.md").read_text())
    yield "docs/PLOT.md", f"A night of {night[1]} is {night[2]}"
    hours, minutes = re.search(r"it takes (.*?), and (some \d+ minutes of them) ", (root / "docs/DEVELOPING.md").read_text()).groups()
    yield "README.md", f"| `.ci/run` | all proofs, tests and cases, from nothing | {hours} on four virtual processors (two cores), {minutes} |"
    yield "docs/START.md", f"all proofs, tests and cases, from nothing: {hours} on four virtual processors "
    yield "docs/PROMISES.md", f"of {NUMBERS[refused]} calls of the programs"
    yield "cases/README.md", f"of {NUMBERS[refused]} calls, and of a test"
    yield "cases/README.md", f"{NUMBERS[ported['st']]} whole programs, as people write them"
    yield "cases/README.md", f"{NUMBERS[ported['trace']]} of them with a run"


def wrong_of_sizes(root):
    """What DEVELOPING.md says otherwise of how large a crate is."""
    most = int(re.search(r"At most (\d+) functions a crate", (root / "docs/DEVELOPING.md").read_text())[1])
    for crate in sorted((root / "crates").iterdir()):
        functions = sum(len(FUNCTION.findall(it.read_text())) for it in crate.glob("src/**/*.rt"))
        if functions > most:
            yield f"FAILED docs/DEVELOPING.md: {crate.name} has {functions} functions"


def wrong_of_minutes(root):
    """What pages say otherwise of the minutes of proofs and tests, as bin/parts/costs.txt has them; they are told roughly."""
    sys.path.insert(0, str(root / "scripts"))
    from proving import costs

    below = costs.crates_of(root)
    proofs = [*below, *(f"{it}.tests" for it in below if costs.has_tests(it, root))]
    minutes = {it: costs.cost(it, costs.costs()).minutes for it in proofs}
    page = (root / "docs/DEVELOPING.md").read_text()
    longest = int(re.search(r"a proof of at most (\d+) minutes", page)[1])
    yield from (f"FAILED docs/DEVELOPING.md: the proof of {name} takes {it} minutes" for name, it in minutes.items() if it > longest)
    # Those of costs.txt were taken beside other work: alone they are a fifth less at most. They are of a whole core: two virtual processors.
    every = int(re.search(r"some (\d+) minutes of them ", page)[1]) / 2
    if not 0.8 * sum(minutes.values()) <= every <= sum(minutes.values()):
        yield f"FAILED docs/DEVELOPING.md: proofs and tests take {sum(minutes.values()):.0f} minutes of a processor"
    untold = {it for it in below if not it.endswith("_tests")} ^ {name for name, _, _ in rows_of_stale(page)}
    yield from (f"FAILED docs/DEVELOPING.md: what a change of {it} makes stale does not stand there" for it in sorted(untold))
    for name, proof, stale in rows_of_stale(page):
        new = [name, *(it for it in below if name in below[it])]
        every = sum(minutes[it] + minutes.get(f"{it}.tests", 0) for it in new)
        if abs(proof - minutes[name]) > 3 or abs(stale - every) > 10:
            yield f"FAILED docs/DEVELOPING.md: {name} takes {minutes[name]} minutes, and with all above {every:.0f}"


def rows_of_stale(page):
    """Of each crate in the table of what a change makes stale the minutes of its proof, and of all that is new."""
    table = page.split("\n## What a change makes stale\n")[1].split("\n## ")[0]
    for names, proofs, every in re.findall(r"^\| (`sn[lc].*?) \| .*? \| (.*?) \| (.*?) \|", table, re.MULTILINE):
        for name, proof, stale in zip(re.findall(r"`(\w+)`", names), proofs.split(", "), every.split(", ") * 4):
            yield name, 0 if proof == "under 1" else int(proof), int(stale)


def wrong_of_words(root):
    """What pages say otherwise of the words of snl."""
    call, changes = ((root / it).read_text() for it in ("docs/CALL.md", "CHANGELOG.md"))
    words = words_of(root)
    for word in words:
        if f"\nsnl [+X|-X].. {word} " not in call:
            yield f"FAILED docs/CALL.md: it does not have the words of snl {word}"
        if f"`{word}`" not in changes and f"`snl {word}`" not in changes:
            yield f"FAILED CHANGELOG.md: it does not say which version takes snl {word}"
    pages = {it.stem for it in root.glob("docs/tools/*.md")}
    # `snl run` has two, and one is about many programs.
    wanted = {"README", "many", "requirements", *words}
    if pages != wanted:
        yield f"FAILED docs/tools: not a page a word, and one for all: {pages ^ wanted}"
    index = (root / "docs/tools/README.md").read_text()
    linked = re.findall(r"^\| \[`snl (\w+) .*\]\((\w+)\.md\) \|", index, re.MULTILINE)
    if linked != [(it, it) for it in words]:
        yield f"FAILED docs/tools/README.md: its table has links to {linked}"


def words_of(root):
    """The words of snl."""
    listed = re.search(r"^pub\(crate\) const NAMES: .*? = \[(.*?)\];$", (root / "crates/snl_args/src/words.rt").read_text(), re.MULTILINE | re.DOTALL)
    return re.findall(r"\w+", listed[1])


def wrong_of_crates(root):
    """What pages count or name otherwise of the crates."""
    crates = [it.split(":")[0] for it in (root / "crates.txt").read_text().splitlines() if it and it[0] != "#"]
    architecture = (root / "docs/ARCHITECTURE.md").read_text()
    counted = re.search(r"^([\w-]+) crates\.", architecture, re.MULTILINE)
    if not counted or counted[1].lower() != NUMBERS[len(crates)]:
        yield f"FAILED docs/ARCHITECTURE.md: it does not count {len(crates)} crates"
    yield from (f"FAILED docs/ARCHITECTURE.md: it does not name {it}" for it in crates if not re.search(rf"\b{it}\b", architecture))
    figure = re.search(r"^```\n.*?^```$", architecture, re.MULTILINE | re.DOTALL)[0]
    unseen = [it for it in crates if not it.endswith("_tests") and not re.search(rf"\b{it}\b", figure)]
    yield from (f"FAILED docs/ARCHITECTURE.md: the figure lacks {it}" for it in unseen)
    table = architecture.split("\n## The crates\n")[1].split("\n## ")[0]
    listed = re.findall(r"`(\w+)`", " ".join(re.findall(r"^\| (`.*?) \|", table, re.MULTILINE)))
    if sorted(listed) != sorted(crates):
        yield f"FAILED docs/ARCHITECTURE.md: the table of crates lacks one, has one that is not there, or one twice: {set(listed) ^ set(crates)}"
    decisions = (root / "docs/DECISIONS.md").read_text()
    heads = [name for head in re.findall(r"^## (`.*)$", decisions, re.MULTILINE) for name in re.findall(r"`(\w+)`", head)]
    if sorted(heads) != sorted(crates):
        yield f"FAILED docs/DECISIONS.md: not a heading for each crate, and one alone: {set(heads) ^ set(crates)}"
