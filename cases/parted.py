"""Searches in parts: what `snl search --part` answers, and what `snl search --join` makes of such answers."""
import shutil
import subprocess

from case import SECONDS
from tools import Tool, called, differs

ALPHABET = """channels: VAC:PRESSURE 0 1 99 100 500 501, VAC:GAUGE:BEAT 0 1, VAC:RESET 0 1, VAC:VALVE:OPEN up down; gaps: 0, wake
"""
STARTS = "; VAC:PRESSURE 0 1 99 100 500 501, VAC:GAUGE:BEAT 0 1, VAC:RESET 0 1\n"
NOTE = "note: the answers are taken as they stand: this is their sum, and no proof\n"
FOREIGN = "no whole answer of 'snl search --part'"
OTHER = "another search than that of the first answer: its program, words, values or version differ"

# Its counter decides nothing, and goes on for ever.
COUNTER = """program counter option +s;
int x; assign x to "X"; monitor x;
int n; assign n to "N";
ss a { state s { when (x > 3) { n++; pvPut(n); } state t } state t { when (x < 2) {} state s } }
"""


def cases(root):
    for name, check in (
        ("each has its share, and all are joined", joined),
        ("one is missing, or was stopped", missing),
        ("something was found", found),
        ("no trace of any length", ever),
        ("answers of other searches, and what is none", refused),
        ("the starts of a recorded day are shared", days),
        ("no part leaves an overflow out", plain),
        ("wrong words", wrong_words),
    ):
        yield Tool(f"parts: {name}", lambda program, folder, check=check: prepared(root, program, folder, check))


def prepared(root, program, folder, check):
    shutil.copy(root / "examples/interlock.st", folder / "p.st")
    return check(root, program, folder)


def search(program, folder, part, *words, file="p.st"):
    """The answer of a part, which is kept in a file."""
    answer = called(program, folder, "search", "--part", part, *words, file)
    name = part.replace("/", "of") + ".txt"
    (folder / name).write_text(answer[1])
    return name, answer


def join(program, folder, *names):
    return called(program, folder, "search", "--join", *names)


def subject_of(answer):
    return answer.split(" of ")[1].split(":")[0]


def first_of(*found):
    return next(filter(None, found), "")


def joined(root, program, folder):
    parts = [search(program, folder, f"{it}/3", "--lines", "2") for it in (1, 2, 3)]
    version = (root / "VERSION").read_text().strip()
    wrong, subjects = [], set()
    for number, (_, (status, text, said)) in enumerate(parts, 1):
        first, starts, channels, *_, last = text.splitlines(keepends=True)
        subjects.add(subject_of(first))
        count = 3 - number // 3
        wrong.append(differs((status, said), (0, "")))
        wrong.append(differs(first.split(": ")[1], f"{count} of 8 starts\n"))
        wrong.append(differs((starts, channels), (f"starts: {count}{STARTS}", ALPHABET)))
        wrong.append("" if last.startswith("none up to 2 lines (") else f"the last line is {last!r}")
    (subject,) = subjects
    head = f"parts: 3 of {subject}\nstarts: 8{STARTS}{ALPHABET}{NOTE}"
    names = [name for name, _ in parts]
    answer = join(program, folder, *names)
    return first_of(
        *wrong,
        "" if subject.startswith(f"snl {version} ") and len(subject.split()[2]) == 64 else f"the subject is {subject!r}",
        differs(answer, (0, head + "none up to 2 lines, by the answers of 3 jobs\n", "")),
        differs(join(program, folder, *reversed(names)), answer),
        differs(join(program, folder, *names, names[0])[1], head + "none up to 2 lines, by the answers of 4 jobs\n"),
    )


def missing(root, program, folder):
    one, _ = search(program, folder, "1/2")
    two, _ = search(program, folder, "2/2", "--lines", "2")
    alone = join(program, folder, one)
    stopped, answer = search(program, folder, "2/2", "--worlds", "30")
    both = join(program, folder, one, stopped)
    last = "not all was seen: no answer is of part 2, none up to 4 lines, by the answers of 1 job\n"
    search(program, folder, "2/2", "--lines", "2")
    shorter = join(program, folder, one, two)
    return first_of(
        differs((alone[0], alone[1].splitlines(keepends=True)[-1]), (7, last)),
        differs(answer[0], 7),
        differs(both[0], 7),
        "" if "\nnot all was seen: " in both[1] else f"the answer is {both[1]!r}",
        differs((shorter[0], shorter[1].splitlines()[-1]), (0, "none up to 2 lines, by the answers of 2 jobs")),
    )


def found(root, program, folder):
    words = "--never", "put VAC:VALVE:OPEN 1"
    names = [search(program, folder, f"{it}/2", *words) for it in (1, 2)]
    answer = join(program, folder, *(name for name, _ in names))
    return first_of(
        differs({status for _, (status, *_) in names}, {1}),
        differs((answer[0], answer[1].splitlines()[-1]), (1, "found, by the answers of 2 jobs")),
        "" if answer[1].startswith("never: put VAC:VALVE:OPEN 1 (valve, line ") else f"the answer is {answer[1]!r}",
        "" if "\nparts: 2 of snl " in answer[1] else f"the answer is {answer[1]!r}",
    )


def ever(root, program, folder):
    names = [search(program, folder, f"{it}/2", "--lines", "1000") for it in (1, 2)]
    answer = join(program, folder, *(name for name, _ in names))
    return differs((answer[0], answer[1].splitlines()[-1]), (0, "never, by the answers of 2 jobs"))


def refused(root, program, folder):
    one, (_, text, _) = search(program, folder, "1/2")
    (folder / "changed.st").write_text((folder / "p.st").read_text() + "\n")
    others = {}
    for name, (words, file) in {
        "source": ((), "changed.st"),
        "values": (("--values", "VAC:RESET=0"), "p.st"),
        "first": (("--first", "VAC:RESET=1"), "p.st"),
        "budget": (("--budget", "200"), "p.st"),
        "gaps": (("--gaps", "0,5"), "p.st"),
        "any time": (("--gaps", "all"), "p.st"),
    }.items():
        others[name] = called(program, folder, "search", "--part", "2/2", *words, file)[1]
    second = called(program, folder, "search", "--part", "2/2", "p.st")[1]
    others["version"] = second.replace(f"of snl {(root / 'VERSION').read_text().strip()} ", "of snl 0.1.0 ")
    others["parts"] = second.replace("part 2/2", "part 2/3")
    others["alphabet"] = second.replace("VAC:RESET 0 1,", "VAC:RESET 0 1 2,")
    wrong = [differs("", "a text") if it == second else "" for it in others.values()]
    for name, other in others.items():
        (folder / name).write_text(other)
        wrong.append(differs(join(program, folder, one, name), (3, "", f"snl: {name}: {OTHER}\n")))
    for name, none in {
        "empty": "",
        "cut": text[:-1],
        "head": text.split("\n")[0],
        "opening": "".join(text.splitlines(keepends=True)[:3]),
        "lastless": text[: text.rindex("\n", 0, -1) + 1],
        "plain": called(program, folder, "search", "p.st")[1],
        "zero": text.replace("part 1/2", "part 0/2"),
        "past": text.replace("part 1/2", "part 3/2"),
    }.items():
        (folder / name).write_text(none)
        wrong.append(differs(join(program, folder, name), (3, "", f"snl: {name}: {FOREIGN}\n")))
    (folder / "bytes").write_bytes(b"\xff\n")
    wrong.append(differs(join(program, folder, one, "bytes"), (3, "", f"snl: bytes: {FOREIGN}\n")))
    wrong.append(differs(join(program, folder, "gone"), (3, "", "snl: cannot read gone\n")))
    return first_of(*wrong)


def days(root, program, folder):
    """A search in a recorded day: its parts share the starts. Another trace, or other places of it, is another search."""
    day = (root / "examples/interlock.trace").read_text()
    (folder / "day.trace").write_text(day)
    (folder / "longer.trace").write_text(day + "8600 tick\n")
    words = "--lines", "1", "--after", "day.trace", "--every", "2"
    parts = [search(program, folder, f"{it}/3", *words) for it in (1, 2, 3)]
    begins = "; after every 2 lines of the trace\n"
    wrong = []
    for (_, (status, text, said)), count in zip(parts, (4, 3, 3)):
        first, starts, *_ = text.splitlines(keepends=True)
        wrong.append(differs((status, said), (0, "")))
        wrong.append(differs(first.split(": ")[1], f"{count} of 10 starts\n"))
        wrong.append(differs(starts, f"starts: {count}{begins}"))
    answer = join(program, folder, *(name for name, _ in parts))
    wrong.append(differs((answer[0], answer[1].splitlines()[-1]), (0, "none up to 1 line, by the answers of 3 jobs")))
    wrong.append("" if f"\nstarts: 10{begins}" in answer[1] else f"the answer is {answer[1]!r}")
    for other in (("--every", "3"), ("--at", "2000,4000,8000")):
        name = "other.txt"
        (folder / name).write_text(called(program, folder, "search", "--part", "2/3", "--lines", "1", "--after", "day.trace", *other, "p.st")[1])
        wrong.append(differs(join(program, folder, parts[0][0], name), (3, "", f"snl: {name}: {OTHER}\n")))
    (folder / "other.txt").write_text(called(program, folder, "search", "--part", "2/3", "--lines", "1", "--after", "longer.trace", "--every", "2", "p.st")[1])
    wrong.append(differs(join(program, folder, parts[0][0], "other.txt"), (3, "", f"snl: other.txt: {OTHER}\n")))
    return first_of(*wrong)


def plain(root, program, folder):
    """A whole search answers but for the counter; a part, whose answers are added up, does not."""
    (folder / "counter.st").write_text(COUNTER)
    words = "--lines", "1000000", "--worlds", "200"
    status, text, _ = called(program, folder, "search", *words, "counter.st")
    if status != 0 or not "".join(text.splitlines()[-1:]).startswith("never, but an overflow of n (line 4) ("):
        return f"status {status}, {text!r}"
    _, (status, text, _) = search(program, folder, "1/1", *words, file="counter.st")
    last = "".join(text.splitlines()[-1:])
    return "" if status == 7 and last.startswith("not all was seen: none up to ") and "but" not in last else f"status {status}, {last!r}"


def wrong_words(root, program, folder):
    wrong = []
    for word in "0/3", "4/3", "1", "1/0", "x/2", "1/2/3", "":
        said = f"error: '--part {word}' is not I/N with I from 1 to N\n"
        wrong.append(differs(called(program, folder, "search", "--part", word, "p.st"), (2, "", said)))
    many = "snl: a search in 9 parts has to have as many starts, and there are 8\n"
    wrong.append(differs(called(program, folder, "search", "--part", "1/9", "p.st"), (2, "", many)))
    status, text, said = called(program, folder, "search", "--join")
    wrong.append(differs((status, text), (2, "")))
    name, _ = search(program, folder, "1/1")
    with open("/dev/full", "wb") as full:
        ran = subprocess.run([program, "search", "--join", name], cwd=folder, stdout=full, stderr=subprocess.PIPE, timeout=SECONDS)
    wrong.append(differs(ran.returncode, 3))
    return first_of(*wrong)
