"""Files of counts: what `snl cover --counts` writes, what `--add` and `snl graph --counts` read of it, which files are refused, and lists
of traces and of such files."""
import hashlib
import random
import subprocess

from case import SECONDS
from tools import Tool, called, differs

# Two clauses of one arrow, a block that leaves by `state`, two state sets, two channels that are put.
SOURCE = """program sums option +s;
int x; assign x to "{P}X"; monitor x;
int y; assign y to "{P}Y";
int z; assign z to "Z";
ss s {
  state a {
    when (x > 9) { y = 1; pvPut(y); } state b
    when (x > 5) { } state b
  }
  state b { when (x < 3) { if (x == 2) { state a; } z = 1; pvPut(z); } state a }
}
ss t { state one { when (x == 7) { } state two } state two { when (x == 1) { } exit } }
"""
FIRST = "0 up L:X\n0 up L:Y\n0 up Z\n0 val L:X 1\n"
MONDAY = FIRST + "5 val L:X 7\n6 val L:X 2\n7 val L:X 10\n"
TUESDAY = FIRST + "5 val L:X 12\n6 val L:X 0\n7 val L:X 8\n"
# Those of MONDAY, by hand.
COUNTS = """entered s a 2
taken s a 1 b 1
left s a 1 0
taken s a 2 b 1
left s a 2 0
entered s b 2
taken s b 1 a 1
left s b 1 0
entered t one 1
taken t one 1 two 1
left t one 1 0
entered t two 1
taken t two 1 exit 0
left t two 1 0
put L:Y 1
put Z 0
begun 1
go s a b 2
go s a b 2
go s b a 1
go t one two 1
go t two exit 0
"""
BOTH = """never taken: t two 1 to exit (line 12)
4 of 5 clauses taken, 4 of 4 states entered, 2 of 2 channels put
"""
UNSEEN = """the program never began
never entered: s a (line 6)
never taken: s a 1 to b (line 7)
never taken: s a 2 to b (line 8)
never entered: s b (line 10)
never taken: s b 1 to a (line 10)
never entered: t one (line 12)
never taken: t one 1 to two (line 12)
never entered: t two (line 12)
never taken: t two 1 to exit (line 12)
never put: L:Y (y, line 3)
never put: Z (z, line 4)
0 of 5 clauses taken, 0 of 4 states entered, 0 of 2 channels put
"""
PROGRAM = "sums.st", "P=L:"


def head(root, source=SOURCE, macros="P=L:", words="100000"):
    """The first line of the files of counts of a program."""
    message = f"{len(words)} {len(macros)}\n{words}{macros}{source}"
    version = (root / "VERSION").read_text().strip()
    return f"snl counts {version} {hashlib.sha256(message.encode()).hexdigest()}\n"


def cases(root):
    for name, check in (
        ("the file that is written", written),
        ("sums in any order and grouping are one file", grouped),
        ("what is read back is what was counted", read_back),
        ("files of other programs, and of other forms", refused),
        ("files that are cut off behind each byte", cut),
        ("lists of traces and of files", lists),
        ("lists that are empty, are none, or name what is not there", bad_lists),
        ("which files are written over, and what cannot be written", written_over),
        ("how much has to be taken", percent),
        ("a trace with a bad line, and a fault", ends),
        ("snl graph draws them", drawn),
    ):
        yield Tool(f"counts: {name}", lambda program, folder, check=check: prepared(root, program, folder, check))


def prepared(root, program, folder, check):
    (folder / "sums.st").write_text(SOURCE)
    (folder / "monday.trace").write_text(MONDAY)
    (folder / "tuesday.trace").write_text(TUESDAY)
    for day in "monday", "tuesday":
        status, _, said = called(program, folder, "cover", "--counts", f"{day}.cov", "--trace", f"{day}.trace", *PROGRAM)
        if status or said:
            return f"status {status} over {day}.trace: {said!r}"
    return check(root, program, folder)


def first_of(*found):
    return next(filter(None, found), "")


def written(root, program, folder):
    name = folder / "monday.cov"
    wrong = differs(name.read_text(), head(root) + COUNTS)
    plain = called(program, folder, "cover", "--trace", "monday.trace", *PROGRAM)
    same = called(program, folder, "cover", "--trace", "monday.trace", "--counts", "monday.cov", *PROGRAM)
    # Options that change a run, and the budget, are part of what the counts are of; warnings are not.
    called(program, folder, "+c", "-w", "cover", "--budget", "77", "--trace", "monday.trace", "--counts", "c.cov", *PROGRAM)
    lines = (folder / "c.cov").read_text().splitlines(keepends=True)
    return first_of(
        wrong,
        differs(same, plain),
        differs(lines[0], head(root, words="+c 77")),
        differs(sorted(it.name for it in folder.glob("*.part")), []),
    )


def traces_of(folder, count, seed):
    """Random traces, with a file of counts for each."""
    dice = random.Random(seed)
    for number in range(count):
        lines = [f"{ms} val L:X {dice.choice((0, 1, 2, 5, 7, 8, 10, 12))}\n" for ms in range(1, dice.randint(2, 30))]
        (folder / f"{number}.trace").write_text(FIRST + "".join(lines))
    return [str(it) for it in range(count)]


def grouped(root, program, folder):
    days = traces_of(folder, 60, 7)
    for day in days:
        called(program, folder, "cover", "--trace", f"{day}.trace", "--counts", f"{day}.cov", *PROGRAM)
    adds = lambda names: [word for name in names for word in ("--add", f"{name}.cov")]
    called(program, folder, "cover", *adds(reversed(days)), "--counts", "one.cov", *PROGRAM)
    for part in range(7):
        called(program, folder, "cover", *adds(days[part::7]), "--counts", f"part{part}.cov", *PROGRAM)
    called(program, folder, "cover", *adds(f"part{it}" for it in range(7)), "--counts", "two.cov", *PROGRAM)
    # Half of them by their traces, in one call, and half by their counts, one behind the other, into one file.
    (folder / "list").write_text("".join(f"{day}.trace\n" for day in days[:30]))
    called(program, folder, "cover", "--trace-list", "list", "--counts", "three.cov", *PROGRAM)
    for day in days[30:]:
        called(program, folder, "cover", "--add", "three.cov", "--add", f"{day}.cov", "--counts", "three.cov", *PROGRAM)
    whole = called(program, folder, "cover", *(word for day in days for word in ("--trace", f"{day}.trace")), "--counts", "four.cov", *PROGRAM)
    texts = [(folder / f"{it}.cov").read_text() for it in ("one", "two", "three", "four")]
    begun = texts[0].splitlines()[17]
    sums = called(program, folder, "cover", "--add", "two.cov", *PROGRAM)
    return first_of(differs(texts, [texts[0]] * 4), differs(begun, "begun 60"), differs(sums, whole))


def read_back(root, program, folder):
    both = called(program, folder, "cover", "--add", "monday.cov", "--add", "tuesday.cov", *PROGRAM)
    runs = called(program, folder, "cover", "--trace", "monday.trace", "--trace", "tuesday.trace", *PROGRAM)
    mixed = called(program, folder, "cover", "--trace", "monday.trace", "--add", "tuesday.cov", *PROGRAM)
    # Counts stop at the largest number of 64 bits.
    full = (folder / "monday.cov").read_text().replace("go s a b 2", f"go s a b {2**64 - 1}").replace("begun 1", f"begun {2**64 - 1}")
    (folder / "full.cov").write_text(full)
    called(program, folder, "cover", "--add", "full.cov", "--add", "monday.cov", "--counts", "sum.cov", *PROGRAM)
    lines = (folder / "sum.cov").read_text().splitlines()
    return first_of(
        differs(both, (0, BOTH, "")),
        differs(runs, both),
        differs(mixed, both),
        differs((lines[18], lines[20], lines[17]), (f"go s a b {2**64 - 1}", "go s b a 2", f"begun {2**64 - 1}")),
    )


OTHER = "its counts are those of another program: the source, MACROS, options or --budget differ"
FOREIGN = "no file that 'snl cover --counts' wrote"


def refused(root, program, folder):
    text = (folder / "monday.cov").read_text()
    first = head(root)
    version = first.split()[2]
    spoilt = {
        "foreign": (MONDAY, FOREIGN),
        "empty": ("", FOREIGN),
        "version": (text.replace(version, "0.1.0", 1), "its counts are those of another version of snl"),
        "word": (text.replace("taken s a 2 b 1", "taken s a 2 b x"), "line 5 is not what 'snl cover --counts' writes there"),
        "zero": (text.replace("entered s a 2", "entered s a 02"), "line 2 is not what 'snl cover --counts' writes there"),
        "plus": (text.replace("entered s a 2", "entered s a +2"), "line 2 is not what 'snl cover --counts' writes there"),
        "large": (text.replace("entered s a 2", f"entered s a {2**64}"), "line 2 is not what 'snl cover --counts' writes there"),
        "name": (text.replace("put Z 0", "put W 0"), "line 17 is not what 'snl cover --counts' writes there"),
        "more": (text + "begun 1\n", "line 24 is not what 'snl cover --counts' writes there"),
        "less": (text.replace("put Z 0\n", ""), "line 17 is not what 'snl cover --counts' writes there"),
        "ends": (text.replace("\n", "\r\n"), OTHER),
    }
    wrong = []
    for name, (spoiled, said) in spoilt.items():
        (folder / f"{name}.cov").write_bytes(spoiled.encode())
        for word in ("cover", "--add"), ("graph", "--counts"):
            answer = called(program, folder, word[0], word[1], "monday.cov", word[1], f"{name}.cov", *PROGRAM)
            wrong.append(differs(answer, (3, "", f"snl: {name}.cov: {said}\n")))
    # Other macros, options, budgets and sources.
    calls = (
        ("cover", "--add", "monday.cov", "sums.st", "P=M:"),
        ("cover", "--add", "monday.cov", "sums.st"),
        ("+c", "cover", "--add", "monday.cov", *PROGRAM),
        ("cover", "--budget", "99", "--add", "monday.cov", *PROGRAM),
        ("cover", "--add", "monday.cov", "other.st", "P=L:"),
    )
    (folder / "other.st").write_text(SOURCE.replace("> 9", "> 8"))
    for words in calls:
        wrong.append(differs(called(program, folder, *words), (3, "", f"snl: monday.cov: {OTHER}\n")))
    # Where a file is refused, nothing is written.
    called(program, folder, "cover", "--add", "more.cov", "--counts", "sum.cov", *PROGRAM)
    wrong.append(differs((folder / "sum.cov").exists(), False))
    gone = called(program, folder, "cover", "--add", "gone.cov", *PROGRAM)
    wrong.append(differs(gone, (3, "", "snl: cannot read gone.cov\n")))
    return first_of(*wrong)


def cut(root, program, folder):
    data = (folder / "monday.cov").read_bytes()
    first = data.index(b"\n") + 1
    wrong = []
    for size in (0, 5, 11, 14, first - 1, *range(first, len(data), 3)):
        (folder / "cut.cov").write_bytes(data[:size])
        answer = called(program, folder, "cover", "--add", "cut.cov", *PROGRAM)
        line = data[:size].count(b"\n") + 1
        if size >= first:
            said = f"it is cut off in line {line}"
        else:
            said = FOREIGN if size < 11 else OTHER if size > 16 else "its counts are those of another version of snl"
        wrong.append(differs(answer, (3, "", f"snl: cut.cov: {said}\n")))
    return first_of(*wrong)


def lists(root, program, folder):
    (folder / "days").write_text("monday.trace\n\ntuesday.trace\r\n")
    (folder / "files").write_text("monday.cov\ntuesday.cov")
    fed = {"input": "monday.cov\ntuesday.cov\n"}
    return first_of(
        differs(called(program, folder, "cover", "--trace-list", "days", *PROGRAM), (0, BOTH, "")),
        differs(called(program, folder, "cover", "--trace-list", "-", *PROGRAM, input="tuesday.trace\nmonday.trace\n"), (0, BOTH, "")),
        differs(called(program, folder, "cover", "--add-list", "files", *PROGRAM), (0, BOTH, "")),
        differs(called(program, folder, "cover", "--add-list", "-", *PROGRAM, **fed), (0, BOTH, "")),
        differs(called(program, folder, "cover", "--add", "monday.cov", "--trace-list", "-", *PROGRAM, input="tuesday.trace\n"), (0, BOTH, "")),
    )


def bad_lists(root, program, folder):
    (folder / "empty").write_text("\n\n")
    (folder / "gone").write_text("monday.trace\nnone.trace\n")
    (folder / "none").write_bytes(b"monday.trace\n\xff\n")
    note = "snl: note: empty names no file\n"
    text = "snl: none is no list of paths: it is no UTF-8 text\n"
    return first_of(
        differs(called(program, folder, "cover", "--trace-list", "empty", *PROGRAM), (0, UNSEEN, note)),
        differs(called(program, folder, "cover", "--add-list", "empty", "--fail-under", "1", *PROGRAM), (1, UNSEEN, note)),
        differs(called(program, folder, "cover", "--trace-list", "gone", *PROGRAM), (3, "", "snl: cannot read none.trace\n")),
        differs(called(program, folder, "cover", "--trace-list", "none", *PROGRAM), (3, "", text)),
        differs(called(program, folder, "cover", "--add-list", "absent", *PROGRAM), (3, "", "snl: cannot read absent\n")),
        differs(called(program, folder, "cover", "--add-list", ".", *PROGRAM), (3, "", "snl: cannot read .\n")),
    )


def written_over(root, program, folder):
    call = lambda path: called(program, folder, "cover", "--trace", "monday.trace", "--counts", path, *PROGRAM)
    answer = called(program, folder, "cover", "--trace", "monday.trace", *PROGRAM)[1]
    over = lambda path: (2, "", f"error: '{path}' is no file that '--counts' wrote, and is not written over\n")
    (folder / "empty.cov").write_text("")
    (folder / "kept.cov.part").write_text("mine\n")
    (folder / "old.cov.part").write_text(head(root) + "go s")
    wrong = [
        differs(call("sums.st"), over("sums.st")),
        differs(call("monday.trace"), over("monday.trace")),
        differs(call("kept.cov"), over("kept.cov.part")),
        differs((folder / "kept.cov.part").read_text(), "mine\n"),
        differs(call("empty.cov"), (0, answer, "")),
        differs(call("old.cov"), (0, answer, "")),
        differs(call("/dev/full"), (3, answer, "snl: cannot write /dev/full: No space left on device (os error 28)\n")),
        differs(call("/dev/stdout"), (0, head(root) + COUNTS + answer, "")),
        differs(call("absent/a.cov"), (3, answer, "snl: cannot write absent/a.cov: No such file or directory (os error 2)\n")),
    ]
    return first_of(*wrong)


def percent(root, program, folder):
    adds = "--add", "monday.cov", "--add", "tuesday.cov"
    return first_of(
        differs(called(program, folder, "cover", "--fail-under", "81", *adds, *PROGRAM), (1, BOTH, "")),
        differs(called(program, folder, "cover", "--fail-under", "80", *adds, *PROGRAM), (0, BOTH, "")),
    )


def ends(root, program, folder):
    (folder / "bad.trace").write_text(MONDAY + "nonsense\n")
    bad = called(program, folder, "cover", "--trace", "bad.trace", "--counts", "bad.cov", *PROGRAM)
    gone = called(program, folder, "cover", "--trace", "none.trace", "--counts", "gone.cov", *PROGRAM)
    fault = SOURCE.replace("y = 1;", "y = 1 / (x - 10);")
    (folder / "fault.st").write_text(fault)
    faulted = called(program, folder, "cover", "--trace", "monday.trace", "--counts", "fault.cov", "fault.st", "P=L:")
    return first_of(
        differs((bad[0], bad[2]), (6, "bad.trace:8: bad time\n")),
        differs((folder / "bad.cov").read_text(), head(root) + COUNTS),
        differs((gone[0], (folder / "gone.cov").exists()), (3, False)),
        differs(faulted[0], 5),
        differs((folder / "fault.cov").read_text().splitlines()[::18], [head(root, fault).rstrip("\n"), "go s a b 1"]),
    )


def drawn(root, program, folder):
    run = subprocess.run([program, "graph", *PROGRAM], cwd=folder, input=MONDAY, capture_output=True, text=True, timeout=SECONDS)
    alone = called(program, folder, "graph", "--counts", "monday.cov", *PROGRAM)
    both = called(program, folder, "graph", "--counts", "monday.cov", "--counts", "tuesday.cov", *PROGRAM)
    label = '"s.b" -> "s.a" [label="1: x < 3\\n2x"];'
    return first_of(differs(alone, (0, run.stdout, "")), "" if label in both[1] else f"no {label} in {both}")
