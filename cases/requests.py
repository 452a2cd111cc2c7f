"""Memory. A run takes none: snlrun asks for it as often over a trace of one line as over one of ten thousand. And each request of a
call may be refused: the status is 4 then, nothing is written to any stream or file, and nothing of the trace is read, but by `snl`,
which makes its answer behind the trace, and whose words `run` and `trace` may have begun their lines. A run that is folded may go on without the
memory for a block: its lines stand for the same then. A file that a search cannot write is told, behind the answer. A call that
answers otherwise than it has to, or whose requests nobody counted, is a failure, too.
Where memory ends while tables are written, a beginning of them is left: no program shows that, so a test of snc_tests tells it."""
import os
import re
import shutil
import subprocess
import tempfile
import threading
from dataclasses import dataclass
from functools import lru_cache
from pathlib import Path
from typing import Callable, NamedTuple

from folds import VALVE, unfolded

HERE = Path(__file__).resolve().parent
TABLES = HERE.parent / "docs/TABLES.md"
SOURCE = """program r
option +s;
int x; assign x to "a"; monitor x;
evflag f; syncQ x to f 5;
int v[3]; assign v to {"p", "", "q"}; monitor v;
int w; assign w; monitor w;
ss one {
  state a {
    entry { v[1] = x; pvPut(v[1]); }
    when (pvGetQ(x)) { int i; for (i = 0; i < 3; i++) pvGet(v[i]); printf("%d %d", x, v[0]); w = x; pvPut(w); pvPut(v[2]); } state a
    when (delay(0.5)) { pvFlushQ(x); } state a
  }
}
ss two { state b { when (w % 7 == 1) { efSet(f); w = 0; } state b } }
"""
READY = "0 up a\n0 up p\n0 up q\n0 val p 1\n0 val q 2\n0 val a 1\n"
LINES = "".join(f"{n} val {'apq'[n % 3]} {n}\n" for n in range(1, 10_001))
# A program whose searches are short; in the other one a fault is found.
SAFE = """program safe
option +s;
int x; assign x to "X"; monitor x;
ss s { state a { when (x > 5) {} state b } state b { when (x < 1) {} state a } }
"""
RULE = """program watch
option +s; option -c;
int x; assign x to "a"; monitor x;
int q; assign q to "put:q"; monitor q;
ss rule { state kept { when (q > 5) {} state broken } state broken { when (q < 1) {} state kept } }
"""
SOURCES = {
    "r.st": SOURCE,
    "syntax.st": SOURCE.replace("ss two", "ss ss"),
    "byte.st": '# 7 "before.c"\n' + SOURCE + "\n@",
    "ten.st": SOURCE.replace("int v", "".join(f"assign u{n}; " for n in range(10)) + "int v"),
    "warned.st": SOURCE.replace("option +s;", "option -s; option +u; int unused;"),
    "waiting.st": SOURCE.replace('"q"', '"quiet"').replace('"p"', '"pp"'),
    "safe.st": SAFE,
    # It opens and shuts until its budget is spent, in blocks that are folded.
    "valve.st": VALVE.replace("V:P", "a").replace("V:OPEN", "p"),
    # A log of three channels.
    "day.log": "".join(f"{'apq'[n % 3]} 2026-03-02 09:15:0{n}.100000 {n}\n" for n in range(6)),
    # No trace of a search, so it is not written over.
    "notes": "mine\n",
    "faulty.st": SAFE.replace("{} state b }", "{ x = 1 / (x - 6); } state b }"),
    # A requirement of the first one.
    "watch.st": RULE,
    # One that it breaks: a value of 2 is put to `q`.
    "strict.st": RULE.replace("q > 5", "q > 1"),
    # One of the program whose searches are short, which that breaks at its first line.
    "guard.st": """program guard
option +s; option -c;
int s; assign s to "state:s"; monitor s;
ss rule { state kept { when (s == 1) {} state broken } state broken { when (s == 0) {} state kept } }
""",
    "functions.st": SOURCE.replace("int w", "int twice(int n) { int m = n; return m + n; } int w").replace("w % 7", "twice(w) % 7"),
}


class Call(NamedTuple):
    """A call whose every request is refused in turn."""

    tool: str
    words: list
    # Its status where none is refused, and how many requests it has at least.
    status: int
    least: int
    # So many are of no weight: what the library collects it asks all room for at first, and else room for one more each time.
    # The words of a call are collected so, the messages that are let through, and what names are compared by. A search with a
    # requirement does each line as `snl run --watch` does, which notes the last lines for a summary that a search does not tell.
    free: int
    # The file or the folder that the call writes beside its streams.
    written: str = ""


# The macro is one that no channel has.
CALLS = (
    Call("snc", ["--tables", "r.st"], 0, 100, 1),
    Call("snlrun", ["+s", "--budget", "100", "r.st", "A=1"], 0, 100, 1),
    Call("snc", ["syntax.st"], 1, 100, 1),
    Call("snlrun", ["byte.st"], 1, 20, 1),
    Call("snc", ["--tables", "ten.st"], 1, 100, 2),
    Call("snlrun", ["warned.st"], 0, 100, 2),
    Call("snc", ["--tables", "functions.st"], 0, 100, 1),
    Call("snlrun", ["functions.st"], 0, 100, 1),
    Call("snc", ["missing.st"], 3, 10, 1),
    Call("snc", ["--help"], 0, 10, 1),
    Call("snlrun", ["--help"], 0, 10, 1),
    Call("snc", [], 2, 10, 0),
    Call("snc", ["+z", "r.st"], 2, 5, 1),
    Call("snlrun", ["--budget", "0", "r.st"], 2, 10, 1),
    Call("snl", ["waits", "r.st"], 0, 100, 1),
    Call("snl", ["waits", "+s", "waiting.st", "A=1"], 1, 100, 3),
    Call("snl", ["cover", "--fail-under", "100", "r.st"], 1, 100, 1),
    Call("snl", ["graph", "warned.st"], 0, 100, 2),
    Call("snl", ["same", "r.st", "functions.st", "A=1"], 1, 100, 1),
    Call("snl", ["same", "r.st", "warned.st"], 0, 100, 2),
    Call("snl", ["wait", "r.st"], 2, 5, 6),
    Call("snl", ["run", "r.st"], 0, 100, 6),
    Call("snl", ["run", "--budget", "40", "valve.st"], 5, 300, 3),
    Call("snl", ["run", "--whole", "functions.st"], 0, 100, 1),
    Call("snl", ["run", "--watch", "watch.st", "r.st"], 0, 500, 1),
    Call("snl", ["run", "--watch", "strict.st", "--never", "rule.broken", "r.st"], 1, 500, 1),
    Call("snl", ["trace", "day.log"], 0, 20, 1),
    Call("snl", ["trace", "--program", "r.st", "day.log"], 0, 100, 1),
    Call("snl", ["search", "--lines", "1", "safe.st"], 0, 300, 1),
    Call("snl", ["search", "--lines", "1", "--out", "found", "faulty.st"], 1, 300, 1, "found"),
    Call("snl", ["search", "--lines", "1", "--watch", "guard.st", "--never", "rule.broken", "safe.st"], 1, 500, 6),
    Call("snl", ["same", "--search", "--lines", "1", "safe.st", "faulty.st"], 1, 500, 1),
    Call("snl", ["search", "--lines", "1", "--cover", "suite", "safe.st"], 0, 300, 1, "suite"),
    Call("snl", ["search", "--lines", "1", "--out", "notes", "safe.st"], 2, 50, 2),
)
INPUT_OUTPUT, OUT_OF_MEMORY = 3, 4
# The number of a request that no call comes to.
NEVER = 10**9
WITHOUT = "the answer is the same without it"
UNWRITTEN = "the answer stands there, and it is told that the file could not be written"
LATER = "the lines stand for the same, and a block is folded later"
# The test of `snc_tests`, what it writes with the tables that are left where their call failed, and its status then.
TEST = "tests::beginnings::tables_or_their_beginning"
LEFT = re.compile(rb"left: (.*)\nthe test failed: [^\n]+\n", re.DOTALL)
FAILED = 101
# Of its requests so many are of no weight: it has a warning, and so messages that are let through (`Call.free`).
FREE = 1
# Who makes requests.so.
MAKING = threading.Lock()


@dataclass
class Memory:
    """A case in a folder with the sources."""

    name: str
    # Gets the programs and the folder, and gives lines of what is wrong.
    check: Callable
    tool: str
    # A build of bin/try has memory of its own, so it is not asked.
    of_memory: bool = True

    def failure(self, programs):
        with tempfile.TemporaryDirectory(prefix="snlrun-") as name:
            folder = Path(name)
            for file, source in SOURCES.items():
                (folder / file).write_text(source)
            wrong = list(self.check(programs, folder))
        return "\n  ".join([f"FAILED {self.name}", *wrong[:20]]) if wrong else None


def cases():
    """The cases, the longest first."""
    for call in reversed(CALLS):
        words = " ".join([call.tool, *call.words])
        yield Memory(f"requests.py: {words}", lambda *it, of=call: answered_otherwise(of, *it), call.tool)
    for name in ("r.st", "functions.st"):
        yield Memory(f"requests.py: {name} over one line and over ten thousand", lambda *it, of=name: more_over_a_long_trace(of, *it), "snlrun")
    yield Memory(f"requests.py: {TEST}", lambda programs, folder: tables_left(programs["snc_tests"], folder), "snlrun")


def built():
    """The folder of requests.so. Cases run beside each other, and one alone makes it: another one's would go with its last user."""
    with MAKING:
        return made()


@lru_cache
def made():
    """The folder of requests.so, which the compiler of the kit makes, beside the page that `rt doc` names; else that of the machine."""
    page = subprocess.run(["rt", "doc"], stdout=subprocess.PIPE, text=True).stdout.strip()
    clang = Path(page).parent / "toolchain/bin/clang"
    compiler = clang if clang.exists() else shutil.which("cc")
    folder = tempfile.TemporaryDirectory(prefix="snlrun-")
    library = Path(folder.name, "requests.so")
    subprocess.run([compiler, "-shared", "-fPIC", "-O1", "-nostdlib", "-o", library, HERE / "requests.c"], check=True)
    return folder


def more_over_a_long_trace(name, programs, folder):
    """Two programs, one of which calls a function in each round. The long run has to have been one: its last line is known."""
    short, long = (counted(programs["snlrun"], folder, [name], it) for it in ("0 up a\n", READY + LINES))
    if short[:2] != long[:2] or short[0] != 0 or short[1] < 100:
        yield f"over one line status {short[0]} and {short[1]} requests, over ten thousand {long[0]} and {long[1]}"
    if short[2] or not long[2].startswith(b"0 start r\n") or long[2].count(b"\n") < 10_000:
        yield f"{len(short[2].splitlines())} lines over one line, {len(long[2].splitlines())} over ten thousand"


def answered_otherwise(call, programs, folder):
    """Each request of a call is refused in turn."""
    (folder / "trace").write_text(READY)
    program = programs[call.tool]
    status, count, _ = counted(program, folder, call.words, READY)
    if status != call.status or count < call.least:
        yield f"status {status}, and {count} requests were counted"
        return
    plain = refused(program, folder, call, NEVER)
    if not plain.wrote:
        yield "nothing is written where none is refused"
    found = [wrong_of(call, refused(program, folder, call, number), plain) for number in range(1, count + 1)]
    let_through = {UNWRITTEN, LATER, *([WITHOUT] if found.count(WITHOUT) <= call.free else [])}
    yield from (f"request {number} of {count} refused: {said}" for number, said in enumerate(found, 1) if said and said not in let_through)
    if call.written and not (plain.files and UNWRITTEN in found):
        yield f"{call.written} is not written, or no request comes while it is: {[*plain.files]}"


def tables_left(tests, folder):
    """Where a request of the test is refused, it fails, and tells the tables that are left or not; once at least some are."""
    if not os.access(tests, os.X_OK):
        yield f"there is no program {tests}: build it by `rt ci`, or by `rt test` in the crate snc_tests"
        return
    status, count, _ = counted(tests, folder, [TEST], "")
    whole = re.findall(rb"^```\n(.*?)^```$", TABLES.read_bytes(), re.DOTALL | re.MULTILINE)[1]
    ran = [called(tests, folder, [TEST], {"REFUSED": str(number)}) for number in range(1, count + 1)]
    left = [it[1] for it in (LEFT.fullmatch(one.stderr) for one in ran) if it]
    begun = [it for it in left if whole.startswith(it) and 0 < len(it) < len(whole)]
    answered = sum(it.returncode != FAILED for it in ran)
    if status != 0 or not begun or len(begun) + left.count(b"") < len(left) or answered > FREE:
        yield f"status {status}, {count} requests, {answered} of no weight, left {left}"


class Answer(NamedTuple):
    """How a call ended."""

    status: int
    stdout: bytes
    stderr: bytes
    # What is new or changed in its folder: each file with its bytes, and None for one that is gone.
    files: dict
    # How many bytes of the trace it read.
    read: int

    @property
    def wrote(self):
        """Whether anything was written at all."""
        return bool(self.stdout or self.stderr or self.files)


def refused(program, folder, call, number):
    """The answer of a call where a request is refused. What an earlier one wrote is taken away before it."""
    if call.written:
        shutil.rmtree(folder / call.written) if (folder / call.written).is_dir() else (folder / call.written).unlink(missing_ok=True)
    before = seen(folder)
    with open(folder / "trace", "rb") as stdin:
        run = called(program, folder, call.words, {"REFUSED": str(number)}, stdin=stdin)
        read = os.lseek(stdin.fileno(), 0, os.SEEK_CUR)
    after = seen(folder)
    changed = sorted(it for it in {*before, *after} if before.get(it) != after.get(it))
    files = {os.path.relpath(it, folder): contents(it) for it in changed}
    return Answer(run.returncode, run.stdout, run.stderr, files, read)


def seen(folder):
    """What is below a folder: of each file its size and time."""
    found = {}
    for it in os.scandir(folder):
        found[it.path] = () if it.is_dir() else (it.stat().st_size, it.stat().st_mtime_ns)
        found.update(seen(it.path) if it.is_dir() else {})
    return found


def contents(path):
    """The bytes of a file; a folder has none, and None stands for what is gone."""
    if os.path.isdir(path):
        return b""
    return Path(path).read_bytes() if os.path.exists(path) else None


def wrong_of(call, answer, plain):
    """What is wrong with the answer where a request is refused; None where it is right. A file that can't be written is told."""
    if answer[:4] == plain[:4]:
        return WITHOUT
    unwritten = INPUT_OUTPUT, plain.stdout, f"snl: cannot write {call.written}: out of memory\n".encode()
    if call.written and answer[:3] == unwritten and answer.files.items() <= plain.files.items():
        return UNWRITTEN
    is_run, is_folded = call.words[:1] == ["run"], "--whole" not in call.words
    if is_run and is_folded and (answer.status, answer.stderr, answer.files) == (plain.status, b"", {}) and lines(answer) == lines(plain):
        return LATER
    may_begin = call.words[:1] in (["run"], ["trace"])
    begun = may_begin and plain.stdout.startswith(answer.stdout) and answer.stdout[-1:] in (b"", b"\n")
    is_silent = not (answer.stderr or answer.files) and (begun or not answer.stdout)
    if answer.status == OUT_OF_MEMORY and is_silent and (answer.read == 0 or call.tool == "snl"):
        return None
    return f"status {answer.status}, {answer.stdout!r}, {answer.stderr!r}, {answer.files}, {answer.read} bytes read"


def lines(answer):
    """The lines that a run stands for, without their times."""
    return unfolded(answer.stdout.decode().splitlines())


def counted(program, folder, words, trace):
    """The status of a call, how often it asks, which is 0 where it tells no number, and what it writes."""
    run = called(program, folder, words, {}, input=trace.encode())
    last = run.stderr.splitlines()[-1:]
    return run.returncode, int(last[0]) if last and last[0].isdigit() else 0, run.stdout


def called(program, folder, words, environment, **stdin):
    """A call with requests.so. The program gets no other environment."""
    counter = {"LD_PRELOAD": str(Path(built().name, "requests.so")), **environment}
    return subprocess.run([program, *words], cwd=folder, env=counter, stdout=subprocess.PIPE, stderr=subprocess.PIPE, **stdin)
