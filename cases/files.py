"""Reads cases from their files. README.md has the form of these."""
import re
import subprocess
from pathlib import Path

from case import ANY, Case

REPEATED = re.compile(rb"`\[(\d+) (.*?)`\]", re.DOTALL)
ESCAPE = re.compile(rb"`(\n|[0-9A-F]{2})")
# Lines that may be said of a program that is read to its end.
READ = re.compile(rb"[^:\n]+:\d+: (error: E(04|[123]\d)|warning: W\d) [^\n]+\n")


def plain(text):
    """The bytes that a text of a file stands for."""
    text = REPEATED.sub(lambda it: it[2] * int(it[1]), text)
    return ESCAPE.sub(lambda it: b"" if it[1] == b"\n" else bytes.fromhex(it[1].decode()), text)


def parted(text, mark):
    """The parts of a text that begin with a line of the mark and words, each with those words."""
    found = re.split(rb"^" + mark + rb" (.+)\n", text, flags=re.MULTILINE)
    return [(found[at].decode(), found[at + 1]) for at in range(1, len(found), 2)]


def cases(file):
    """Whole runs: each has sections. One without a source has that of the case before."""
    source = b""
    for title, body in parted(file.read_bytes(), b"=="):
        sections = {}
        for words, text in parted(body, b"--"):
            name, _, more = words.partition(" ")
            sections[name] = (more, text.rstrip(b"\n") + b"\n" if text.strip() else b"")
        unknown = set(sections) - {"p.st", "q.st", "trace", "stdout", "stderr", "status", "args", "rows", "tool"}
        if unknown:
            raise SystemExit(f"{file.name}: {title}: no section is called {', '.join(sorted(unknown))}")
        source = sections.get("p.st", ("", source))[1]
        yield from cases_of_sections(f"{file.name}: {title}", source, sections)


def cases_of_sections(name, source, sections):
    path, trace = sections.get("trace", ("", b""))
    out, stdout = sections.get("stdout", ("", b""))
    made = {
        "source": plain(source),
        "trace": Path(path[len("from ") :]) if path else plain(trace),
        "stdout": Path(out[len("to ") :]) if out.startswith("to ") else plain(stdout),
        "stderr": plain(sections.get("stderr", ("", b""))[1]),
        "statuses": (int(sections.get("status", ("0", b""))[0]),),
    }
    for stream in ("stdout", "stderr"):
        if sections.get(stream, ("",))[0] == "any":
            made[stream] = ANY
    if "q.st" in sections:
        made["other"] = plain(sections["q.st"][1])
    if "tool" in sections:
        made["tool"] = sections["tool"][0]
    if made.get("tool") == "port":
        # Which snc there is has not to matter.
        made["words"] = [b"--snc=", b"p.st"]
    if made.get("tool") == "plot":
        made["named"] = ("snc", "snl")
    if "args" in sections:
        # Lines are parted first: a word may have a newline.
        made["words"] = [plain(it) for it in re.split(rb"(?<!`)\n", sections["args"][1])[:-1]]
    if "rows" not in sections:
        yield Case(name, **made)
        return
    for row in sections["rows"][1].splitlines():
        yield of_row(name, made, trace, row)


def of_row(name, made, trace, row):
    """A case for a line of a trace, which takes the place of `@` in it."""
    line, arrow, fault = row.partition(b" => ")
    number = trace[: trace.index(b"@")].count(b"\n") + 1
    made = {**made, "trace": plain(trace.replace(b"@", line))}
    if arrow:
        made.update(stderr=b"trace:%d: %s\n" % (number, fault), statuses=(6,))
    return Case(f"{name}: {line.decode()}", **made)


def forms(file):
    """Small sources, a line each: a form, which takes the place of `@` in each line in front that begins with `in:`."""
    for title, body in parted(file.read_bytes(), b"=="):
        rows = [it for it in body.splitlines() if it]
        places = [it[len(b"in: ") :] for it in rows if it.startswith(b"in: ")] or [b"@"]
        for row in (it for it in rows if not it.startswith(b"in: ")):
            source, answer = form(row)
            if answer is None:
                made = {"stderr": READ, "statuses": (0, 1)}
            else:
                made = {"stderr": plain(answer)}
            for place in places:
                name = f"{file.name}: {title}: {row.decode()[:100]}, in {place.decode()}"
                whole = plain(place.replace(b"@", source))
                yield Case(name, whole, b"0 bad line", tool="snc", **{"statuses": (1,), **made})


def form(row):
    """The source of a form, and what is to be said of it; None where the row doesn't tell."""
    source, arrow, answer = row.partition(b" => ")
    if arrow:
        return source, b"".join(message(it) for it in answer.split(b" | "))
    front, *refused = source.split(b"$")
    if not refused:
        return source, None
    token, behind = refused
    return b"%s\n%s\n%s" % (front, token, behind), b"p.st:2: error: E01 syntax error at '%s'\n" % token


def message(text):
    """The line of a message that is told in short."""
    file, line, said = re.fullmatch(rb"(?:([^ :]*):)?(\d+): (.*)", text).groups(b"p.st")
    return b"%s:%s: %s: %s\n" % (file, line, b"warning" if said.startswith(b"W") else b"error", said)


def examples(root):
    """Each trace of an example with its program and its output. `snl test` runs them (tests.py), and `scripts/definitions`."""
    for trace in sorted(root.glob("examples/**/*.trace")):
        program = program_of(trace)
        name = f"{trace.relative_to(root)}, of {program.name}"
        yield Case(name, program.read_bytes(), trace.read_bytes(), stdout=trace.with_suffix(".out").read_bytes())


def example_tables(root):
    """Each table of an example with its program."""
    for tables in sorted(root.glob("examples/**/*.tables")):
        program = tables.with_suffix(".st")
        yield of_tables(str(tables.relative_to(root)), program.read_bytes(), tables.read_bytes())
    page = root / "docs/TABLES.md"
    source, tables, *_ = re.findall(rb"^```\n(.*?)^```$", page.read_bytes(), re.DOTALL | re.MULTILINE)
    yield of_tables("docs/TABLES.md", source, tables, ANY)


def program_of(trace):
    """The program of a trace, which has its name, or the part of it before a `-`: interlock-down.trace is one of interlock.st."""
    own = trace.with_suffix(".st")
    return own if own.exists() else trace.with_name(trace.stem.split("-")[0] + ".st")


def of_tables(name, source, tables, stderr=b""):
    """A case for the tables of a program."""
    return Case(name, source, words=[b"--tables", b"p.st"], tool="snc", stdout=tables, stderr=stderr)


def not_on_its_page(root):
    """A run of an example that the README or docs/START.md calls, and whose output does not stand there in a block of its own."""
    for name in ("README.md", "docs/START.md"):
        page = (root / name).read_text()
        called = re.findall(r"^bin/(?:try )?snlrun examples/\S+\.st < (examples/\S+)\.trace$", page, re.MULTILINE)
        if not called:
            yield f"FAILED {name}: it calls no example"
        for it in called:
            if f"```\n{(root / f'{it}.out').read_text()}```\n" not in page:
                yield f"FAILED {name}: it has not what {it}.out has"


def not_from_log(root, programs):
    """A log of an example, of which `snl trace` makes another trace than the one that stands beside it, but for comments."""
    logs = sorted(root.glob("examples/*.log"))
    failures = [] if logs else ["FAILED examples: there is no log"]
    for log in logs:
        made = subprocess.run([programs["snl"], "trace", "--lead", "60", log], capture_output=True).stdout
        lines = [it for it in made.splitlines(keepends=True) if it[:1] != b"#"]
        if b"".join(lines) != log.with_suffix(".trace").read_bytes():
            failures.append(f"FAILED examples/{log.name}: snl trace makes another trace of it")
    return failures
