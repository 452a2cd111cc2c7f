#!/usr/bin/env python3
"""Sources and a trace that are cut short, or spoilt in one byte: each answer is stored in spoilt/answers.

    cases/spoilt.py SNC SNLRUN     works the stored answers out anew, by two other programs that are called as these are

The stored answers come from another implementation, and never from the programs that are tried here. Each line of the file is a
range of cases with one answer: `FIRST LAST STATUS STDOUT STDERR`, both texts as JSON strings of their bytes.
"""
import json
import sys
from concurrent.futures import ThreadPoolExecutor
from pathlib import Path

from case import Case

HERE = Path(__file__).resolve().parent / "spoilt"
SOURCES = ("first", "queue", "elements")
SPOILT_BY = (0x00, 0x80, ord("("))


def groups():
    """A name, and its cases in order."""
    for name in SOURCES:
        source = (HERE / f"{name}.st").read_bytes()
        yield f"{name}.st cut", [checked(source[:count]) for count in range(len(source))]
        for byte in SPOILT_BY:
            spoilt = [source[:at] + bytes([byte]) + source[at + 1 :] for at in range(len(source))]
            yield f"{name}.st {byte:02X}", [checked(it) for it in spoilt]
    source, trace = ((HERE / f"elements.{kind}").read_bytes() for kind in ("st", "trace"))
    yield "elements.trace cut", [Case("", source, trace[:count]) for count in range(len(trace))]


def checked(source):
    return Case("", source, tool="snc")


def cases():
    """All of them, with the stored answers."""
    stored = answers((HERE / "answers").read_text())
    for group, wanted in groups():
        for at, case in enumerate(wanted):
            case.name = f"spoilt: {group} at {at}"
            status, case.stdout, case.stderr = stored[group][at]
            case.statuses = (status,)
            yield case


def answers(text):
    """By group, the answer of each case."""
    found = {}
    for line in text.splitlines():
        if line.startswith("== "):
            group = found.setdefault(line[3:], [])
            continue
        first, last, status, texts = line.split(" ", 3)
        stdout, stderr = json.loads(texts)
        assert int(first) == len(group), line
        group += [(int(status), stdout.encode("latin-1"), stderr.encode("latin-1"))] * (int(last) - int(first) + 1)
    return found


def stored(programs):
    """The file anew, by programs that are no builds of this repository."""
    with ThreadPoolExecutor() as pool:
        for group, wanted in groups():
            yield f"== {group}"
            found = list(pool.map(lambda case: case.run(programs[case.tool]), wanted))
            first = 0
            for at in range(1, len(found) + 1):
                if at == len(found) or found[at] != found[first]:
                    status, *texts = found[first]
                    yield f"{first} {at - 1} {status} {json.dumps([it.decode('latin-1') for it in texts])}"
                    first = at


if __name__ == "__main__":
    if len(sys.argv) != 3:
        sys.exit(__doc__)
    text = "\n".join(stored({"snc": sys.argv[1], "snlrun": sys.argv[2]})) + "\n"
    (HERE / "answers").write_text(text)
