#!/usr/bin/env python3
"""Writes the manual pages of an installation: a page a program, a page a word of snl, and a page a script.

    bin/parts/manual.py PREFIX

The programs stand in PREFIX/bin, the scripts in PREFIX/lib/snlrun, and the pages go to PREFIX/share/man/man1. They are made of what
`--help` writes, of the doc comments of the scripts, and of what docs/CALL.md says of calls. Their date is that of SOURCE_DATE_EPOCH,
in seconds, or today.
"""
import os
import re
import sys
import textwrap
import time
from pathlib import Path

sys.dont_write_bytecode = True
import helptext  # noqa: E402

ROOT = Path(__file__).resolve().parent.parent.parent
# The commands that are scripts: from where each comes, and calls of it.
SCRIPTS = {
    "snl-plot": ("plot", "snl-plot interlock.st < interlock.trace > run.html"),
    "snl-port": ("port", "snl-port --sketch pump.i > pump.st"),
    "snl-dry-run": ("dry-run", "snl-dry-run --keep monday pump.st monday.log > monday.html"),
    "snl-record": ("epics/record.py", "snl-record --program light.st > light.trace"),
    "snl-live": ("epics/live.py", "snl-live --keep light.trace -- snlrun light.st"),
}
# What is called by another name where it is installed.
RENAMED = {
    r"(scripts/epics/)?\brecord\.py": "snl-record",
    r"(scripts/epics/)?\blive\.py": "snl-live",
    r"\bbin/snc\b": "snlc",
    r"\bbin/(snlrun|snl)\b": r"\1",
    r"`plot --help`": "`snl-plot --help`",
}
NAMED = """The name in PATH is snlc, since the compiler of the EPICS sequencer is called snc. Its messages about a call begin with `snc:` all the
same, and so does its own help. The name snc stands in lib/snlrun/bin, for those who want it in front in PATH."""
UNPROVED = "Nothing is proved of this command: it is a script."


def plain(text):
    """A text in which nothing is a command of troff."""
    for letter, written in ("\\", "\\e"), ("-", "\\-"), ("±", "\\(+-"), ("'", "\\(aq"), ("^", "\\(ha"), ("~", "\\(ti"), ("`", "\\(ga"):
        text = text.replace(letter, written)
    return guarded(text.split("\n"))


def guarded(lines):
    """Lines none of which begins a command of troff."""
    return "\n".join(f"\\&{line}" if line[:1] in (".", "'") else line for line in lines)


def marked(text):
    """A paragraph, with what stands in backquotes in bold."""
    parts = re.split(r"`([^`]+)`", " ".join(text.split()))
    text = "".join(f"\\fB{plain(it)}\\fR" if at % 2 else plain(it) for at, it in enumerate(parts))
    return guarded(textwrap.wrap(text, 79, break_long_words=False, break_on_hyphens=False))


def paragraphs(texts):
    """Paragraphs; those that are indented are calls, and keep their lines."""
    return "\n.PP\n".join(block(it) if it.startswith("    ") else marked(it) for it in texts)


def block(text):
    """Lines as they are, set in."""
    lines = "\n".join(line.removeprefix("    ") for line in text.split("\n"))
    return f".RS 4\n.nf\n{plain(lines)}\n.fi\n.RE"


def rows(items):
    return "\n".join(f".TP\n\\fB{plain(written)}\\fR\n{marked(meant) or plain(written)}" for written, meant in items)


def page(name, purpose, sections):
    """A manual page of sections that have something in them."""
    seconds = int(os.environ.get("SOURCE_DATE_EPOCH") or time.time())
    date = time.strftime("%Y-%m-%d", time.gmtime(seconds))
    version = (ROOT / "VERSION").read_text().strip()
    head = f'.TH {name.upper()} 1 {date} "snlrun {version}" "State Notation Language"\n.nh\n.SH NAME\n{plain(name)} \\- {plain(purpose)}\n'
    return head + "".join(f".SH {title}\n{text}\n" for title, text in sections if text)


def ends(others):
    """The sections at the end of each page."""
    yield "SEE ALSO", ", ".join(f"\\fB{plain(it)}\\fR(1)" for it in others)
    yield "FILES", marked("`share/doc/snlrun` has the language, the traces, all messages and words as pages, and examples; `PROVED` there tells "
                          "how the programs were built.")  # fmt: skip
    yield "COPYRIGHT", marked("The snc authors. The licence is Apache-2.0: `share/doc/snlrun` has its text, and NOTICE.")


def synopsis(text):
    """A call, with no break within brackets."""
    parts = re.split(r"(\[[^\]]*\][.]*)", " ".join(text.split()))
    lines = [plain(it.strip()).replace(" ", "\\ ") if at % 2 else plain(it.strip()) for at, it in enumerate(parts)]
    return "\n".join([".ad l", *(it for it in lines if it), ".ad"])


def page_of_program(name, purpose, told, call, others):
    """The page of a program, or of a word of snl: of its help, and for a program of what docs/CALL.md says of calls."""
    renamed = (lambda text: re.sub(r"^snc\b", "snlc", text)) if name == "snlc" else str
    words = "\n".join(f".TP\n\\fB{plain(word)}\\fR\n{marked(meant)}: \\fBsnl\\-{word}\\fR(1)" for word, meant in told.lists.get("words", ()))
    sections = [
        ("SYNOPSIS", synopsis(renamed(told.said["usage"]))),
        ("DESCRIPTION", paragraphs(told.about + told.more)),
        ("WORDS", words),
        ("ARGUMENTS", rows(told.lists.get("arguments", ()))),
        ("OPTIONS", rows(told.lists.get("options", ()))),
        ("CALLS", paragraphs(call)),
        ("NAME OF THE PROGRAM", marked(NAMED) if name == "snlc" else ""),
        ("EXIT STATUS", "\n".join(f".TP\n.B {status}\n{marked(meant)}" for status, meant in told.statuses())),
        ("EXAMPLES", block(renamed(told.said["example"]))),
    ]
    return page(name, purpose, [*sections, *ends(others)])


def page_of_script(name, script, told, others):
    """The page of a script: of its doc comment, and of the words in its help."""
    _, example = SCRIPTS[name]
    texts = [script.purpose, *script.paragraphs, UNPROVED]
    call = re.sub(r"^( *)\S+", rf"\1{name}", script.call, count=1)
    sections = [
        ("SYNOPSIS", synopsis(call)),
        ("DESCRIPTION", paragraphs(changed(it) for it in texts)),
        ("ARGUMENTS", rows(told.lists.get("arguments", ()))),
        ("OPTIONS", rows(told.lists.get("options", ()))),
        ("EXIT STATUS", marked(changed(script.status))),
        ("EXAMPLES", block(example)),
    ]
    purpose = script.purpose.removesuffix(".").split(":")[0].split(", with")[0]
    return page(name, purpose[0].lower() + purpose[1:], [*sections, *ends(others)])


def changed(text):
    """A text with the names that things have where they are installed."""
    for name, installed in RENAMED.items():
        text = re.sub(name, installed, text)
    return text


def programs():
    """Of each program the name that it is installed under, and what it is for."""
    lines = [it for it in (ROOT / "bin/programs").read_text().splitlines() if it[:1] != "#"]
    return {installed: purpose for _, _, installed, purpose in (it.split(maxsplit=3) for it in lines)}


def calls():
    """What docs/CALL.md says of the words of a call, without its blocks."""
    text = (ROOT / "docs/CALL.md").read_text().split("\n## The words\n")[1].split("\n## ")[0]
    text = re.sub(r"(?ms)^```.*?^```\n", "", text).replace("`snc +", "`snlc +")
    return re.split(r"\n{2,}", text.strip())


def pages(prefix):
    """The name of each page, with its text."""
    known, found = programs(), {}
    told = {name: helptext.read(helptext.help_of(prefix / "bin" / name)) for name in known}
    snl = told["snl"]
    snl.said["example"] = "snl waits light.st < light.trace"
    snl.lists["options"] = [["--help", "Print this help; behind a word, that of the word"], ["--version", "Print the version and the licence"]]
    words = {f"snl-{word}": (word, meant) for word, meant in snl.lists["words"]}
    every = [*known, *words, *SCRIPTS]
    for name in known:
        found[name] = page_of_program(name, known[name], told[name], calls(), [it for it in every if it != name])
    for name, (word, meant) in words.items():
        of_word = helptext.read(helptext.help_of(prefix / "bin/snl", word))
        found[name] = page_of_program(name, meant[0].lower() + meant[1:], of_word, [], ["snl", "snlrun", "snlc"])
    for name, (path, _) in SCRIPTS.items():
        of_script = helptext.read(helptext.help_of(prefix / "lib/snlrun" / path))
        found[name] = page_of_script(name, helptext.script(prefix / "lib/snlrun" / path), of_script, ["snl", "snlrun", "snlc"])
    return found


def main(prefix):
    folder = Path(prefix, "share/man/man1")
    folder.mkdir(parents=True, exist_ok=True)
    for name, text in pages(Path(prefix)).items():
        (folder / f"{name}.1").write_text(text, encoding="utf-8")


if __name__ == "__main__":
    main(*sys.argv[1:])
