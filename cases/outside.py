"""Cases of what goes out: bin/install, bin/package, the manual pages, the completion, and the text that the preprocessor makes.

Those that need a program which a machine may lack name it in `needs`; `run` then tells them as skipped, and counts them nowhere.
"""
import os
import re
import subprocess
import sys
import tempfile
from dataclasses import dataclass
from pathlib import Path
from typing import Callable

# A program of which something is left by hand, and what is said of it.
UNPORTED = b"program p\noption +s;\nint x;\nss s { state w { when (time(x)) {} exit } }\n"
NOTED = b"-:4: by hand: function 'time': time(x)\nNEW:4: error: E13 'BY_HAND' is not declared\n"
# Sections that a page has no use for: its own, by name.
LACKING = {("snl", "ARGUMENTS")}
# For each call: a package takes seconds, and many of them beside other work.
SECONDS = 300


@dataclass
class Outside:
    name: str
    # Gets a new folder and the built programs, and gives what is wrong, or nothing.
    check: Callable
    needs: str = ""
    tool: str = "snlrun"

    def failure(self, programs):
        with tempfile.TemporaryDirectory(prefix="snlrun-") as folder:
            built = Path(folder, "built programs")
            os.mkdir(built)
            for name in ("snc", "snlrun", "snl"):
                os.symlink(programs[name], built / name)
            try:
                wrong = self.check(Path(folder), built)
            except (OSError, subprocess.SubprocessError) as error:
                wrong = str(error)
        return f"FAILED {self.name}\n  {wrong}" if wrong else None


def cases(root):
    yield Outside("bin/install: what it puts runs", lambda *it: installed(root, *it))
    yield Outside("bin/package: what is in the package runs, and a second one is the same", lambda *it: packaged(root, *it), "dpkg-deb")
    yield Outside("bin/install: PROVED tells how the programs were built", lambda *it: proved(root, *it), "sha256sum")
    yield Outside("bin/install: man shows the manual pages", lambda *it: manuals(root, *it), "man")
    yield Outside("bin/install: each word, option, argument and status has its place in a manual page", lambda *it: placed(root, *it))
    yield Outside("docs/tools: each option of a word of snl stands on its page, and no other one", lambda *it: told_of(root, *it), tool="snl")
    yield Outside("bin/install: bash completes each word and option", lambda *it: completed(root, *it))
    for text in sorted(root.glob("examples/**/*.i")):
        name = f"{text.relative_to(root)}: cpp makes it of the program"
        yield Outside(name, lambda *_, text=text: preprocessed(text), "cpp")


def called(*words, **how):
    ran = subprocess.run(words, stdout=subprocess.PIPE, stderr=subprocess.PIPE, timeout=SECONDS, **how)
    if ran.returncode or ran.stderr:
        raise subprocess.SubprocessError(f"{words[0]}: status {ran.returncode}, {ran.stderr.decode(errors='replace')}")
    return ran.stdout.decode()


def installed(root, folder, built):
    called(root / "bin/install", "--from", built, folder / "a prefix")
    return not_whole(root, folder / "a prefix")


def packaged(root, folder, built):
    package = called(root / "bin/package", "--from", built, folder).strip()
    called("dpkg-deb", "-x", package, folder / "clean")
    version = (root / "VERSION").read_text().strip()
    if called("dpkg-deb", "-f", package, "Version").strip() != version:
        return f"the version of the package is not {version}"
    (folder / "again").mkdir()
    again = called(root / "bin/package", "--from", built, folder / "again").strip()
    if Path(package).read_bytes() != Path(again).read_bytes():
        return "a second package has other bytes"
    return not_whole(root, folder / "clean/usr", manual=".1.gz", left=("LICENSE",))


def not_whole(root, prefix, manual=".1", left=()):
    """What an installation lacks: an example is run there, and each page and manual page has to be there."""
    pages = prefix / "share/doc/snlrun"
    with open(pages / "examples/light.trace", "rb") as trace:
        said = called(prefix / "bin/snlrun", pages / "examples/light.st", stdin=trace)
    if said != (root / "examples/light.out").read_text():
        return "the example prints something else"
    called(prefix / "bin/snlc", pages / "examples/light.st")
    called(prefix / "lib/snlrun/bin/snc", pages / "examples/light.st")
    for script in ("snl-record", "snl-live"):
        called(sys.executable, prefix / "bin" / script, "--help")
    # The script finds the program that is installed with it.
    ported = subprocess.run([prefix / "bin/snl-port", "-"], input=UNPORTED, capture_output=True, timeout=SECONDS)
    if (ported.returncode, ported.stderr) != (1, NOTED):
        return f"snl-port says {ported}"
    trace = (root / "examples/light.trace").read_bytes()
    drawn = subprocess.run([prefix / "bin/snl-plot", pages / "examples/light.st"], input=trace, capture_output=True, timeout=SECONDS)
    if drawn.returncode or b"<h1>Run of light</h1>" not in drawn.stdout:
        return f"snl-plot says {drawn.stderr}"
    front = [root / it for it in ("README.md", "CHANGELOG.md", "LICENSE", "NOTICE", "VERSION") if it not in left]
    wanted = [pages / it.relative_to(root) for it in [*front, *root.glob("docs/**/*.*")]]
    wanted += [prefix / f"share/man/man1/{it}{manual}" for it in helps(prefix)]
    return ", ".join(f"{it} is not there" for it in wanted if not it.exists())


def helps(prefix):
    """Each command with its call, and each word of snl as its page is named, with its call."""
    commands = ("snlc", "snlrun", "snl", "snl-plot", "snl-port", "snl-dry-run", "snl-record", "snl-live")
    words = re.findall(r"^  (\w+) +[A-Z]", called(prefix / "bin/snl", "--help"), re.MULTILINE)
    found = {it: [prefix / "bin" / it] for it in commands}
    return {**found, **{f"snl-{it}": [prefix / "bin/snl", it] for it in words}}


def named(call):
    """The options, with what stands behind each, and the words of snl in the text of a call's `--help`."""
    text = called(*call, "--help", env={**os.environ, "COLUMNS": "200"})
    rows = re.findall(r"^ {2,6}(-\S.*?)(?:  +\S.*)?$", text, re.MULTILINE) + re.findall(r"^  ([a-z]+) +[A-Z]", text, re.MULTILINE)
    return {it for row in rows for it in row.split(", ")}


def listed(call):
    """The arguments in the text of a call's `--help`, and its exit statuses."""
    text = called(*call, "--help", env={**os.environ, "COLUMNS": "200"})
    block = re.search(r"^(?:Arguments|positional arguments):\n((?: .*\n)+)", text, re.MULTILINE)
    arguments = re.findall(r"^  (\S+)", block[1], re.MULTILINE) if block else []
    status = re.search(r"^Status: ((?:.+\n)+)", text, re.MULTILINE)
    return {*arguments, *(re.findall(r"\b(\d) ", status[1]) if status else [])}


def told_of(root, folder, built):
    """What the page of a word lacks of its options, but for those of all words, or has and is none."""
    shared = (root / "docs/tools/README.md").read_text()
    words = re.findall(r"^  (\w+) +[A-Z]", called(built / "snl", "--help"), re.MULTILINE)
    pages = {it.stem for it in root.glob("docs/tools/*.md")} - {"README", "many", "requirements"}
    if {*words} != pages:
        return f"--help has the words {words}, and there are pages of {sorted(pages)}"
    for word in words:
        page = (root / f"docs/tools/{word}.md").read_text()
        # `snl same --search` and `snl search --join` have helps of their own.
        own = {"same": [("--search",)], "search": [("--join",)]}.get(word, [])
        helped = "".join(called(built / "snl", word, *more, "--help") for more in ((), *own))
        # A NAME.never of `snl test` has options of `snl search`.
        lent = called(built / "snl", "search", "--help") if word == "test" else ""
        options, other, written = ({*re.findall(r"(?<![\w-])--[a-z][a-z-]*", it)} for it in (helped, lent, page))
        lacking = [it for it in options - written if not re.search(rf"{it}\b", shared)]
        if not options or lacking or written - options - other:
            return f"{word}.md lacks {sorted(lacking)}, and has {sorted(written - options - other)}"
    return ""


def proved(root, folder, built):
    (folder / "gate").write_text("more\n12 passed, 0 failed\n")
    called(root / "bin/install", "--from", built, "--gate", folder / "gate", folder / "prefix")
    called("sha256sum", "--strict", "--quiet", "-c", "share/doc/snlrun/PROVED", cwd=folder / "prefix")
    said = dict(it[2:].split(": ", 1) for it in (folder / "prefix/share/doc/snlrun/PROVED").read_text().split("\n")[1:6])
    if list(said) != ["commit", "kit", "logic", "proofs", "gate"]:
        return f"PROVED tells {list(said)}"
    return "" if (said["proofs"], said["gate"]) == ("not proved", "12 passed, 0 failed") else f"PROVED tells {said}"


def manuals(root, folder, built):
    called(root / "bin/install", "--from", built, folder / "prefix")
    for page in sorted((folder / "prefix/share/man/man1").iterdir()):
        shown = called("man", "--warnings", "-l", page, env={**os.environ, "MANWIDTH": "100", "LC_ALL": "C.UTF-8"})
        for title in ("NAME", "SYNOPSIS", "DESCRIPTION", "OPTIONS", "EXIT STATUS", "EXAMPLES", "SEE ALSO"):
            if f"\n{title}\n" not in shown and (page.stem, title) not in LACKING:
                return f"{page.name} has no {title}"
    return ""


def placed(root, folder, built):
    prefix = folder / "prefix"
    called(root / "bin/install", "--from", built, prefix)
    for name, call in helps(prefix).items():
        page = (prefix / f"share/man/man1/{name}.1").read_text().replace("\\-", "-")
        rows = re.findall(r"^\.TP\n(?:\\fB(.*)\\fR|\.B (.*))$", page, re.MULTILINE)
        items = {it for row in rows for it in "".join(row).split(", ")}
        found = named(call) | listed(call)
        if not named(call) or found - items:
            return f"{name}.1 has no place for {', '.join(sorted(found - items)) or 'anything'}"
    return ""


def completed(root, folder, built):
    prefix = folder / "prefix"
    called(root / "bin/install", "--from", built, prefix)
    for name, call in helps(prefix).items():
        command, *words = (call[0].name, *call[1:])
        file = prefix / "share/bash-completion/completions" / command
        front = "-" if all(it[0] == "-" for it in named(call)) else ""
        script = f'. "{file}"; COMP_WORDS=({command} {" ".join(words)} "{front}"); COMP_CWORD={len(words) + 1}; _{command.replace("-", "_")}; '
        offered = called("bash", "-c", script + 'printf "%s\\n" "${COMPREPLY[@]}"').split()
        wanted = {it.split()[0] for it in named(call)}
        if wanted - set(offered):
            return f"{name}: bash does not complete {', '.join(sorted(wanted - set(offered)))}"
    return ""


def preprocessed(text):
    """Whether cpp makes the same tokens of a program as are kept; versions of it lay them out in their own ways."""
    made = called("cpp", "-P", text.with_suffix(".st"))
    return "" if made.split() == text.read_text().split() else "cpp makes something else of it"
