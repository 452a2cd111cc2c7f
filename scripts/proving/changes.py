"""What changed in the files of this repository since a revision of git: in which crates, and which cases that can reach."""
import re
import subprocess
import sys

from proving.kit import ROOT

REACH = ROOT / "cases/reach.txt"


def git(*words):
    """What git says; the call ends with status 2 where it fails."""
    ran = subprocess.run(["git", "-C", ROOT, *words], capture_output=True, text=True, check=False)
    if ran.returncode:
        print(f"git {' '.join(words)}: {ran.stderr.strip()}", file=sys.stderr)
        sys.exit(2)
    return ran.stdout


def files_since(revision):
    """The files that are other than at the revision, those that git does not know too."""
    known = git("diff", "--name-only", "-z", revision, "--")
    return sorted({*known.split("\0"), *git("ls-files", "--others", "--exclude-standard", "-z").split("\0")} - {""})


def lines_changed(revision):
    """The crates whose line in crates.txt is another one than at the revision."""
    before, now = (dict(re.findall(r"(?m)^(\w+)(.*)$", it)) for it in (git("show", f"{revision}:crates.txt"), (ROOT / "crates.txt").read_text()))
    return {it for it in now if now[it] != before.get(it)}


def crates_of(files, revision):
    """The crates in which something was changed that a proof rests on, or that a test or a program is made from."""
    named = re.findall(r"(?m)^crates/(\w+)/(?:src|specs|proofs)/", "\n".join(files))
    return {*named} | (lines_changed(revision) if "crates.txt" in files else set())


def reach():
    """The table: crates and fronts of paths, each with its words."""
    rows = [it.partition(":")[::2] for it in REACH.read_text().splitlines() if it.strip() and it[0] != "#"]
    return {name: words.split() for names, words in rows for name in names.split()}


def words_of_file(file, table):
    """The words of the cases that a change of a file outside the crates can reach: of a file of cases those in it."""
    if re.fullmatch(r"cases/[^/]*\.(cases|forms)", file):
        return [file.partition("/")[2]]
    fronts = [it for it in table if not re.fullmatch(r"\w+", it) and file.startswith(it)]
    return table[max(fronts, key=len)] if fronts else ["all"]


def words_of(crates, files):
    """The words of the cases that changed crates and files can reach; none where there is no such case, and `all` for all."""
    table, found = reach(), []
    for it in crates:
        found += table.get(it, ["all"])
    for it in files:
        if not it.startswith("crates/"):
            found += words_of_file(it, table)
    kept = [it for it in dict.fromkeys(found) if it != "none"]
    return ["all"] if "all" in kept else kept
