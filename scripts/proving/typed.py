"""Type errors of crates, with no proof: libraries below are taken as they were built, or as sources where they are new."""
import os
import re
import subprocess

from proving.kit import KIT, rtlib

WELL = re.compile(r"(?m)^only=0 proved=0\n\Z")


def words_of(crate):
    """The words of a check of a crate, with its tests, that proves nothing."""
    words = crate.words(["--jobs", "1", "--only", ""], tests=crate.has_tests())
    new = [it for it in crate.below() if not it.is_built()]
    for it in new:
        uses = ",".join(dict.fromkeys(["core", *it.of_kit, *(dep.name for dep in it.deps)]))
        words = without(words, ("--extern", f"{it.name}={it.rlib}"), ("-L", f"dependency={os.path.dirname(it.rlib)}"))
        words += ["--lib", f"{it.name}:{uses}={it.folder}/src/lib.rt"]
    # What is read as a source names the libraries that it stands on itself: those of the kit, and those below that are built.
    more = {name: f"{KIT}/rlibs/{name}.rlib" for name in ("core", *(name for it in new for name in it.of_kit))} if new else {}
    more |= {dep.name: dep.rlib for it in new for dep in it.deps if dep.is_built()}
    for name in (*crate.of_kit, *(dep.name for dep in crate.deps)):
        more.pop(name, None)
    return words + [it for name in sorted(more) for it in ("--extern", f"{name}={more[name]}")]


def without(words, *pairs):
    """Words without each of some pairs of words that stand behind each other."""
    cut = {at + k for at, it in enumerate(zip(words, words[1:])) if it in pairs for k in (0, 1)}
    return [it for at, it in enumerate(words) if at not in cut]


def errors(crate):
    """What a check with no proof says against a crate; nothing where its types are right."""
    how = {"cwd": crate.folder, "stdin": subprocess.DEVNULL, "stdout": subprocess.PIPE, "stderr": subprocess.STDOUT}
    ran = subprocess.run([*rtlib.guarded(), rtlib.RATTLE, "check", *words_of(crate)], errors="replace", check=False, **how)
    return "" if ran.returncode == 0 and WELL.search(ran.stdout) else ran.stdout or f"rattle ended with {ran.returncode}"
