"""The proof of crates over kept work: what a crate is made from, where it was made before, and its proof where it was not.

The folder of kept work serves all clones of a machine. work/ has what `rattle` keeps of a check, made/ each library and program under the
sum of what it was made from: the kit, its line of crates.txt, src, specs, proofs, and what it reads of the crates below. That is for
a library their statements, so that a changed body ends at its crate, and for what is linked all of them.
"""
import fcntl
import hashlib
import os
import re
import shutil
import subprocess
import time
from contextlib import suppress
from dataclasses import dataclass
from pathlib import Path

from proving.kit import KIT, ROOT, rtlib, statements_of, sum_of

# How many forms of a crate are kept.
FORMS = 3
TARGET = "x86_64-unknown-linux-gnu"
TOLD = re.compile(r"(note: )?\S+:\d+:\d+:|.*(: not proved|FAILED)|error")


def kept_in(folder):
    """The folder of kept work: this one, or $PROVE_KEEP, or .kept beside the clone."""
    return Path(folder or os.environ.get("PROVE_KEEP") or ROOT.parent / ".kept").absolute()


def was_made(name, keep):
    """Whether the proof of a crate is kept, in whichever form."""
    made = keep / "made" / name
    return made.is_dir() and any(it.name != "new" for it in made.iterdir())


@dataclass
class Made:
    """What came of a task: `sums` are those of the library, None where it failed; `same` where it was made before."""

    sums: "tuple | None"
    told: str
    same: bool = False
    gigabytes: float = 0.0


class Task:
    """The proof of a crate, or that of its tests. A program is linked, unless it is only to be `proved`."""

    def __init__(self, crate, tests, keep, links=True):
        self.crate, self.tests, self.keep = crate, tests, Path(keep)
        self.name = crate.name + ".tests" * tests
        self.is_library = not (tests or crate.is_program)
        self.links = links and not self.is_library
        self.file = crate.name + (".rlib" if self.is_library else "_tests" if tests else "")

    def key(self, sums):
        """The sum of all that is read: `sums` has of each library below that of its statements, and that of all."""
        root = os.path.dirname(os.path.dirname(self.crate.folder))
        words = [Path(KIT, "KIT-ID").read_text(), self.crate.words(["--jobs", "1"], tests=self.tests), self.links]
        words += [sums[it.name][self.links] for it in self.crate.below()]
        words += [(os.path.relpath(it, self.crate.folder), Path(it).read_bytes()) for it in rtlib.files_of(self.crate.folder)]
        return hashlib.sha256(repr(words).replace(root, "").encode()).hexdigest()[:24]

    def run(self, words, log):
        """Runs a command; its status, what it said, and what it used."""
        with open(log, "w", encoding="utf-8") as out:
            how = {"stdin": subprocess.DEVNULL, "stdout": out, "stderr": subprocess.STDOUT}
            ran = subprocess.Popen([*rtlib.guarded(), *words], cwd=self.crate.folder, **how)
            _, status, used = os.wait4(ran.pid, 0)
        ran.returncode = -os.WTERMSIG(status) if os.WIFSIGNALED(status) else os.WEXITSTATUS(status)
        return ran.returncode, Path(log).read_text(encoding="utf-8", errors="replace"), used

    def prove(self, to, jobs):
        """Proves it, and builds a library, or what is to be linked. The same three."""
        words = [*self.crate.words(["--jobs", str(jobs)], tests=self.tests), "--incremental", str(self.keep / "work" / self.name)]
        log = self.keep / "log" / self.name
        if not self.is_library and not self.links:
            return self.run([rtlib.RATTLE, "check", *words], log)
        ends = ["-o", str(to)] if self.is_library else ["--toolchain", f"{KIT}/toolchain", "--backend", "llvm", "-o", f"{to}.o"]
        status, said, used = self.run([rtlib.RATTLE, "build", *words, *ends], log)
        if self.links and not status:
            status, more = self.link(to, log)
            said += more
        return status, said, used

    def link(self, to, log):
        """Links a program, or tests, which run then; the status and what was said."""
        words = ["--target", TARGET, "--toolchain", f"{KIT}/toolchain", "-o", str(to), f"{to}.o"]
        status, said, _ = self.run([f"{KIT}/bin/rattle-link", *words, f"{KIT}/c/libos_c.a", f"{KIT}/c/liblibc_c.a"], f"{log}.link")
        if self.tests and not status:
            status, more, _ = self.run([rtlib.RUNNER, "--seconds", "60", str(to)], f"{log}.run")
            said += more
        os.remove(f"{to}.o")
        return status, said

    def install(self, made):
        """Puts what was made into the clone, and gives the sums of a library. `rt` and `rattle` write into no file that is there."""
        if self.links:
            to = f"{self.crate.folder}/out/{self.file}"
            shutil.copy(made / self.file, f"{to}.new")
            os.replace(f"{to}.new", to)
        if not self.is_library:
            return ()
        rlib, kept = Path(self.crate.rlib), made / self.file
        for how in (os.link, shutil.copy2):
            if sum_of(rlib) != sum_of(kept):
                shutil.rmtree(rlib.parent, ignore_errors=True)
                with suppress(OSError, shutil.Error):
                    shutil.copytree(kept, rlib, copy_function=how)
        (rlib.parent / "stamp").write_text(self.crate.stamp())
        return statements_of(rlib), sum_of(rlib)

    def make(self, jobs, sums):
        """Takes what was made before of the same, or else proves it, while no other clone is at it."""
        made = self.keep / "made" / self.name
        os.makedirs(f"{self.crate.folder}/out", exist_ok=True)
        with open(self.keep / "work" / f"{self.name}.lock", "w", encoding="utf-8") as lock:
            fcntl.flock(lock, fcntl.LOCK_EX)
            key = self.key(sums)
            if (made / key).is_dir():
                os.utime(made / key)
                return Made(self.install(made / key), "same", same=True)
            return self.make_anew(made, key, jobs, sums)

    def make_anew(self, made, key, jobs, sums):
        """Proves it, and keeps it under its key."""
        new, start = made / "new", time.time()
        shutil.rmtree(new, ignore_errors=True)
        new.mkdir(parents=True)
        status, said, used = self.prove(new / self.file, jobs)
        if status == -9:  # (killed, most likely for memory)
            status, said, used = self.prove(new / self.file, 1)
        gigabytes = used.ru_maxrss * 1024 / 1e9
        took = f"{time.time() - start:.0f} s, {used.ru_utime + used.ru_stime:.0f} of a processor, {jobs} job(s), {gigabytes:.1f} GB"
        if status:
            lines = [it for it in said.splitlines() if TOLD.match(it)][:6] or said.splitlines()[-6:]
            return Made(None, "\n    ".join([f"FAILED   {took}", *lines, f"all of it: {self.keep / 'log' / self.name}"]))
        if key != self.key(sums):
            return Made(None, f"FAILED   {took}\n    its text changed meanwhile: once more")
        older = sorted({*made.iterdir()} - {new}, key=lambda it: -it.stat().st_mtime)
        new.rename(made / key)
        for it in older[FORMS - 1 :]:
            shutil.rmtree(it, ignore_errors=True)
        loaded, checked = (re.findall(r"(?m)^crate \w+: modules loaded=(\d+) checked=(\d+)", said) or [("?", "?")])[-1]
        return Made(self.install(made / key), f"proved   {checked} modules, {loaded} taken; {took}", gigabytes=gigabytes * (jobs == 1))
