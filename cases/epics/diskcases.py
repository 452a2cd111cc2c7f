"""Cases of scripts/epics by a stub, on a disk of 4 kB that is full soon. They are skipped where no such disk can be mounted."""
import os
import subprocess
from dataclasses import dataclass

from latecases import UP, echo, same_again, told, values
from stage import NotSo, events, untimed
from stubbed import Stubbed, play, put_lines

# Starts a call beside a disk of its own in the folder `disk`, which nobody else sees, and leaves copies of what it wrote there.
ALONE = "unshare", "--map-root-user", "--mount"
DISK = "mkdir -p disk && mount -t tmpfs -o size=4k tmpfs disk || exit 99; "
ON_DISK = *ALONE, "sh", "-c", f'{DISK}"$@"; status=$?; cp disk/* .; exit $status', "sh"
TO_DISK = *ALONE, "sh", "-c", f'{DISK}"$@" >disk/"$0"; status=$?; cp disk/* .; exit $status'
FULL = "No space left on device"


@dataclass
class OnDisk(Stubbed):
    """A case on such a disk."""

    def lacks(self):
        """What is missing here."""
        try:
            call = [*ALONE, "sh", "-c", "mount -t tmpfs -o size=4k tmpfs /tmp"]
            tried = subprocess.run(call, stdin=subprocess.DEVNULL, capture_output=True)
            return "" if tried.returncode == 0 else "skipped, no tmpfs can be mounted here"
        except OSError:
            return "skipped, there is no unshare here, which mounts a tmpfs"


def cases():
    """The cases."""
    for name, check in (("the trace that is kept", kept), ("standard output of live.py", shown), ("the trace of record.py", recorded)):
        yield OnDisk(f"scripts/epics, by a stub: a disk that is full: {name}", check)


def kept(stage):
    """The trace has whole lines, and the puts that were done come of it once more."""
    program = echo(stage)
    play(stage, *UP, *(line for it in values(400) for line in (it, "put OUT")))
    with open(os.devnull, "wb") as out:
        live = stage.live(program, "--put", "--keep", "disk/live.kept", out=out, front=ON_DISK)
    ended(stage, live, f"disk/live.kept: {FULL}", "kept")
    again = [it.split()[2:] for it in same_again(stage, live, program) if it.split()[1] == "put"]
    stage.same("the puts", [[it.split()[0], it.split()[-1]] for it in put_lines(stage)], again)


def shown(stage):
    """Each put that is shown was done, and few more."""
    program = echo(stage)
    play(stage, *UP, *(line for it in values(400) for line in (it, "put OUT")))
    words = "--put", "--tables", stage.tables(program), "--", stage.programs["snlrun"], program
    live = stage.start("live", *words, front=(*TO_DISK, "live.out"))
    ended(stage, live, f"standard output ({stage.folder.resolve()}/disk/live.out): {FULL}", "out")
    lines = [it.split()[1:] for it in untimed(live.text("out")) if it.startswith("put ")]
    done = [[it.split()[0], it.split()[-1]] for it in put_lines(stage)]
    if len(lines) < 10 or done[: len(lines)] != lines or len(done) > len(lines) + 5:
        raise NotSo(f"{lines} shown, {done} done\n{stage.told()}")


def recorded(stage):
    """What is there is whole, and all that came up to there."""
    play(stage, *UP[:1], *values(1000))
    record = stage.start("record", "IN", front=(*TO_DISK, "record.out"))
    ended(stage, record, f"standard output ({stage.folder.resolve()}/disk/record.out): {FULL}", "out")
    found = events(record.text("out"))
    stage.same("the lines", found[1:], values(len(found) - 1))


def ended(stage, script, text, stream):
    """Waits for the end, with status 3 and a sentence, behind more than 2 kB."""
    stage.wait("it ends", lambda: script.process.poll() is not None)
    stage.same("the status", [script.process.returncode], [3])
    told(stage, script, text)
    if script.path(stream).stat().st_size < 2000:
        raise NotSo(f"little was written\n{stage.told()}")
