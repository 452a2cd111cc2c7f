"""Traces in files: opened so that none is lost, begun by a comment that says whence they are, and whole to the last line."""
import errno
import fcntl
import hashlib
import os
import re
import shlex
import stat
import sys
import time
from datetime import datetime, timezone
from pathlib import Path

# The bytes of a comment that every reader of traces takes.
ROOM = 30_000
# What stands in a file of units as it is.
QUOTED = re.compile(r"[^A-Za-z0-9_.+?/()\[\]-]+")
VERSION = Path(__file__).resolve().parent.parent.parent / "VERSION"


class Kept:
    """A file with a trace, open for writing."""

    def __init__(self, descriptor, name, is_new=False):
        """`is_new` says that it was not there before."""
        self.descriptor, self.name, self.is_new, self.fault = descriptor, name, is_new, None

    def write(self, data):
        """Writes whole lines at once. Gives those that are in the file: all, but where it fails, which `fault` has then."""
        done = 0
        try:
            while done < len(data) and not self.fault:
                done += os.write(self.descriptor, data[done:])
        except OSError as fault:
            self.fault = fault
        if done == len(data):
            return data
        whole = data.rfind(b"\n", 0, done) + 1
        self.cut(done - whole)
        return data[:whole]

    def cut(self, count):
        """Takes so many bytes off the end, which are part of a line. Not of a file in which others write behind us."""
        try:
            place = os.lseek(self.descriptor, 0, os.SEEK_CUR)
            if count and place == os.fstat(self.descriptor).st_size:
                os.ftruncate(self.descriptor, place - count)
        except OSError:
            pass  # it is no file

    def empty(self):
        """Takes away what an older trace has left."""
        if is_file(self.descriptor):
            os.ftruncate(self.descriptor, 0)

    def discard(self):
        """Nothing came of it: a file that was not there before is gone again."""
        if self.is_new:
            os.unlink(self.name)


def is_file(descriptor):
    """Whether it is a plain file, and no pipe or device."""
    return stat.S_ISREG(os.fstat(descriptor).st_mode)


def opened(path, is_forced):
    """Opens the file of a trace and locks it. `OSError` where it is there already and `is_forced` does not say that it may be
    written over, and where another call has it."""
    is_new = True
    try:
        descriptor = os.open(path, os.O_WRONLY | os.O_CREAT | os.O_EXCL, 0o666)
    except FileExistsError:
        descriptor, is_new = os.open(path, os.O_WRONLY), False
    if is_file(descriptor):
        try:
            fcntl.flock(descriptor, fcntl.LOCK_EX | fcntl.LOCK_NB)
        except BlockingIOError:
            os.close(descriptor)
            raise OSError(errno.EWOULDBLOCK, "another call keeps its trace there", path) from None
        if not is_new and not is_forced:
            os.close(descriptor)
            raise OSError(errno.EEXIST, "the file is there already: --force writes over it", path)
    return Kept(descriptor, path, is_new)


def dated(pattern):
    """The path of a pattern, with the signs of `strftime` replaced by the local time."""
    path = time.strftime(pattern)
    if not path or "\0" in path:
        raise ValueError(f"--keep {pattern}: that names no file")
    return path


def head(script, wanted, source, zero):
    """The first comments of a trace. One has the script, its version, the program, the date with its zone, the words of the call, and
    the SHA-256 of a source, of which the name and the bytes are given; another the date at 0 ms, given in ms since 1970; and those
    behind it what the numbers stand for, as lines of a file of units."""
    version = VERSION.read_text().strip() if VERSION.exists() else "of no version"
    program = f", program {wanted.program}" if wanted.program else ""
    sum_ = f", SHA-256 of {source[0]} {hashlib.sha256(source[1]).hexdigest()}" if source else ""
    text = f"# {script} {version}{program}, {time.strftime('%Y-%m-%dT%H:%M:%S%z')}{sum_}, called with {shlex.join(sys.argv[1:])}"
    date = datetime.fromtimestamp(zero / 1000, timezone.utc).astimezone().isoformat(timespec="milliseconds")
    first = "".join(it if " " <= it <= "~" else it.encode("unicode_escape").decode() for it in text)[:ROOM]
    return [first, f"# zero {date}", *(f"# {it}" for it in told(wanted) if len(it) + 2 <= ROOM)]


def told(wanted):
    """What the numbers of channels stand for, as lines of a file of units."""
    scales = [f"scale {name} {it}" for name, it in wanted.scales.items() if it != 1]
    texts = [f"enum {name} {','.join(f'{quoted(text)}:{number}' for text, number in it.items())}" for name, it in wanted.texts.items() if it]
    return scales + texts + [f"text {name} {'*'.join(map(quoted, it.pieces))}" for name, it in wanted.patterns.items()]


def quoted(text):
    """A text as it stands in a file of units."""
    return QUOTED.sub(lambda it: "".join(f"\\x{byte:02x}" for byte in os.fsencode(it[0])), text)
