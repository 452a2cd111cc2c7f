"""A running `snlrun`: it is fed with the lines of a trace, and its own lines are handed on."""
import os
import subprocess
import threading

# What is read at once.
MOST = 65_536


class Run:
    """A running `snlrun`. Its lines come to `heard`, which a thread of its own calls; behind the last ones that calls `ended`."""

    def __init__(self, call):
        """Starts it, in a session of its own: so Ctrl-C does not reach it, and it ends by the end of its trace."""
        how = {"stdin": subprocess.PIPE, "stdout": subprocess.PIPE, "start_new_session": True}
        self.process = subprocess.Popen(call, **how)

    def listen(self, heard, ended, begun):
        """Begins to read its lines, in a thread that calls `begun` first."""
        self.thread = threading.Thread(target=self.read, args=(heard, ended, begun))
        self.thread.start()

    def read(self, heard, ended, begun):
        """Hands on lines as soon as they are there. The last one may lack its end, where the run was killed."""
        rest = b""
        begun()
        try:
            while data := os.read(self.process.stdout.fileno(), MOST):
                *lines, rest = (rest + data).split(b"\n")
                heard([line + b"\n" for line in lines])
            heard([rest] if rest else [])
        finally:
            self.process.stdout.close()
            ended()

    def feed(self, data):
        """Gives it lines of the trace at once. One that has ended reads nothing any more."""
        try:
            while data:
                data = data[os.write(self.process.stdin.fileno(), data) :]
        except BrokenPipeError:
            pass

    def finish(self):
        """Ends its trace, and waits for it. The status, 128 and more by a signal."""
        self.process.stdin.close()
        self.thread.join()
        status = self.process.wait()
        return status if status >= 0 else 128 - status
