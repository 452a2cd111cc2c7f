"""A stack that is deep enough: definitions call each other as deep as a trace is long, and further."""
import sys
import threading

DEPTH, STACK = 20_000_000, 1 << 30


def deeply(function):
    """What a function gives that is called on such a stack; what it raises is raised here."""
    given, raised = [], []

    def call():
        try:
            given.append(function())
        except BaseException as failed:  # noqa: BLE001
            raised.append(failed)

    sys.setrecursionlimit(DEPTH)
    before = threading.stack_size(STACK)
    # A daemon: a signal may end the program before the call has ended.
    thread = threading.Thread(target=call, daemon=True)
    thread.start()
    threading.stack_size(before)
    thread.join()
    if raised:
        raise raised[0]
    return given[0]
