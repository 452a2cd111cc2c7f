"""What Python keeps of the threads of the library, which Python did not begin.

Python makes a state for such a thread at each call of a method, and takes it away behind it, which costs as much as all else that a
value takes. So it stays from the first call on, until the thread is gone.
"""
import ctypes
import os
import threading

API = ctypes.pythonapi
API.PyThreadState_Get.restype = ctypes.c_void_p
for it in (API.PyThreadState_Clear, API.PyThreadState_Delete):
    it.argtypes, it.restype = [ctypes.c_void_p], None
# What only the thread itself sees; and the states that stay, by the numbers that the system gives to threads, with a lock.
OWN, STATES, LOCK = threading.local(), {}, threading.Lock()


def stay():
    """Keeps the state of this thread, if it is one of the library."""
    if hasattr(OWN, "is_known"):
        return
    OWN.is_known = True
    if threading.get_ident() not in {it.ident for it in threading.enumerate()}:
        number = threading.get_native_id()
        with LOCK:
            forget(STATES.pop(number, None))  # that of a thread that is gone, and had this number
            API.PyGILState_Ensure()
            STATES[number] = API.PyThreadState_Get()


def sweep():
    """Takes away what stayed of threads that are gone, where the system tells which there are."""
    with LOCK:
        try:
            there = set(map(int, os.listdir("/proc/self/task")))
        except OSError:
            return
        for number in set(STATES) - there:
            forget(STATES.pop(number))


def forget(state):
    """Takes a state away, if there is one."""
    if state is not None:
        API.PyThreadState_Clear(state)
        API.PyThreadState_Delete(state)
