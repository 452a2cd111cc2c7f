"""The names of `epics.dbr` that the scripts use."""
import ctypes

CS_CONN = 2
STRING, FLOAT, LONG, DOUBLE = 0, 2, 5, 6
Map = {LONG: ctypes.c_int32, DOUBLE: ctypes.c_double}
chid_t = ctypes.c_long


class event_handler_args(ctypes.Structure):
    """The arguments of a handler, as cadef.h has them."""

    _fields_ = [("usr", ctypes.py_object), ("chid", ctypes.c_long), ("type", ctypes.c_long), ("count", ctypes.c_long),
                ("raw_dbr", ctypes.c_void_p), ("status", ctypes.c_int)]  # fmt: skip
