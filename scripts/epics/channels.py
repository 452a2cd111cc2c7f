"""Channels of a control system, by pyepics: what happens on them goes into a queue as events.

    apt-get install -y --no-install-recommends python3-pyepics

The types are told by their names in Channel Access, as `double` and `enum`.
"""
import ctypes
import os
import struct
from dataclasses import dataclass

from threads import stay, sweep

try:
    from epics import ca, dbr
except ImportError:
    ca = dbr = None

MISSING = "pyepics is not installed: apt-get install -y --no-install-recommends python3-pyepics"
TYPES = ("string", "short", "float", "enum", "char", "long", "double")
# The bytes of a value of each type as the library hands it on. Of bytes numbers of 32 bits are asked for: only the server knows
# whether 200 is -56.
CODES = {"string": "40s", "short": "h", "float": "f", "enum": "H", "char": "i", "long": "i", "double": "d"}
# CA_OP_PUT and the masks of cadef.h, and a status of caerr.h.
PUT, VALUE_AND_ALARM, NORMAL = 1, 5, 1
# What is added to the number of a type where values come with their status and stamp, and how many bytes stand in front of them then.
WITH_STAMP = 14
FRONTS = {"string": 12, "short": 14, "float": 12, "enum": 14, "char": 12, "long": 12, "double": 16}
# A value of an enumeration with its texts: behind their number so many have room, each so many bytes.
TEXTS_OF_ENUM, FRONT_OF_TEXTS, MOST_TEXTS, LENGTH_OF_TEXT = 24, 6, 16, 26
# Stamps count seconds from the begin of 1990 on; here they count from 1970 on.
EPOCH = 631_152_000
# The form of a channel that is not connected: no type, no values.
NO_FORM = -1, 0


class Missing(Exception):
    """The library of Channel Access is not there."""


class Trouble(ctypes.Structure):
    """`struct exception_handler_args` of cadef.h, which pyepics does not have."""

    _fields_ = [("usr", ctypes.c_void_p), ("chid", ctypes.c_void_p), ("type", ctypes.c_long), ("count", ctypes.c_long),
                ("addr", ctypes.c_void_p), ("stat", ctypes.c_long), ("op", ctypes.c_long), ("ctx", ctypes.c_char_p),
                ("file", ctypes.c_char_p), ("line", ctypes.c_uint)]


class Came(ctypes.Structure):
    """`struct event_handler_args` of cadef.h, with addresses as such. That of pyepics takes them for objects of Python."""

    _fields_ = [("usr", ctypes.c_void_p), ("chid", ctypes.c_void_p), ("type", ctypes.c_long), ("count", ctypes.c_long),
                ("values", ctypes.c_void_p), ("status", ctypes.c_int)]


@dataclass(slots=True)
class Takes:
    """How the values of a channel are taken."""

    name: str
    kind: str
    code: str
    # The most that are taken; None stands for all.
    most: "int | None"
    # The channel that has its time stamps, if there is one, and the bytes in front of values then.
    stamp: str = ""
    front: int = 0

    def size(self):
        """The bytes of a value."""
        return struct.calcsize(self.code)


class Channels:
    """Channels by their names. Threads of the library call the methods `on_..`, which only hand on what they are told: so what
    happens gets its time right where the library tells it."""

    def __init__(self, wanted, happened):
        """Begins to look for the channels. `Missing` where there is no pyepics, or it finds no library."""
        if ca is None:
            raise Missing(MISSING)
        self.wanted, self.happened, self.chids, self.names, self.subscriptions = wanted, happened, {}, {}, {}
        # By the name of a channel that is connected: the number of its type, and how many values it has at most.
        self.forms = {}
        # By the number of a channel that is subscribed to: how its values are taken. By its name: the channel of its time stamps.
        self.takes, self.stamps = {}, {record: name for name, record in wanted.stamps.items()}
        try:
            ca.initialize_libca()
        except ca.ChannelAccessException as fault:
            raise Missing(str(fault)) from fault
        self.handler = ctypes.CFUNCTYPE(None, Trouble)(self.on_trouble)
        self.value_handler = ctypes.CFUNCTYPE(None, Came)(self.on_values)
        self.texts_handler = ctypes.CFUNCTYPE(None, Came)(self.on_texts)
        ca.libca.ca_add_exception_event(self.handler, None)
        for name in wanted.records():
            self.chids[name] = chid = ca.create_channel(name, callback=self.on_connection)
            self.names[chid.value] = name
        ca.flush_io()

    def on_connection(self, pvname=None, chid=None, conn=None, **_):
        """A channel connected, or is not connected any more."""
        self.forms.pop(pvname, None)
        sweep()
        kind, most = form_of(dbr.chid_t(chid)) if conn else NO_FORM
        # One that is gone again already has no type.
        if kind >= 0:
            self.forms[pvname] = kind, most
        for name in (pvname, self.stamps.get(pvname)):
            if name in self.wanted.channels:
                self.happened("up" if conn else "down", name, kind=TYPES[kind] if 0 <= kind < len(TYPES) else "")

    def form(self, name, chid):
        """The number of the type of a channel that is connected, and how many values it has at most. The library is asked once."""
        return self.forms.get(name) or form_of(chid)

    def on_trouble(self, it):
        """The library tells what went wrong: a put that a server refuses, say, or a server that is gone."""
        name = self.names.get(it.chid) or (it.ctx or b"").decode(errors="replace")
        self.happened("#", f"{'put not done: ' if it.op == PUT else ''}{name}: {ca.message(it.stat)}")

    def subscribe(self, name, kind):
        """Asks for all values of a channel that is up for the first time; the library asks again after each reconnection.

        The thread of the loop calls it for the line `up`, so values come behind that. Of a channel that is only put to no value
        is asked for.
        """
        record = self.wanted.stamps.get(name, name)
        if record in self.subscriptions or name in self.wanted.unread or not kind:
            return
        chid, asked = self.chids[record], "long" if kind == "char" else kind
        takes = Takes(record, kind, CODES[kind], None)
        if record not in self.wanted.channels or record in self.wanted.unread:
            takes.most = 0
        elif self.wanted.channels[record] is not None:
            takes.most = self.wanted.channels[record]
        if record in self.stamps:
            takes.stamp, takes.front = self.stamps[record], FRONTS[asked]
        if kind == "enum" and record in self.wanted.texts and record not in self.wanted.named:
            # The answer comes in front of the first value, since a server answers in order.
            ca.libca.ca_array_get_callback(TEXTS_OF_ENUM, ctypes.c_ulong(1), chid, self.texts_handler, None)
        self.takes[chid.value] = takes
        self.subscriptions[record] = number = ctypes.c_void_p()
        whole, mask = ctypes.c_ulong(0), ctypes.c_long(VALUE_AND_ALARM)
        form = TYPES.index(asked) + (WITH_STAMP if takes.stamp else 0)
        status = ca.libca.ca_create_subscription(form, whole, chid, mask, self.value_handler, None, ctypes.byref(number))
        if status != NORMAL:
            self.happened("#", f"{record}: {ca.message(status)}")
        ca.flush_io()

    def on_texts(self, it):
        """The texts of an enumeration came."""
        stay()
        if it.status == NORMAL:
            data = ctypes.string_at(it.values, FRONT_OF_TEXTS + MOST_TEXTS * LENGTH_OF_TEXT)
            (count,) = struct.unpack_from("h", data, 4)
            begins = range(FRONT_OF_TEXTS, FRONT_OF_TEXTS + LENGTH_OF_TEXT * max(0, min(count, MOST_TEXTS)), LENGTH_OF_TEXT)
            self.wanted.states[self.names[it.chid]] = [os.fsdecode(data[at : at + LENGTH_OF_TEXT].split(b"\0")[0]) for at in begins]

    def on_values(self, it):
        """Values came. A status that is not normal says that they can't be read now."""
        stay()
        if it.status == NORMAL:
            takes = self.takes[it.chid]
            count = it.count if takes.most is None else min(it.count, takes.most)
            data = ctypes.string_at(it.values, takes.front + count * takes.size()) if takes.front or count else b""
            if takes.stamp:
                self.happened("val", takes.stamp, [struct.unpack_from("I", data, 4)[0] + EPOCH], "long")
            if takes.most != 0:
                self.happened("val", takes.name, values_in(data[takes.front :], takes.kind, count), takes.kind)

    def flush(self):
        """Sends what may still wait in a buffer of the library."""
        ca.flush_io()


def form_of(chid):
    """What the library says of the form of a channel."""
    return ca.libca.ca_field_type(chid), ca.libca.ca_element_count(chid)


def values_in(data, kind, count):
    """The values that bytes of the library are."""
    if kind == "string":
        return [os.fsdecode(data[at : at + 40].split(b"\0")[0]) for at in range(0, 40 * count, 40)]
    return list(struct.unpack(f"{count}{CODES[kind]}", data))
