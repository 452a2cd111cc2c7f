"""The names of `epics.ca` that the scripts use, over the play."""
import ctypes
import json
import os
import struct
import threading
from collections import Counter

from . import dbr

TYPES = ["string", "short", "float", "enum", "char", "long", "double"]
# How the library hands values on, of each type.
CODES = ctypes.c_char * 40, ctypes.c_int16, ctypes.c_float, ctypes.c_uint16, ctypes.c_uint8, ctypes.c_int32, ctypes.c_double
NORMAL, PUT_FAIL, PUT = 1, 160, 1
# What is added to a type whose values come with a stamp, and the bytes in front of them then.
WITH_STAMP, FRONTS = 14, (12, 14, 12, 14, 15, 12, 16)
MESSAGES = {PUT_FAIL: "Channel write request failed"}


class ChannelAccessException(Exception):
    """No channel, or no library."""


class ChannelAccessGetFailure(Exception):
    """A channel could not be read."""


class CASeverityException(Exception):
    """The library refused a call."""


class Channel:
    """A channel, its number, and who wants to hear of it."""

    def __init__(self, name, chid, callback):
        """A channel that is not connected yet."""
        self.name, self.chid, self.callback, self.on_value = name, chid, callback, None
        self.kind, self.count, self.is_up, self.refuses, self.holds = 0, 1, False, False, False
        # The seconds of the stamp of its values, and the texts of an enumeration.
        self.stamp, self.states = 0, []


class Library:
    """The functions of libca itself. All share one condition, which tells the play of each put and subscription."""

    def __init__(self):
        """A library without channels."""
        self.channels, self.condition, self.puts, self.held, self.trouble = {}, threading.Condition(), Counter(), [], None

    def ca_add_exception_event(self, handler, _):
        """Who wants to hear of trouble."""
        self.trouble = handler

    def ca_field_type(self, chid):
        """The type of a channel."""
        return self.channels[chid.value].kind

    def ca_state(self, chid):
        """Whether it is connected; 3 is a closed one."""
        return dbr.CS_CONN if self.channels[chid.value].is_up else 3

    def ca_element_count(self, chid):
        """The most values that it can have."""
        return self.channels[chid.value].count

    def ca_array_put(self, kind, _count, chid, data):
        """A plain put: a refusal comes as trouble."""
        channel = self.channels[chid.value]
        note("plain", channel, kind, data)
        if channel.refuses:
            self.trouble(self.trouble.argtypes[0](None, chid.value, kind, len(data), None, PUT_FAIL, PUT, b"", b"", 0))
        self.count(channel)
        return NORMAL

    def ca_array_put_callback(self, kind, _count, chid, data, handler, user):
        """A put that asks for an answer, which comes at once or at a line `answer`."""
        channel = self.channels[chid.value]
        note("asks", channel, kind, data)
        status = PUT_FAIL if channel.refuses else NORMAL

        def answer():
            """Answers the put."""
            handler(dbr.event_handler_args(user, chid.value, kind, len(data), None, status))

        if channel.holds:
            self.held.append(answer)
        else:
            answer()
        self.count(channel)
        return NORMAL

    def ca_create_subscription(self, kind, _count, chid, _mask, handler, _user, _number):
        """Somebody wants the values of a channel, perhaps with their stamps."""
        plain = kind % WITH_STAMP

        def on_value(values):
            """Hands values on as the bytes that they are."""
            values = [it.encode() for it in values] if plain == 0 else values
            data = (len(values) * CODES[plain])()
            for at, it in enumerate(values):
                if plain == 0:
                    data[at].value = it
                else:
                    data[at] = it
            stamp = self.channels[chid.value].stamp
            front = struct.pack("HHII", 0, 0, stamp, 0).ljust(FRONTS[plain], b"\0") if kind >= WITH_STAMP else b""
            handed = ctypes.create_string_buffer(front + bytes(data))
            handler(handler.argtypes[0](None, chid.value, kind, len(values), ctypes.addressof(handed), NORMAL))

        with self.condition:
            self.channels[chid.value].on_value = on_value
            self.condition.notify_all()
        return NORMAL

    def ca_array_get_callback(self, _kind, _count, chid, handler, _user):
        """Somebody wants the texts of an enumeration, which come in front of all values."""
        states = self.channels[chid.value].states
        data = struct.pack("hhh", 0, 0, len(states)) + b"".join(it.encode().ljust(26, b"\0") for it in states)
        handed = ctypes.create_string_buffer(data, 6 + 16 * 26 + 2)
        handler(handler.argtypes[0](None, chid.value, 24, 1, ctypes.addressof(handed), NORMAL))
        return NORMAL

    def count(self, channel):
        """Lets the play see that a put came."""
        with self.condition:
            self.puts[channel.name] += 1
            self.condition.notify_all()

    def play(self):
        """Does what the lines of the play say."""
        taken = Counter()
        names = {it.name: it for it in self.channels.values()}
        with open(os.environ["EPICS_PLAY"]) as file:
            lines = file.read().splitlines()
        for line in lines:
            word, name, rest = (line.split(" ", 2) + ["", ""])[:3]
            if word == "put":
                taken[name] += 1
                with self.condition:
                    self.condition.wait_for(lambda name=name: self.puts[name] >= taken[name])
            elif word == "note":
                with open(os.environ["EPICS_PUTS"], "a") as file:
                    print(name, file=file)
            elif word == "answer":
                while self.held:
                    self.held.pop(0)()
            else:
                self.act(names[name], word, rest)

    def act(self, channel, word, rest):
        """Does what a line says of one channel."""
        if word == "val":
            with self.condition:
                self.condition.wait_for(lambda: channel.on_value)
            value = json.loads(rest)
            channel.on_value(value if isinstance(value, list) else [value])
        elif word in ("up", "down"):
            channel.is_up = word == "up"
            if channel.is_up:
                kind, *count = rest.split()
                channel.kind, channel.count = TYPES.index(kind), int(count[0]) if count else 1
            channel.callback(pvname=channel.name, chid=channel.chid, conn=channel.is_up)
        elif word == "states":
            channel.states = json.loads(rest)
        elif word == "stamp":
            channel.stamp = int(rest)
        elif word == "refuse":
            channel.refuses = True
        elif word == "hold":
            channel.holds = True
        else:
            raise ValueError(word)


def note(how, channel, kind, data):
    """Writes a put down."""
    with open(os.environ["EPICS_PUTS"], "a") as file:
        print(channel.name, how, TYPES[kind], *(it.value.decode() if kind == 0 else it for it in data), file=file)


libca = Library()
playing = threading.Thread(target=libca.play, daemon=True)


def initialize_libca():
    """There is nothing to load."""


def use_initial_context():
    """There is one context."""


def message(status):
    """The text of a status."""
    return MESSAGES[status]


def get(chid, timeout):
    """Nobody looks at the value: all puts have been read by then."""


def create_channel(name, callback):
    """A channel by its name."""
    chid = len(libca.channels) + 1
    libca.channels[chid] = Channel(name, chid, callback)
    return dbr.chid_t(chid)


def flush_io():
    """The first call, behind the last channel, begins the play."""
    if not playing.ident:
        playing.start()
