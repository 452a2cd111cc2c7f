"""Puts numbers on channels, as the sequencer does: `pvPut(x)` plainly, and `pvPut(x, ASYNC)` with a request for an answer."""
import ctypes
import os
import threading
import time
from collections import Counter

from channels import ca, dbr
from threads import stay
from values import unscaled

# Statuses of caerr.h.
NORMAL, DISCONNECTED = 1, 192
INTEGERS = range(-(2**31), 2**31)
# A text of Channel Access.
Text = ctypes.c_char * 40
SETTLING = 2.0


class Puts:
    """Puts on channels. What is not done comes as an event `#`, and each answer that was asked for as an event `done`."""

    def __init__(self, channels, wanted, asking):
        """`asking` are the channels whose puts ask for an answer. What was wanted tells the units and the texts of numbers."""
        self.channels, self.wanted, self.asking = channels, wanted, asking
        # Of each channel of texts: the text of a number. Where several have one number, the first of them.
        self.texts = {name: {number: text for text, number in reversed(it.items())} for name, it in wanted.texts.items()}
        self.handler = ctypes.CFUNCTYPE(None, dbr.event_handler_args)(self.on_answer)
        # How many answers are still to come, of each channel; and the channels that were ever put.
        self.waiting, self.lock, self.used = Counter(), threading.Lock(), {}

    def put(self, name, numbers):
        """Puts numbers on a channel, and does not wait. One that is not connected gets nothing."""
        chid = self.channels.chids.get(name)
        if chid is None:
            self.tell(name, "it is no channel of the program that can be put to")
        elif ca.libca.ca_state(chid) != dbr.CS_CONN:
            self.tell(name, "it is not connected")
        else:
            form, most = self.channels.form(name, chid)
            kind, data = self.as_sent(name, form, numbers[:most])
            if kind is None:
                self.failed(name, data)
                return
            self.used[name] = chid
            self.send(name, chid, kind, data)

    def as_sent(self, name, form, numbers):
        """The type and the values that are sent to a channel of this type, or nothing and why not."""
        if form == dbr.STRING or self.wanted.has_states(name):
            texts = [self.texts.get(name, {}).get(it) for it in numbers]
            if None in texts:
                word = "--units" if name in self.wanted.texts and name not in self.wanted.named else "--enum"
                return None, f"no text of {word} has the number {numbers[texts.index(None)]}"
            return dbr.STRING, (len(texts) * Text).from_buffer_copy(b"".join(os.fsencode(it).ljust(40, b"\0") for it in texts))
        kind, values = self.as_numbers(name, form, numbers)
        if kind is None:
            return None, f"{values} is beyond 32 bits"
        return kind, (len(values) * dbr.Map[kind])(*values)

    def as_numbers(self, name, form, numbers):
        """The type and the numbers that are sent; the server makes of them what the channel is. No type where nothing fits."""
        scale = self.wanted.scales.get(name, 1)
        if scale != 1 or form in (dbr.FLOAT, dbr.DOUBLE):
            return dbr.DOUBLE, [unscaled(it, scale) for it in numbers]
        return dbr.LONG if all(it in INTEGERS for it in numbers) else None, numbers

    def send(self, name, chid, kind, data):
        """Sends a put, with a request for an answer or plainly. A plain one that is refused comes as trouble of the channels."""
        if name not in self.asking:
            status = ca.libca.ca_array_put(kind, len(data), chid, data)
            if status != NORMAL:
                self.tell(name, ca.message(status))
            return
        with self.lock:
            self.waiting[chid.value] += 1
        # The channel of an answer tells its name, so nothing has to be handed on.
        status = ca.libca.ca_array_put_callback(kind, len(data), chid, data, self.handler, ctypes.py_object(self))
        if status != NORMAL:
            self.count_answer(chid.value)
            self.failed(name, ca.message(status))

    def on_answer(self, it):
        """A thread of the library brings an answer. A channel that went down ends the waiting by its `down`."""
        stay()
        name = self.channels.names[it.chid]
        if it.status != NORMAL:
            self.tell(name, ca.message(it.status))
        if self.count_answer(it.chid) and it.status != DISCONNECTED:
            self.channels.happened("done", name)

    def count_answer(self, chid):
        """Counts an answer, and tells whether it was the last one that the channel waited for."""
        with self.lock:
            self.waiting[chid] -= 1
            return not self.waiting[chid]

    def failed(self, name, cause):
        """A put of a connected channel that no server will answer: nobody has to wait for it."""
        self.tell(name, cause)
        if name in self.asking and not self.waiting[self.channels.chids[name].value]:
            self.channels.happened("done", name)

    def tell(self, name, cause):
        """Tells that a put was not done."""
        self.channels.happened("#", f"put not done: {name}: {cause}")

    def flush(self):
        """Sends what was put so far."""
        ca.flush_io()

    def settle(self):
        """Waits until servers have read all puts and refused what they refuse: they answer in order. At most two seconds."""
        end = time.monotonic() + SETTLING
        for name, chid in self.used.items():
            if ca.libca.ca_state(chid) == dbr.CS_CONN and time.monotonic() < end:
                try:
                    ca.get(chid, timeout=end - time.monotonic())
                except (ca.ChannelAccessException, ca.ChannelAccessGetFailure, ca.CASeverityException):
                    pass  # it can't be read
