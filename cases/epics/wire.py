"""Channel Access as bytes: messages, and the values of a channel in each of its types. For the server of the cases."""
import struct

VERSION, EVENT_ADD, EVENT_CANCEL, WRITE, SEARCH, EVENTS_OFF, EVENTS_ON = 0, 1, 2, 4, 6, 8, 9
ERROR, CLEAR, READ_NOTIFY, CONFIRM, CREATE, WRITE_NOTIFY, CLIENT_NAME = 11, 12, 15, 17, 18, 19, 20
HOST_NAME, RIGHTS, ECHO, REGISTER, CREATE_FAIL, DISCONNECTED = 21, 22, 23, 24, 26, 27
# Statuses of caerr.h.
NORMAL, BAD_TYPE, PUT_FAIL, NO_WRITE = 1, 114, 160, 376
MINOR = 13  # of the protocol's version
TYPES = ("string", "short", "float", "enum", "char", "long", "double")
CODES = ("40s", "h", "f", "H", "B", "i", "d")
# Bytes between severity or stamp and the value, of each type.
AFTER_STATUS = (0, 0, 0, 0, 1, 0, 4)
AFTER_STAMP = (0, 2, 0, 2, 3, 0, 4)
LAST_WITH_STAMP, WITH_TEXTS = 20, 24  # TIME_DOUBLE, GR_ENUM
# An enumeration has so many texts at most, of so many bytes.
MOST_TEXTS, LENGTH_OF_TEXT = 16, 26
MASKS = {"h": 0xFFFF, "H": 0xFFFF, "B": 0xFF, "i": 0xFFFFFFFF}


def message(command, payload=b"", kind=0, count=0, one=0, two=0):
    """A message; `one` and `two` are its two parameters. Large ones have a longer head."""
    payload += bytes(-len(payload) % 8)
    if len(payload) > 0xFFF0 or count > 0xFFFF:
        return struct.pack(">HHHHIIII", command, 0xFFFF, kind, 0, one, two, len(payload), count) + payload
    return struct.pack(">HHHHII", command, len(payload), kind, count, one, two) + payload


def messages(data):
    """The whole messages at the front of the bytes, and how many bytes they take."""
    at, found = 0, []
    while len(data) - at >= 16:
        command, size, kind, count, one, two = struct.unpack_from(">HHHHII", data, at)
        head = 16
        if size == 0xFFFF:
            head = 24
            if len(data) - at < head:
                break
            size, count = struct.unpack_from(">II", data, at + 16)
        if len(data) - at < head + size:
            break
        found.append((command, kind, count, one, two, bytes(data[at + head : at + head + size])))
        at += head + size
    return found, at


def name_in(payload):
    """The name at the front of a payload."""
    return payload.split(b"\0")[0].decode(errors="replace")


def values_in(kind, count, payload):
    """The values of a put, as numbers or texts."""
    code = CODES[kind % 7]
    if code == "40s":
        return [name_in(payload[at * 40 : at * 40 + 40]) for at in range(count)]
    return list(struct.unpack_from(f">{count}{code}", payload.ljust(8, b"\0")))


class Channel:
    """A channel: its type, its most values, the values that it has, and what it does with a put."""

    def __init__(self, name, kind, values, count=1, is_read_only=False):
        """A channel that is there and takes puts, unless it can only be read."""
        self.name, self.kind, self.values, self.count = name, TYPES.index(kind), list(values), count
        self.access = 1 if is_read_only else 3
        # Whether searches for it are answered, how many of the next puts are refused, whether the answers of puts are held back.
        self.is_there, self.refusals, self.holds = True, 0, False
        # The seconds of its time stamp, from the begin of 1990 on, and its texts, where it is an enumeration.
        self.stamp, self.states = 0, []

    def read(self, values):
        """Values of a put as those of the channel: whole numbers where it has no fraction, cut off towards 0."""
        if self.kind == 0:
            return [str(it) for it in values]
        return [float(it) if self.kind in (2, 6) else int(float(it)) for it in values]

    def body(self, kind, count):
        """The bytes of the values as a type, plain, with status or with stamp, and how many values these are."""
        base, form = kind % 7, kind // 7
        values = self.values[:count] if count else self.values
        bytes_ = b""
        if form == 1:
            bytes_ = bytes(4 + AFTER_STATUS[base])
        elif form == 2:
            bytes_ = struct.pack(">HHII", 0, 0, self.stamp, 0) + bytes(AFTER_STAMP[base])
        elif kind == WITH_TEXTS:
            texts = [it.encode().ljust(LENGTH_OF_TEXT, b"\0") for it in self.states]
            bytes_ = struct.pack(">HHH", 0, 0, len(texts)) + b"".join(texts).ljust(MOST_TEXTS * LENGTH_OF_TEXT, b"\0")
        for value in values:
            bytes_ += self.packed(CODES[base], value)
        # A client that asks for so many values gets so many, and no values take the bytes of one.
        missing = max(count - len(values), 0 if values else 1)
        return bytes_ + bytes(missing * struct.calcsize(f">{CODES[base]}")), count or len(values)

    @staticmethod
    def packed(code, value):
        """One value in a code of `struct`. A number that has no room loses its upper bits."""
        if code == "40s":
            return struct.pack("40s", str(value).encode()[:39])
        if code in "fd":
            return struct.pack(f">{code}", float(value))
        return (int(value) & MASKS[code]).to_bytes(struct.calcsize(f">{code}"), "big")
