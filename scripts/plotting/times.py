"""Words for times, stretches of time and numbers."""
import datetime
import math
from typing import Optional

SECOND, MINUTE, HOUR, DAY = 1000, 60_000, 3_600_000, 86_400_000
# Steps between the marks of an axis, in ms; above the last one they double.
STEPS = (
    [1, 2, 5, 10, 20, 50, 100, 200, 500]
    + [it * SECOND for it in (1, 2, 5, 10, 15, 30)]
    + [it * MINUTE for it in (1, 2, 5, 10, 15, 30)]
    + [it * HOUR for it in (1, 2, 3, 6, 12, 24)]
)
EPOCH = datetime.datetime(1970, 1, 1)


def step_of(length: int, most: int) -> int:
    """The least step of an axis of so many ms that has at most so many marks."""
    for step in STEPS:
        if length <= step * most:
            return step
    step = STEPS[-1]
    while length > step * most:
        step *= 2
    return step


class Times:
    """Times of a run as they are told: as a stretch from 0 on, or as a clock where the time at 0 is known."""

    def __init__(self, zero: Optional[datetime.datetime], zone: str = ""):
        """The clock at 0 ms, or None, and its zone where that is known."""
        self.zero, self.zone = zero, zone
        self.has_days = False

    def span(self, begin: int, end: int) -> None:
        """The times from `begin` to `end` will be told: over more than a day each has its date."""
        self.has_days = end - begin >= DAY

    def at(self, ms: int, step: int = 1) -> str:
        """A time. Where all are multiples of a step of seconds, without ms."""
        if self.zero is None:
            return stretch(ms)
        try:
            there = self.zero + datetime.timedelta(milliseconds=ms)
        except OverflowError:
            return stretch(ms)
        text = there.strftime("%m-%d %H:%M:%S" if self.has_days else "%H:%M:%S")
        part = there.microsecond // 1000
        return f"{text}.{part:03}" if part and step % SECOND else text

    def dates(self, ms: int) -> str:
        """The date of a time, for a sentence, or nothing."""
        if self.zero is None:
            return ""
        try:
            date = (self.zero + datetime.timedelta(milliseconds=ms)).date()
            return f" on {date}{f' ({self.zone})' if self.zone else ''}"
        except OverflowError:
            return ""

    def zero_ms(self) -> Optional[int]:
        """The clock at 0 in ms from 1970 on, or None."""
        return None if self.zero is None else (self.zero - EPOCH) // datetime.timedelta(milliseconds=1)

    def beside(self, ms: int) -> str:
        """What stands beside a time that is told as a clock: the ms of the trace; nothing beside another."""
        return "" if self.zero is None else f"{ms} ms"

    def marks(self, begin: int, end: int, step: int) -> range:
        """The times of an axis that are multiples of a step, by the clock where there is one."""
        return range(begin + (-begin - (self.zero_ms() or 0)) % step, end + 1, step)


def decimal(ms: int) -> str:
    """So many ms in seconds."""
    return f"{ms // SECOND}.{ms % SECOND:03}".rstrip("0").rstrip(".")


def stretch(ms: int) -> str:
    """A stretch of time, exactly."""
    if ms == 0:
        return "0"
    if ms < SECOND:
        return f"{ms} ms"
    minutes, rest = divmod(ms, MINUTE)
    hours, minutes = divmod(minutes, 60)
    days, hours = divmod(hours, 24)
    parts = [f"{days} d" if days else "", f"{hours} h" if hours else "", f"{minutes} min" if minutes else ""]
    parts.append(f"{decimal(rest)} s" if rest else "")
    return " ".join(filter(None, parts))


def short(ms: int) -> str:
    """A stretch of time in its two largest units."""
    if ms >= DAY:
        return stretch(ms // HOUR * HOUR)
    if ms >= HOUR:
        return stretch(ms // MINUTE * MINUTE)
    if ms >= MINUTE:
        return stretch(ms // SECOND * SECOND)
    return stretch(ms if ms < 10 * SECOND else ms // 100 * 100)


def about(ms: float) -> str:
    """A stretch of time of two digits."""
    unit = 10 ** max(0, int(math.log10(ms)) - 1)
    return stretch(round(ms / unit) * unit)


def number(value: int) -> str:
    """A number in few letters."""
    if abs(value) < 1_000_000:
        return str(value)
    power = len(str(abs(value))) - 1
    front = f"{value / 10**power:.3g}"
    return f"{front}e{power}"


def grouped(count: int) -> str:
    """A count with a blank in front of each three digits."""
    return f"{count:,}".replace(",", " ")


def many(count: int, one: str, more: str = "") -> str:
    """A count of things."""
    return f"{grouped(count)} {one if count == 1 else more or one + 's'}"
