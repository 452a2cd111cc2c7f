"""Draws a channel: what the program asked, what the trace told, and where the channel was not connected."""
import math
from dataclasses import dataclass

from plotting.buckets import Span, Steps
from plotting.canvas import LEFT, LETTER, Canvas, block, digits, move, shortened, tip
from plotting.groups import Group, groups
from plotting.record import ChannelLanes, Record
from plotting.times import grouped, many
from plotting.values import Values

# The heights of a line with one value, of a bar of two, of a curve, and of the strip of puts that wait.
LINE, BAR, CURVE, STRIP = 16, 18, 44, 6
# A bar that is not so wide is thin, and so many thin ones are one block.
THIN, FLICKERING, LEAST_BLOCK = 3, 8, 4
# So many values are written, and so many puts have a mark of their own.
MOST_WRITTEN, MOST_PUTS = 400, 150
# How wide the letters of names are; a note beside one has so many letters.
WIDE_LETTER, MOST_NOTE = 7, 16
# By itself a scale is logarithmic where the most value is so many times the least.
DECADES = 1000


@dataclass
class View:
    """What a drawing takes from the call: how values are shown, and the scales that it names."""

    values: Values
    scales: dict


class Scale:
    """Where a value is in a frame."""

    def __init__(self, low: int, high: int, is_log: bool):
        """From the least to the most value."""
        self.is_log = is_log
        self.low, self.high = self.of(low), self.of(high)

    def of(self, value: int) -> float:
        """A value on the scale."""
        return math.log(value) if self.is_log else value

    def part(self, value: int) -> float:
        """How far up a value is, from 0 to 1."""
        return (self.of(value) - self.low) / ((self.high - self.low) or 1)


def is_log(lane: Steps, wish: str) -> bool:
    """Whether a lane is drawn on a logarithmic scale: by the wish of a call, else where it falls at least once, which no counter
    does, and spans three decades. Values that are not above 0 have no place there."""
    low, high = lane.range()
    if low <= 0 or wish == "linear":
        return False
    return wish == "log" or lane.falls and high >= DECADES * low


class Frame:
    """One lane of a channel, as `asked` or `told`."""

    def __init__(self, canvas: Canvas, lanes: ChannelLanes, record: Record, view: View):
        """The next rows of a canvas."""
        self.canvas, self.lanes, self.record, self.view = canvas, lanes, record, view
        self.kind, self.lane = "told", lanes.told
        self.y, self.high = canvas.y, LINE

    def short(self, value: int) -> str:
        """A value in few letters."""
        return self.view.values.short(self.lanes.name, value)

    def draw(self, kind: str, lane: Steps) -> None:
        """Draws a lane, and goes on below it."""
        self.kind, self.lane, self.y = kind, lane, self.canvas.y
        values = lane.all_values()
        is_few = len(values) <= 2
        self.high = LINE if len(values) <= 1 else BAR if is_few else CURVE
        self.canvas.ground(self.y, self.high)
        if values:
            low, high = lane.range()
            scale = Scale(low, high, not is_few and is_log(lane, self.view.scales.get(self.lanes.name, "")))
            self.notes(low, high, scale.is_log)
            (self.bars if is_few else self.curve)(scale)
        else:
            self.named("no value" if kind == "told" else "nothing put")
        if kind == "asked":
            self.puts()
        self.unconnected()
        self.canvas.y = self.y + self.high + 2

    def named(self, note: str) -> None:
        """The name of the channel, as much as there is room for beside a note, and that."""
        of = self.lanes.of
        title = f"{self.lanes.shown} ({', '.join(of.variables)}){', monitored' if of.is_monitored else ''}"
        title += f", element {self.lanes.element} of {of.count}" if of.count > 1 else ""
        shown = shortened(self.lanes.shown, int((LEFT - 16 - len(note) * LETTER) / WIDE_LETTER), keeps_end=True)
        self.canvas.name(self.y + 12, shown, "l", 6, title)
        self.canvas.note(self.y + 12, note)

    def notes(self, low: int, high: int, is_log_scale: bool) -> None:
        """The least and the most value, and how many changes there are."""
        canvas, lane = self.canvas, self.lane
        if self.high != CURVE:
            shown = self.short(low) if low == high else f"{self.short(low)} / {self.short(high)}"
            self.named(f"{self.kind} {shortened(shown, MOST_NOTE)}")
            return
        self.named(self.short(high))
        canvas.note(self.y + self.high - 2, self.short(low))
        wish = self.view.scales.get(self.lanes.name)
        scale = ", log scale" if is_log_scale else ", linear: not all above 0" if wish == "log" else ""
        what = "put" if self.kind == "asked" else "change"
        canvas.name(self.y + 25, f"{self.kind}, {many(lane.count, what)}{scale}", "c", 6)

    def place(self, scale: Scale, value: int) -> float:
        """Where a value is."""
        if self.high == LINE:
            return self.y + 8.5
        room = self.high - (6 if self.high == BAR else 12)
        return self.y + self.high - 4 - scale.part(value) * room

    def spans(self) -> list:
        """The spans of the lane that have a value."""
        return [it for it in self.lane.spans(self.record.begin(), self.record.end()) if it.value is not None]

    def is_thin(self, span: Span) -> bool:
        """Whether a span is hard to see."""
        return self.canvas.x(span.end) - self.canvas.x(span.begin) < THIN

    def bars(self, scale: Scale) -> None:
        """A lane of one value or two: a line, and a bar under the higher one."""
        line, filled, canvas = Line(self), [], self.canvas
        top = self.lane.range()[1] if self.high == BAR else None
        for group in groups(self.spans(), self.is_thin, FLICKERING):
            last = group.spans[-1]
            y = self.place(scale, last.value)
            if group.is_flicker:
                self.flicker(group)
                line.jump(canvas.x(last.end), y)
                continue
            line.to(last, y)
            if last.value == top and last.end > last.begin:
                filled.append(block(canvas.x(last.begin), canvas.x(last.end), y, self.y + self.high - 4))
            if self.high == BAR:
                self.write(last, self.y + self.high - 6)
        canvas.path(f"fill {self.kind}", filled)
        line.draw()

    def flicker(self, group: Group) -> None:
        """A block for so many changes that they are not told apart."""
        canvas = self.canvas
        begin, end, y = canvas.x(group.begin()), canvas.x(group.end()), self.y + 2
        count = many(group.count(), "put" if self.kind == "asked" else "change")
        place = f'x="{digits(begin)}" y="{digits(y)}" width="{digits(max(end - begin, LEAST_BLOCK))}" height="{self.high - 5}"'
        title = f"{self.lanes.shown}: {count} {canvas.between(group.begin(), group.end())}"
        canvas.shapes.append(f'<rect class="block {self.kind}" {place}/><rect {place} fill="url(#hatch)">{tip(title)}</rect>')
        canvas.text(begin, end, self.y + self.high - 6, count, "b w")

    def curve(self, scale: Scale) -> None:
        """A lane of many values: steps, and a band from the least to the most where they are too many."""
        line, bands, canvas = Line(self), [], self.canvas
        spans = self.spans()
        is_written = len(spans) <= MOST_WRITTEN
        for span in spans:
            y = self.place(scale, span.value)
            if span.bucket is not None:
                low, high = (self.place(scale, it) for it in (span.bucket.least, span.bucket.most))
                bands.append(block(canvas.x(span.begin), canvas.x(span.end), high - 0.6, low + 0.6))
                line.jump(canvas.x(span.end), y)
                continue
            line.to(span, y)
            if is_written:
                self.write(span, y - 3 if y - 3 > self.y + 9 else y + 11)
        canvas.path(f"band {self.kind}", bands, f"{self.lanes.shown}: from the least to the most value of each column")
        line.draw()

    def write(self, span: Span, y: float) -> None:
        """Writes the value of a span."""
        if span.end > span.begin:
            self.canvas.text(self.canvas.x(span.begin), self.canvas.x(span.end), y, self.short(span.value), "v")

    def puts(self) -> None:
        """A mark for each put, where they are not too many, and a cross for those that were refused."""
        canvas, lanes, y = self.canvas, self.lanes, self.y + self.high - 1
        for bucket in self.lane.buckets.values() if self.lane.count <= MOST_PUTS else ():
            for time, value in bucket.changes or [(bucket.last, bucket.value)]:
                shown = self.view.values.full(lanes.name, value)
                canvas.symbol(time, y, "put", f"{canvas.at(time)}: put to {lanes.shown}: {shown}")
        for heap in lanes.refused.heaps():
            canvas.symbol(heap.first, self.y + 7, "refused", f"{canvas.at(heap.first)}: {refused(heap.count)} to {lanes.shown}")

    def unconnected(self) -> None:
        """Grey where the channel is not connected."""
        canvas = self.canvas
        for span in self.lanes.link.spans(self.record.begin(), self.record.stop()):
            if span.bucket is None and (span.value == 1 or span.end == span.begin):
                continue
            box = canvas.x(span.begin), canvas.x(span.end), self.y + 1, self.high - 2
            text = "not connected" if span.bucket is None else f"{grouped(span.count)} times down and up"
            canvas.rect(box, "down", f"{self.lanes.shown}: {text} {canvas.between(span.begin, span.end)}")
            canvas.text(box[0], box[1], self.y + self.high / 2 + 4, text, "down-t")


class Line:
    """The line of a lane, from left to right."""

    def __init__(self, frame: Frame):
        """No line yet."""
        self.frame, self.steps = frame, []

    def to(self, span: Span, y: float) -> None:
        """Goes up or down where the span begins, and along it."""
        begin, end = (self.frame.canvas.x(it) for it in (span.begin, span.end))
        self.steps.append(f"V{digits(y)}" if self.steps else move(begin, y))
        self.steps.append(f"H{digits(end)}")

    def jump(self, x: float, y: float) -> None:
        """Leaves a gap up to a place."""
        self.steps.append(move(x, y))

    def draw(self) -> None:
        """Puts it onto the canvas."""
        lanes = self.frame.lanes
        self.frame.canvas.path(f"line {self.frame.kind}", self.steps, f"{self.frame.kind}: {lanes.shown}")


def refused(count: int) -> str:
    """So many refused puts."""
    return "refused put" if count == 1 else f"{grouped(count)} refused puts"


def draw(canvas: Canvas, lanes: ChannelLanes, record: Record, view: View) -> None:
    """Draws a channel: what was asked above what was told."""
    frame = Frame(canvas, lanes, record, view)
    if lanes.is_put():
        frame.draw("asked", lanes.asked)
        waiting(canvas, lanes, record)
    if lanes.told.has_values() or not lanes.is_put():
        frame.draw("told", lanes.told)


def waiting(canvas: Canvas, lanes: ChannelLanes, record: Record) -> None:
    """A strip where a put waits for its answer."""
    if not lanes.waits.has_values():
        return
    canvas.note(canvas.y + 5, "waits for done", "tiny")
    canvas.ground(canvas.y, STRIP)
    for span in lanes.waits.spans(record.begin(), record.stop()):
        if span.bucket is None and (span.value != 1 or span.end == span.begin):
            continue
        box = canvas.x(span.begin), canvas.x(span.end), canvas.y, STRIP
        text = "a put waits for its answer" if span.bucket is None else f"{grouped(span.count)} times a put waits, or is answered,"
        is_open = span.end >= record.stop()
        canvas.rect(box, "waits open" if is_open else "waits", f"{lanes.shown}: {text} {canvas.between(span.begin, span.end)}")
    canvas.y += STRIP + 2
