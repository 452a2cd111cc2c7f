"""Draws a state set: a row for each state, with a bar where the state set is in it."""
from collections import Counter, defaultdict

from plotting.buckets import Span
from plotting.canvas import LEFT, LETTER, WIDTH, Canvas, block, digits, move, tip
from plotting.groups import Group, groups
from plotting.record import Record, SetLanes
from plotting.spots import FLICKER, LOOP, Spot
from plotting.times import about, grouped, many, short, stretch

COLOURS = ("#9ad0f5", "#f7c56b", "#8fd3b6", "#f3ee9a", "#e3b2cf", "#c9c9c9", "#b9b3ee", "#f2a583")
ROW = 16
# A bar that is not so wide is thin; so many thin ones are one block, and a block is so wide at least.
THIN, FLICKERING, LEAST_BLOCK = 3, 6, 6
# So many changes in a block are told on top; a block that is not so wide has its count beside it.
TOLD_ON_TOP, WITH_TEXT = 50, 110
# By this part a loop at a steady rate may be off its usual time, and such a part of the picture it takes at least.
UNEVEN, LONG_LOOP = 0.25, 4
# A bar below this width has a mark that does not get lost.
HAIR = 2


class SetDrawing:
    """One state set on a canvas."""

    def __init__(self, canvas: Canvas, lanes: SetLanes, record: Record):
        """Its rows begin below its name."""
        self.canvas, self.lanes, self.record = canvas, lanes, record
        self.top = canvas.y + ROW
        self.stop = record.end() if record.over is None else record.over
        # Lines between the rows, and by state thin bars that are seen when one zooms.
        self.joints: list = []
        self.near: dict = defaultdict(list)
        self.previous = None
        # How far the counts beside narrow blocks go.
        self.alarmed = 0.0

    def draw(self) -> None:
        """Draws all of it."""
        canvas, lanes = self.canvas, self.lanes
        canvas.name(canvas.y + 12, lanes.name, "ss", 2)
        own = f", {grouped(lanes.own.count)} to itself" if lanes.own.count else ""
        canvas.note(canvas.y + 12, many(max(0, lanes.steps.count - self.is_started()), "change") + own)
        self.rows()
        self.outside()
        spans = [it for it in lanes.steps.spans(self.record.begin(), self.stop) if it.value is not None]
        for group in groups(spans, self.is_thin, FLICKERING):
            if group.is_flicker:
                self.flicker(group)
            else:
                self.bar(group.spans[0])
        for number, steps in self.near.items():
            canvas.path("near", steps, fill=COLOURS[number % len(COLOURS)])
        canvas.path("joint", self.joints)
        canvas.y = self.top + ROW * len(lanes.states)
        self.own()
        canvas.y += 6

    def is_started(self) -> int:
        """1 where the start is drawn, which is no transition."""
        return int(self.record.began is not None and self.record.part.has(self.record.began))

    def is_thin(self, span: Span) -> bool:
        """Whether a span is hard to see."""
        return self.canvas.x(span.end) - self.canvas.x(span.begin) < THIN and span.end < self.record.stop()

    def row(self, number: int) -> float:
        """Where the row of a state begins."""
        return self.top + number * ROW

    def rows(self) -> None:
        """The names and the grounds of all states."""
        never, word = set(self.lanes.never()), "never" if self.record.is_whole() else "not here"
        for number, name in enumerate(self.lanes.states):
            text, kind = (f"{name}  ({word})", "st n") if name in never else (name, "st")
            self.canvas.name(self.row(number) + 12, text, kind, LEFT - 6)
            self.canvas.ground(self.row(number), ROW, f"z{number % 2}")

    def outside(self) -> None:
        """Where the program has not begun, and where it has ended."""
        record = self.record
        begun = record.began if record.began is not None else record.stop()
        pieces = [(record.begin(), begun, "not begun")]
        if record.over is not None:
            pieces.append((record.over, record.stop(), "stopped" if record.fault else "ended"))
        canvas, high = self.canvas, ROW * len(self.lanes.states)
        for begin, end, text in pieces:
            begin, end = max(begin, record.begin()), min(end, record.stop())
            if end > begin:
                box = canvas.x(begin), canvas.x(end), self.top, high
                canvas.rect(box, "down", f"{text} {canvas.between(begin, end)}")
                canvas.text(box[0] + 4, box[1], self.top + high / 2 + 4, text, "down-t")

    def bar(self, span: Span) -> None:
        """The bar of a state, with a line to the row of the one before."""
        canvas, name = self.canvas, self.lanes.states[span.value]
        begin, end, y = canvas.x(span.begin), canvas.x(span.end), self.row(span.value) + 1
        lasts = min(span.end, self.record.stop()) - span.begin
        if not lasts and not span.count:
            return
        cut = self.cut(span)
        title = f"{self.lanes.name} {name} {canvas.between(span.begin, span.end)} {cut or stretch(lasts)}"
        canvas.rect((begin, end, y, ROW - 2), "bar", title, COLOURS[span.value % len(COLOURS)])
        if end - begin < HAIR:
            canvas.symbol(span.begin, y + ROW / 2 - 1, "pass", title)
        else:
            timed = f"{name} {cut or short(lasts)}"
            seen = canvas.x(min(span.end, self.record.stop()))
            canvas.text(begin, seen, y + 11, timed if (len(timed) + 1) * LETTER < seen - begin else name, "b")
        self.join(begin, span.value)

    def cut(self, span: Span) -> str:
        """What is said of a bar of which only a part is drawn, so that nothing tells how long it lasts."""
        record = self.record
        if record.part.low is not None and span.begin == record.begin() and not span.count:
            return "(since before)"
        return "(goes on)" if record.goes_on and span.end >= record.stop() else ""

    def join(self, x: float, number: int) -> None:
        """Draws the line from the row of the state before."""
        if self.previous not in (None, number):
            low, high = sorted((self.previous, number))
            self.joints.append(f"{move(x, self.row(low) + 2)}V{digits(self.row(high + 1) - 2)}")
        self.previous = number

    def flicker(self, group: Group) -> None:
        """A block for so many changes that they are not told apart."""
        canvas, counts = self.canvas, Counter()
        for span in group.spans:
            counts += Counter(span.bucket.counts) if span.bucket else Counter({span.value: span.count})
            if span.bucket is None:
                y = self.row(span.value)
                self.near[span.value].append(block(canvas.x(span.begin), canvas.x(span.end), y + 3, y + ROW - 3))
        begin, end, total = canvas.x(group.begin()), canvas.x(group.end()), group.count()
        is_exact = all(it.bucket is None for it in group.spans)
        for number in sorted(counts):
            self.hatched(number, counts[number], group, "far" if is_exact else "much")
        if end - begin < WITH_TEXT:
            self.alarm(begin, max(end, begin + LEAST_BLOCK), many(total, "change"))
        self.tell(group, total)
        self.previous = group.spans[-1].value

    def alarm(self, begin: float, end: float, text: str) -> None:
        """The count of a block that is too narrow for it, on the side where there is more room, where no other one is."""
        # Twice the width of the text, so that it is there in a narrow window as well.
        wide, is_right = 2 * (len(text) + 2) * LETTER, begin > WIDTH - end
        low = begin - wide if is_right else end
        if low < self.alarmed:
            return
        self.alarmed = low + wide
        self.canvas.text(low, low + wide, self.top - 3, text, "alarm", is_right)

    def hatched(self, number: int, count: int, group: Group, kind: str) -> None:
        """The part of a block in the row of one state."""
        canvas, y = self.canvas, self.row(number) + 1
        begin, end = canvas.x(group.begin()), canvas.x(group.end())
        fill, high = COLOURS[number % len(COLOURS)], ROW - 2
        entered = f"entered {many(count, 'time')}"
        title = f"{self.lanes.name} {self.lanes.states[number]}: {entered} {canvas.between(group.begin(), group.end())}"
        if end - begin < LEAST_BLOCK:
            # It takes hardly any time, and has a mark that keeps its width however far one zooms.
            place = f'x="-3" y="0" width="{LEAST_BLOCK}" height="{high}"'
            inner = f'<rect class="flick" {place} fill="{fill}"/><rect {place} fill="url(#still)"/>'
            canvas.mark(group.begin(), y, inner, title)
        if group.end() == group.begin():
            return
        place = f'x="{digits(begin)}" y="{digits(y)}" width="{digits(end - begin)}" height="{high}"'
        inner = f'<rect class="flick" {place} fill="{fill}"/><rect {place} fill="url(#hatch)">{tip(title)}</rect>'
        canvas.shapes.append(f'<g class="{kind}">{inner}</g>')
        canvas.text(begin, end, y + 11, f"{self.lanes.states[number]} {entered}", "b w")

    def tell(self, group: Group, total: int) -> None:
        """Tells on top of a block with many changes."""
        lasts = group.end() - group.begin()
        if total < TOLD_ON_TOP or not lasts:
            return
        pace = f", about every {about(lasts / total)}" if lasts >= total else ""
        times = f"{grouped(total)} times {self.canvas.between(group.begin(), group.end())}"
        text = f"{self.lanes.name} changes its state {times}{pace}"
        is_long = lasts * LONG_LOOP >= self.record.stop() - self.record.begin()
        self.record.spots.add(Spot(group.begin(), LOOP if is_long and is_steady(group) else FLICKER, text, total))

    def own(self) -> None:
        """Strokes below the rows: transitions from a state to itself."""
        canvas, lane = self.canvas, self.lanes.own
        if not lane.count:
            return
        steps = [f"{move(canvas.x((it.first + it.last) // 2), canvas.y + 1)}v4" for it in lane.heaps()]
        canvas.path("own", steps, f"transitions of {self.lanes.name} from a state to itself: {grouped(lane.count)}")
        canvas.name(canvas.y + 6, "to itself", "tiny", LEFT - 6)
        canvas.y += 7


def is_steady(group: Group) -> bool:
    """Whether a block is a loop at a steady rate: each state takes about as long each time, or each column has as many changes."""
    measured = defaultdict(list)
    for span in group.spans[1:-1]:
        length = span.end - span.begin
        if span.bucket is None:
            measured[span.value].append(length)
        elif length:
            measured["rate"].append(span.count / length)
    return bool(measured) and all(is_even(it) for it in measured.values())


def is_even(values: list) -> bool:
    """Whether nine of ten values are about the one in the middle."""
    middle = sorted(values)[len(values) // 2]
    near = sum(abs(it - middle) <= UNEVEN * middle + 1 for it in values)
    return near >= 0.9 * len(values)
