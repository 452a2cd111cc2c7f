"""The lanes of a run as lines of text: for grep, for who cannot see the picture, and for tests. docs/PLOT.md tells the lines."""
from typing import Iterator, Optional

from plotting.buckets import Span, Steps, Ticks
from plotting.instants import Deed, Row
from plotting.letters import plain, word
from plotting.record import ChannelLanes, Record, SetLanes
from plotting.summary import ending, summary
from plotting.times import Times


def lines(name: str, record: Record, times: Times, note: str) -> Iterator[str]:
    """All lines of a picture."""
    begin, end = record.begin(), record.stop()
    yield f"run {name}"
    yield f"end {plain(ending(record, times)[0])}"
    yield from [f"note {plain(note)}"] if note else []
    yield f"part {begin} {end} {record.clock.width}"
    for it in summary(record, times):
        yield f"sum {plain(it)}"
    for spot in record.spots.told():
        yield f"box {spot.time} {spot.kind} {plain(spot.text())}"
    for heap in record.prints.heaps():
        yield f"says {heap.first} {heap.count} {plain(heap.what)}"
    for lanes in record.sets:
        yield from of_set(lanes, record) if lanes.is_drawn else ()
    for lanes in record.channels:
        yield from of_channel(lanes, record) if lanes.is_drawn else ()
    yield from of_ticks("lines", record.lines)
    yield from of_ticks("wakes", record.wakes)
    for row in record.table.rows():
        yield from of_row(row, record.table.left_out)


def of_set(lanes: SetLanes, record: Record) -> Iterator[str]:
    """The bars of a state set. What comes after its end, or before its start, has none."""
    for span in lanes.steps.spans(record.begin(), record.stop() if record.over is None else record.over):
        yield from of_state(lanes, span)
    yield from of_ticks(f"self {lanes.name}", lanes.own)


def of_state(lanes: SetLanes, span: Span) -> Iterator[str]:
    """One bar, or one stretch with too many."""
    if span.bucket is not None:
        counts = [f"{name}={span.bucket.counts[it]}" for it, name in enumerate(lanes.states) if span.bucket.counts[it]]
        yield f"many {lanes.name} {span.begin} {span.end} {span.count} {' '.join(counts)}"
    elif span.value is not None and (span.end > span.begin or span.count):
        yield f"bar {lanes.name} {lanes.states[span.value]} {span.begin} {span.end} {span.count}"


def of_channel(lanes: ChannelLanes, record: Record) -> Iterator[str]:
    """What a channel was asked and what it told, where it was not connected, and puts that wait or were refused."""
    name = word(lanes.shown)
    yield from of_values("asked", name, lanes.asked, record)
    yield from of_values("told", name, lanes.told, record)
    for span in lanes.link.spans(record.begin(), record.stop()):
        yield from of_flag("down", name, span, is_meant=span.value != 1)
    for span in lanes.waits.spans(record.begin(), record.stop()):
        yield from of_flag("waits", name, span, is_meant=span.value == 1)
    yield from of_ticks(f"refused {name}", lanes.refused)


def of_values(kind: str, name: str, lane: Steps, record: Record) -> Iterator[str]:
    """The values of a lane, or of a stretch with too many the least and the most."""
    for span in lane.spans(record.begin(), record.stop()):
        if span.bucket is not None:
            yield f"band {kind} {name} {span.begin} {span.end} {span.bucket.least} {span.bucket.most} {span.count}"
        elif span.value is not None and (span.end > span.begin or span.count):
            yield f"{kind} {name} {span.begin} {span.end} {span.value} {span.count}"


def of_flag(kind: str, name: str, span: Span, is_meant: bool) -> Iterator[str]:
    """A stretch in which something is so, or changes too often to tell."""
    if span.bucket is not None:
        yield f"band {kind} {name} {span.begin} {span.end} {span.count}"
    elif is_meant and span.end > span.begin:
        yield f"{kind} {name} {span.begin} {span.end}"


def of_ticks(kind: str, ticks: Ticks) -> Iterator[str]:
    """How many things there are in each bucket."""
    for heap in ticks.heaps():
        yield f"{kind} {heap.first} {heap.last} {heap.count}"


def of_row(row: Optional[Row], left_out: int) -> Iterator[str]:
    """A row of the table."""
    if row is None:
        yield f"left {left_out} instants out"
        return
    if row.is_wake():
        yield f"why {row.time} wake: a delay is over"
    elif row.line_count > len(row.lines):
        yield f"why {row.time} {row.line_count} lines, the last:"
    for number, text in row.lines:
        yield plain(f"why {row.time} line {number}: {text}")
    for deed in row.deeds:
        yield plain(f"did {row.time} {of_deed(deed)}")
    if row.deed_count > len(row.deeds):
        yield f"did {row.time} and {row.deed_count - len(row.deeds)} more"
    if row.count > 1:
        yield f"did {row.time} so {row.count} times, up to {row.last}"


def of_deed(deed: Deed) -> str:
    """A deed in words."""
    clause = f" ({deed.clause})" if deed.clause else ""
    return f"{deed.text}{clause}{f' since {deed.saw}' if deed.saw else ''}"
