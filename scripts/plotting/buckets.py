"""What happens in time, kept in buckets: as many as a call asks for at most, however long a run is. So memory is constant.

All buckets are of one width, a power of two in ms, 1 at first; bucket k has the times from k * width on. Where a time needs one
bucket too many the width doubles, and neighbours are joined.
"""
from collections import Counter
from dataclasses import dataclass
from typing import Iterator, Optional

# A bucket keeps so many changes one by one; of more it has the count, the least and the most.
KEPT = 4
# A lane tells so many values apart.
MOST_VALUES = 64


class Clock:
    """The width of the buckets of all lanes. Times come in order."""

    def __init__(self, columns: int, first: Optional[int] = None):
        """At most `columns` buckets from that of `first` on, or from that of the first time that comes."""
        self.columns, self.first, self.width = columns, first, 1
        self.lanes: list = []

    def bucket(self, time: int) -> int:
        """The number of the bucket of a time, for which there is room then."""
        if self.first is None:
            self.first = time
        while time // self.width - self.first // self.width >= self.columns:
            self.width *= 2
            for lane in self.lanes:
                lane.join()
        return time // self.width


class Bucket:
    """The changes of one lane in one stretch of time."""

    __slots__ = ("count", "first", "last", "least", "most", "value", "changes", "counts")

    def __init__(self, time: int, value: int):
        """A bucket with its first change."""
        self.count, self.first, self.last = 1, time, time
        self.least = self.most = self.value = value
        # Each change, as time and value, or None where they are too many.
        self.changes: Optional[list] = [(time, value)]
        # How often each value came, where the lane counts that and the changes are gone.
        self.counts: Optional[Counter] = None

    def add(self, time: int, value: int, is_counting: bool) -> None:
        """Takes one change more."""
        self.count += 1
        self.last, self.value = time, value
        if value < self.least:
            self.least = value
        if value > self.most:
            self.most = value
        if self.changes is None:
            if is_counting:
                self.counts[value] += 1
            return
        self.changes.append((time, value))
        if len(self.changes) > KEPT:
            self.crowd(is_counting)

    def crowd(self, is_counting: bool) -> None:
        """Lets the single changes go."""
        self.counts = Counter(value for _, value in self.changes) if is_counting else None
        self.changes = None

    def by_value(self) -> Counter:
        """How often each value came, in a lane that counts that."""
        return self.counts if self.changes is None else Counter(value for _, value in self.changes)

    def take(self, later: "Bucket", is_counting: bool) -> None:
        """Becomes one with the bucket behind it."""
        is_exact = self.changes is not None and later.changes is not None and self.count + later.count <= KEPT
        if is_exact:
            self.changes = self.changes + later.changes
        else:
            counts = self.by_value() + later.by_value() if is_counting else None
            self.changes, self.counts = None, counts
        self.count += later.count
        self.last, self.value = later.last, later.value
        self.least, self.most = min(self.least, later.least), max(self.most, later.most)


@dataclass
class Span:
    """A stretch of time in which a lane has one value; or, with a bucket, one with so many changes that they are not told apart."""

    begin: int
    end: int
    # The value, or the last one of the bucket; None before the first.
    value: Optional[int]
    # How many changes it stands for: 1 where it begins by one, 0 where the value was there before, or those of the bucket.
    count: int
    bucket: Optional[Bucket] = None


class Steps:
    """A lane of values, each of which holds up to the next."""

    def __init__(self, clock: Clock, is_counting: bool = False):
        """An empty lane. One that is counting knows of each bucket how often each value came."""
        self.clock, self.is_counting = clock, is_counting
        self.buckets: dict = {}
        # The value that holds at the front of what is drawn, and the last one.
        self.before: Optional[int] = None
        self.count = 0
        # The values that came, MOST_VALUES + 1 at most; whether one was below that before it.
        self.values: set = set()
        self.falls = False
        self.last: Optional[int] = None
        clock.lanes.append(self)

    def start(self, value: int) -> None:
        """The value holds at the front, before all changes."""
        self.before = self.last = value

    def add(self, time: int, value: int) -> None:
        """Takes a change."""
        number = self.clock.bucket(time)
        self.count += 1
        if self.last is not None and value < self.last:
            self.falls = True
        self.last = value
        if len(self.values) <= MOST_VALUES:
            self.values.add(value)
        bucket = self.buckets.get(number)
        if bucket is None:
            self.buckets[number] = Bucket(time, value)
        else:
            bucket.add(time, value, self.is_counting)

    def join(self) -> None:
        """Makes one bucket of each two neighbours, since the width has doubled."""
        joined: dict = {}
        for number, bucket in self.buckets.items():
            earlier = joined.get(number // 2)
            if earlier is None:
                joined[number // 2] = bucket
            else:
                earlier.take(bucket, self.is_counting)
        self.buckets = joined

    def has_values(self) -> bool:
        """Whether there is a value to draw."""
        return self.count > 0 or self.before is not None

    def all_values(self) -> set:
        """The values that are drawn, where they are not too many to tell apart."""
        return self.values if self.before is None else self.values | {self.before}

    def range(self) -> tuple[int, int]:
        """The least and the most value."""
        lows = [it.least for it in self.buckets.values()]
        highs = [it.most for it in self.buckets.values()]
        front = [] if self.before is None else [self.before]
        return min(lows + front), max(highs + front)

    def spans(self, begin: int, end: int) -> Iterator[Span]:
        """The stretches from `begin` to `end`, each of which begins where the one before ends; some are empty."""
        here, value, count = begin, self.before, 0
        for bucket in self.buckets.values():
            if bucket.changes is None:
                yield Span(here, bucket.first, value, count)
                yield Span(bucket.first, bucket.last, bucket.value, bucket.count, bucket)
                here, value, count = bucket.last, bucket.value, 0
                continue
            for time, new in bucket.changes:
                yield Span(here, time, value, count)
                here, value, count = time, new, 1
        yield Span(here, end, value, count)


@dataclass
class Heap:
    """How many things there are in one bucket, the times of the first and the last, and the first of them."""

    count: int
    first: int
    last: int
    what: object = None


class Ticks:
    """A lane of things that take no time."""

    def __init__(self, clock: Clock):
        """An empty lane."""
        self.clock, self.buckets, self.count = clock, {}, 0
        clock.lanes.append(self)

    def add(self, time: int, what: object = None) -> None:
        """Takes one thing more."""
        number = self.clock.bucket(time)
        self.count += 1
        heap = self.buckets.get(number)
        if heap is None:
            self.buckets[number] = Heap(1, time, time, what)
        else:
            heap.count += 1
            heap.last = time

    def join(self) -> None:
        """Makes one bucket of each two neighbours, since the width has doubled."""
        joined: dict = {}
        for number, heap in self.buckets.items():
            earlier = joined.get(number // 2)
            if earlier is None:
                joined[number // 2] = heap
            else:
                earlier.count += heap.count
                earlier.last = heap.last
        self.buckets = joined

    def heaps(self) -> list:
        """What the buckets have, in order of time."""
        return list(self.buckets.values())
