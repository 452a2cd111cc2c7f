"""Puts the spans of a lane together where they are so thin that a picture cannot show them one by one."""
from dataclasses import dataclass
from typing import Callable, Iterable, Iterator

from plotting.buckets import Span


@dataclass
class Group:
    """A span, or several that follow one another."""

    spans: list
    # Whether they are shown as one block, with their count.
    is_flicker: bool = False

    def begin(self) -> int:
        """Its first time."""
        return self.spans[0].begin

    def end(self) -> int:
        """Its last time."""
        return self.spans[-1].end

    def count(self) -> int:
        """How many changes it stands for."""
        return sum(it.count for it in self.spans)


def groups(spans: Iterable[Span], is_thin: Callable, least: int) -> Iterator[Group]:
    """The spans in order, each by itself; but thin ones that follow one another, and are `least` changes or more, together. A span
    with too many changes to tell counts as thin."""
    thin: list = []
    for span in spans:
        if span.bucket is not None or is_thin(span):
            thin.append(span)
            continue
        yield from together(thin, least)
        thin = []
        yield Group([span])
    yield from together(thin, least)


def together(thin: list, least: int) -> Iterator[Group]:
    """Thin spans: one group, or each by itself."""
    if not thin:
        return
    group = Group(thin, True)
    if group.count() >= least:
        yield group
    else:
        yield from (Group([it]) for it in thin)
