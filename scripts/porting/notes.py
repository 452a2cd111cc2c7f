"""Notes on what was ported: what is left by hand, what a person has to decide, and what is good to know."""
import re
from typing import Optional

BY_HAND, DECIDE, KNOW = "by hand", "decide", "know"
# How much a note is worth to a reader, the most first: what is not done, a program that never worked in safe mode, what is
# done otherwise, units, and all else.
LEFT, BROKEN, OTHERWISE, UNITS, REST = range(5)
WORTH = {BY_HAND: LEFT, DECIDE: OTHERWISE, KNOW: REST}
MARKER = re.compile(r"[ \t]*#[ \t]*(?:line )?[ \t]*(\d{1,9})(?:[ \t]+\"([^\"]*)\")?(?:\s|$)")


class ByHand(Exception):
    """What stands here can't be ported: its text says why."""


class NotUnderstood(Exception):
    """The program is so far from SNL that nothing can be made of it: `line` is where."""

    def __init__(self, line: int, why: str):
        super().__init__(why)
        self.line = line


class Notes:
    """The notes of a port, each text once a line, with what each is worth."""

    def __init__(self):
        self.found: dict[tuple[int, str, str], int] = {}

    def add(self, line: int, kind: str, text: str, worth: Optional[int] = None) -> None:
        """Notes a text for a line of the source."""
        self.found.setdefault((line, kind, text), WORTH[kind] if worth is None else worth)

    def by_hand(self) -> list[tuple[int, str, str]]:
        """The notes of what is left by hand."""
        return [it for it in self.found if it[1] == BY_HAND]

    def lines(self, source: str, path: str) -> list[str]:
        """The notes as lines of output, those of the most worth first, with the places that markers in the source name.

        A note that holds at many places has one line, but what is left by hand has one for each.
        """
        places = places_of(source, path)
        told: dict[tuple, list[int]] = {}
        for (line, kind, text), worth in sorted(self.found.items(), key=lambda it: (it[1], it[0][0])):
            told.setdefault((kind, text, line if kind == BY_HAND else None), []).append(line)
        return [told_at([place_at(places, it) for it in lines], kind, text) for (kind, text, _), lines in told.items()]


def told_at(places: list[tuple[str, int]], kind: str, text: str) -> str:
    """A note with its first place in front, and the others behind it."""
    file, line = places[0]
    others = [str(number) if name == file else f"{name}:{number}" for name, number in places[1:]]
    return f"{file}:{line}: {kind}: {text}" + (f" (and in {', '.join(others)})" if others else "")


def places_of(source: str, path: str) -> list[tuple[str, int]]:
    """The file and the number of each line, as markers of a preprocessor say."""
    places, file, number = [], path, 1
    for line in source.split("\n"):
        places.append((file, number))
        number += 1
        marker = MARKER.match(line)
        if marker:
            number, file = int(marker[1]), marker[2] or file
    return places


def place_at(places: list[tuple[str, int]], line: int) -> tuple[str, int]:
    """The place of a line, or of the last one."""
    return places[min(line, len(places)) - 1]
