"""What a reader has to see at once: faults, chatter, refused puts, channels that go down. They are told on top, in boxes."""
from dataclasses import dataclass
from typing import Optional

FAULT, CHATTER, FLICKER, REFUSED, DOWN, LOOP = "fault", "chatter", "flicker", "refused", "down", "loop"
ORDER = (FAULT, CHATTER, FLICKER, REFUSED, DOWN, LOOP)
# Kinds of which a box is no alarm.
MILD = (DOWN, LOOP)
# So many of a kind are kept, and so many are told in all.
KEPT, TOLD = 30, 8


@dataclass
class Spot:
    """A place in time, with what happened there, how often that was so, and how heavy it weighs among its kind."""

    time: int
    kind: str
    what: str
    weight: int = 1
    count: int = 1

    def text(self) -> str:
        """What is told of it."""
        return self.what if self.count == 1 else f"{self.what}, {self.count} times"


class Spots:
    """The heaviest of what happened; of equal ones the first."""

    def __init__(self):
        """Nothing happened."""
        self.kept = {it: [] for it in ORDER}
        self.count = 0

    def add(self, spot: Spot) -> None:
        """Takes one more. A put that is refused again, or a channel that goes down again, is told where it was so first."""
        before = self.before(spot)
        if before is not None:
            before.count += 1
            before.weight += 1
            return
        kept = self.kept[spot.kind]
        self.count += 1
        kept.append(spot)
        if len(kept) > 2 * KEPT:
            kept.sort(key=lambda it: -it.weight)
            del kept[KEPT:]

    def before(self, spot: Spot) -> Optional[Spot]:
        """The spot of the same that is kept, of a kind of which each is told once."""
        if spot.kind not in (REFUSED, DOWN):
            return None
        return next((it for it in self.kept[spot.kind] if it.what == spot.what), None)

    def told(self) -> list:
        """Those that are told, in order of time: kind by kind, the heaviest first."""
        heaviest = [it for kind in ORDER for it in sorted(self.kept[kind], key=lambda it: (-it.weight, it.time))]
        return sorted(heaviest[:TOLD], key=lambda it: it.time)

    def left_out(self) -> int:
        """How many are not told."""
        return max(0, self.count - TOLD)
