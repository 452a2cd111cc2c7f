"""The five lines that tell of a dry run."""
import re
from pathlib import Path

BY_HAND = re.compile(r":(\d+): by hand: (.*)")
DECIDE = re.compile(r":\d+: decide: ")
NOTE = re.compile(r":\d+: (?:by hand|decide|know): ")
FAULT = re.compile(r"(\d+) fault (\S+) (\d+) (.*)")
ENDED = re.compile(r"(\d+) exit \S+")
WAITS = re.compile(r"# waits for (.*) \([^()]*\)")
NO_VALUE = re.compile(r"(\S+) to have a value")
STANDS = re.compile(r"# (\S+ in \S+ since \d+)(?:, \S+)? \(.*")
COUNTS = re.compile(r"# (\d+ transitions?, .*)")
BAD = re.compile(r"# bad line (\d+)")
ROUNDED = re.compile(r"(?:snl: )?(\S+): rounded: (\d+); .*")
NO_NUMBER = re.compile(r"(?:snl: )?(\S+): no number: .*?; (--enum '.*') gives.*")
VALUES = re.compile(r"\d+ val (\S+) (.*)")
# What may be a mistake of the program, and nothing that a port leaves.
MISTAKE = re.compile(r"by hand: '.*' (?:instead of '|is not declared)")
# So much of the end of a run is looked at, and so many things are named.
END, MOST = 1 << 16, 3


def many(count: int, one: str) -> str:
    """A count of things."""
    return f"{count} {one}{'' if count == 1 else 's'}"


def listed(texts: list, mark: str = ", ") -> str:
    """Texts in a line, the first of many."""
    more = f"{mark}and {len(texts) - MOST} more" if len(texts) > MOST else ""
    return mark.join(texts[:MOST]) + more


def program(file: str, said: list, notes: list) -> str:
    """What became of the program."""
    if not notes:
        return f"dry-run: program: {file} as it is" + (f"; {said[0]}" if said else "")
    told, chosen = (sum(map(bool, map(it.search, notes))) for it in (NOTE, DECIDE))
    first = next((it for it in said if re.search(r": error: E", it)), said[0] if said else "")
    why = first.removeprefix(f"{file}:").replace(": error: ", ": ")
    return f"dry-run: program: {file} was ported, since snc refuses it (line {why}): {many(told, 'note')}, {chosen} of them to decide"


def by_hand(notes: list) -> str:
    """What is left by hand."""
    if not notes:
        return "dry-run: by hand: nothing"
    places = [f"line {it[1]}: {it[2]}" for it in map(BY_HAND.search, notes) if it]
    mistake = "; is that a mistake? snl check says more" if any(map(MISTAKE.search, notes)) else ""
    do = "does" if len(places) == 1 else "do"
    return f"dry-run: by hand: {many(len(places), 'place')} that {do} nothing in this run: {listed(places, '; ')}{mistake}"


def note(file: str, notes: list) -> str:
    """What the page says of a port."""
    if not notes:
        return f"{Path(file).name} was ported for this run."
    lines = [it[1] for it in map(BY_HAND.search, notes) if it]
    where = f"line{'' if len(lines) == 1 else 's'} {listed(lines)}"
    return f"A sketch: {Path(file).name} was ported for this run, and what is left by hand, in {where}, does nothing in it."


def digits(is_ported: bool) -> str:
    """What keeps more digits: of a port its units, which the trace and the program have alike."""
    return "--unit QUANTITY=K keeps K digits, --finer D keeps D more" if is_ported else "--scale NAME=K keeps K digits"


def vanished(said: list, trace: Path) -> list:
    """The channels of which values were rounded and nothing is left: each value is 0."""
    rounded = {it[1] for it in map(ROUNDED.fullmatch, said) if it}
    left = set(rounded)
    with open(trace, encoding="latin-1") as lines:
        for it in map(VALUES.fullmatch, (line.rstrip() for line in lines) if rounded else ()):
            if it and it[1] in left and set(it[2].split()) != {"0"}:
                left.discard(it[1])
    return sorted(left)


def logs(said: list, more: str) -> str:
    """What the logs gave: the last line that was said of them counts all. What was rounded is named, with what keeps more of it."""
    if not said:
        return "dry-run: logs: nothing was said of them"
    rounded = [f"{it[2]} of {it[1]}" for it in map(ROUNDED.fullmatch, said) if it]
    told = f"; rounded: {listed(rounded)}{more and '; '}{more}" if rounded else ""
    notes = "".join(f"; {it.removeprefix('snl: note: ')}" for it in said if it.startswith("snl: note: "))
    return f"dry-run: logs: {said[-1].removeprefix('snl: ')}{told}{notes}"


class Ending:
    """How a run ended, by the lines at its end."""

    def __init__(self, path: Path):
        """Reads the end of the file of a run."""
        with open(path, "rb") as file:
            file.seek(max(0, file.seek(0, 2) - END))
            self.lines = file.read().decode("latin-1").splitlines()
        with open(path, "rb") as file:
            self.has_begun = file.read(1).isdigit()

    def found(self, pattern: re.Pattern) -> list:
        """The lines of a form."""
        return [it for it in map(pattern.fullmatch, self.lines) if it]

    def lacks(self, said: list, gone: list, is_ported: bool) -> str:
        """What the program lacked to begin, and the words that give it; or what is left of nothing."""
        waits = [] if self.has_begun else [it[1] for it in self.found(WAITS)]
        if gone:
            waits.append(f"digits: each value of {listed(gone)} became 0; {digits(is_ported)}")
        if not waits:
            return "dry-run: lacks: nothing"
        texts = {it[1]: it[2] for it in map(NO_NUMBER.fullmatch, said) if it}
        values = [it[1] for it in map(NO_VALUE.fullmatch, waits) if it]
        first = [it for it in values if it not in texts]
        words = f"; a first value is given by {' '.join(f'--value {it}=N' for it in first[:MOST])}" if first else ""
        named = [texts[it] for it in values if it in texts]
        words += f"; texts get numbers by {' '.join(named[:MOST])}" if named else ""
        return f"dry-run: lacks: {listed(waits)}{words}"

    def run(self) -> str:
        """How it ended, where each state set stands, and how much it did."""
        fault, ended, bad = self.found(FAULT), self.found(ENDED), self.found(BAD)
        if not self.has_begun:
            how = "the program never began"
        elif fault:
            how = f"a fault at {fault[-1][1]} in {fault[-1][2]}, line {fault[-1][3]}: {fault[-1][4]}"
        elif bad:
            how = f"line {bad[-1][1]} of the trace is bad"
        elif ended:
            how = f"the program ended by itself at {ended[-1][1]}"
        else:
            how = "to the end of the logs"
        counts = self.found(COUNTS)
        rest = [listed([it[1] for it in self.found(STANDS)]), counts[-1][1] if counts else ""]
        return "; ".join([f"dry-run: run: {how}", *filter(None, rest if self.has_begun else [])])
