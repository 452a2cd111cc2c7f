"""The table of a page: when, at which line of the trace, and what the program did."""
import re
from typing import Iterator, Optional

from plotting.canvas import shortened
from plotting.instants import Deed, Row
from plotting.letters import escaped
from plotting.times import Times, grouped, many

# Where a long name may be cut at the end of a line; a number is not.
JOINT = re.compile(r"(:|(?<!\d)\.)(?=[A-Za-z0-9_])")

# So many letters of a condition are shown.
LONGEST_TEST = 200


def broken(text: str) -> str:
    """A text that may be cut behind its colons and points."""
    return JOINT.sub(r"\1<wbr>", escaped(text))


def rows(record_rows: Iterator[Optional[Row]], left_out: int, times: Times) -> Iterator[str]:
    """The rows of a table."""
    row = None
    for row in record_rows:
        if row is None:
            text = f"{many(left_out, 'instant')} left out here; --from and --to show them"
            yield f'<tr><td colspan="3" class="fault">{text}</td></tr>\n'
            continue
        more = f'<br><span class="why">{many(row.count, "time")}, up to {times.at(row.last)}</span>' if row.count > 1 else ""
        dull = ' class="dull"' if row.is_dull else ""
        beside = times.beside(row.time)
        time = times.at(row.time) + (f'<br><span class="why">{beside}</span>' if beside else "")
        cells = f'<td>{time}</td><td class="why">{causes(row)}</td><td>{deeds(row)}{more}</td>'
        yield f'<tr data-t="{row.time}"{dull}>{cells}</tr>\n'
    if row is None:
        yield '<tr><td colspan="3" class="why">The program did nothing.</td></tr>\n'


def causes(row: Row) -> str:
    """The lines of the trace behind an instant."""
    if row.is_wake():
        return "wake: a delay is over"
    lines = [f"line {number}{': ' if text else ''}{broken(text)}" for number, text in row.lines]
    if row.line_count > len(lines):
        lines.insert(0, f"{grouped(row.line_count)} lines, the last:")
    return "<br>".join(lines)


def deeds(row: Row) -> str:
    """What the program did, each in a line."""
    lines = [deed(it) for it in row.deeds]
    if row.deed_count > len(row.deeds):
        lines.append(f'<span class="fault">and {grouped(row.deed_count - len(row.deeds))} more at this time</span>')
    return "<br>".join(lines)


def deed(it: Deed) -> str:
    """One deed, with the clause of a transition, its condition and what that saw."""
    text = broken(it.text).replace(" -&gt; ", " &rarr; ") if it.kind == "go" else broken(it.text)
    text = f'<span class="{it.kind}">{text}</span>'
    if it.clause:
        text += f' <span class="why nb">({it.clause})</span>'
    if it.test:
        text += f'<br><span class="why">when {escaped(shortened(it.test, LONGEST_TEST))}</span>'
    if it.saw:
        text += f'<br><span class="why">since {escaped(it.saw)}</span>'
    return text
