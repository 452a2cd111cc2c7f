"""Draws what stands beside state sets and channels: what the program says, how many lines and wakes there are, and the axis."""
import math
from dataclasses import dataclass

from plotting.buckets import Ticks
from plotting.canvas import HEAD, LEFT, WIDTH, Canvas, digits, move, shortened, width_of
from plotting.letters import escaped
from plotting.times import grouped, step_of

# Prints stand in so many lines, so high each, and those without room for their texts in one more. Of one so many letters are shown, and
# those that are so near are one.
LINES, LINE, MOST_LETTERS, NEAR = 3, 14, 90, 9
# The height of a row of strokes.
STROKES = 12
# An axis has so many marks at most.
MOST_MARKS = 9
# A text that stands so near to an end of the axis is moved inwards.
NEAR_END = 30


@dataclass
class Said:
    """Prints that are so near to each other that they have one mark."""

    time: int
    text: str
    count: int
    last: int


def heaped(canvas: Canvas, prints: Ticks) -> list:
    """The prints of a run, those that are near to each other together."""
    found: list = []
    for it in prints.heaps():
        if found and canvas.x(it.first) - canvas.x(found[-1].last) < NEAR:
            found[-1].count += it.count
            found[-1].last = it.last
        else:
            found.append(Said(it.first, it.what, it.count, it.last))
    return found


def prints(canvas: Canvas, lane: Ticks) -> int:
    """Draws what the program says; how many lines that takes."""
    if not lane.count:
        return 0
    top = canvas.y
    canvas.name(top + 12, "says (printf)", "l")
    canvas.note(top + 12, grouped(lane.count))
    free = [-math.inf] * LINES
    said = heaped(canvas, lane)
    used = max(min(len(said), 2), *(lay(canvas, it, free) for it in said))
    high = used * LINE + 2
    canvas.ground(top, high)
    canvas.y = top + high + 2
    return used


def lay(canvas: Canvas, said: Said, free: list) -> int:
    """Puts a mark with its text into the first line with room; where there is none, without it into the last line. How many lines are in
    use."""
    x = canvas.x(said.time)
    text = shortened(said.text, MOST_LETTERS) + (f" (and {grouped(said.count - 1)} more)" if said.count > 1 else "")
    wide = width_of(text) + 14
    is_right = x + wide < WIDTH
    line = next((it for it in range(LINES) if free[it] <= (x if is_right else x - wide)), None)
    hidden = ' display="none"' if line is None else ""
    if line is None:
        line = LINES
    else:
        free[line] = x + wide if is_right else x + 8
    place = 'x="7" y="4"' if is_right else 'x="-7" y="4" text-anchor="end"'
    inner = f'<use href="#say"/><text class="say" {place}{hidden}>{escaped(text)}</text>'
    canvas.mark(said.time, canvas.y + 8 + line * LINE, inner, f"{canvas.at(said.time)}: {text}", "pr")
    return line + 1


def strokes(canvas: Canvas, lane: Ticks, name: str, kind: str) -> None:
    """A row of strokes, the higher the more there is, by the logarithm."""
    y, heaps = canvas.y, lane.heaps()
    canvas.name(y + 10, name, "l")
    canvas.note(y + 10, grouped(lane.count))
    canvas.ground(y, STROKES)
    most = math.log(max((it.count for it in heaps), default=1))
    steps = []
    for it in heaps:
        high = 4 + 7 * math.log(it.count) / most if most else 9
        steps.append(f"{move(canvas.x((it.first + it.last) // 2), y + STROKES)}v-{digits(high)}")
    canvas.path(kind, steps, name)
    canvas.y += STROKES + 2


def axis(canvas: Canvas, height: int) -> str:
    """The axis, which the script draws anew when one zooms."""
    step = step_of(canvas.end - canvas.begin, MOST_MARKS)
    marks = []
    for time in canvas.times.marks(canvas.begin, canvas.end, step):
        x = canvas.x(time)
        anchor = "start" if x < NEAR_END else "end" if x > WIDTH - NEAR_END else "middle"
        text = f'<text y="-3" text-anchor="{anchor}">{escaped(canvas.times.at(time, step))}</text>'
        ms = canvas.times.beside(time)
        text += f'<text class="ms" y="{height - HEAD + 10}" text-anchor="{anchor}">{ms}</text>' if ms else ""
        marks.append(f'<g class="tick" transform="translate({digits(LEFT + x)},{HEAD})"><path d="M0 0V{height - HEAD}"/>{text}</g>')
    return f'<g id="axis">{"".join(marks)}</g>'
