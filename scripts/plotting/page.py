"""Writes a picture as one page that needs nothing else: no other file, no site, and for all but zooming no script.

A policy in the page lets its own script and style work, by their hashes, and nothing else.
"""
import base64
import hashlib
from pathlib import Path
from typing import Iterator

from plotting import beside, channels, rows
from plotting.canvas import HEAD, LEFT, RIGHT, WIDTH, Canvas, digits
from plotting.letters import escaped
from plotting.record import Record
from plotting.spots import CHATTER, FAULT, MILD
from plotting.states import SetDrawing
from plotting.summary import ending, summary
from plotting.times import Times, stretch
from plotting.words import Wanted

HERE = Path(__file__).resolve().parent
# The room for the ms below the picture, where times are told as a clock.
FOOT = 14
# So many lines through all rows, for faults and chatter.
MOST_LINES = 6
BUTTONS = (
    ("+", "+ in"), ("-", "- out"), ("0", "0 all"), ("ArrowLeft", "&larr;"), ("ArrowRight", "&rarr;"), ("p", "p previous"),
    ("n", "n next event"),
)  # fmt: skip
PATTERN = (
    '<pattern id="{}" width="{size}" height="{size}" patternUnits="userSpaceOnUse" patternTransform="rotate({turn})">{}</pattern>'
)
HATCH = '<path d="M0 0V5" stroke="#222" stroke-width="1.5"/>'
GREY = '<rect width="6" height="6" fill="#e2e2e2"/><path d="M0 0V6" stroke="#b5b5b5" stroke-width="2"/>'
SYMBOLS = (
    PATTERN.format("hatch", HATCH, size=5, turn=45) + PATTERN.format("still", HATCH, size=5, turn=45),
    PATTERN.format("grey", GREY, size=6, turn=-45),
    '<g id="put"><path d="M0-7L4 0H-4Z" fill="#b34700" stroke="#fff" stroke-width=".6"/></g>',
    '<g id="say"><circle r="4" fill="#fff" stroke="#1b1b1b" stroke-width="1.4"/><circle r="1.3" fill="#1b1b1b"/></g>',
    '<g id="refused"><path d="M-4-4L4 4M4-4L-4 4" stroke="#a8003b" stroke-width="2.4"/></g>',
    '<g id="pass"><rect x="-2" y="-6" width="4" height="12" rx="1" fill="#1b1b1b" stroke="#fff" stroke-width=".8"/></g>',
    '<g id="bang"><path d="M0-12L-5-21H5Z" fill="#a8003b"/></g>',
)
GROUND = '<rect width="100%" height="100%" fill="#fff"/>'
HELP = """Each state of a state set has a row; a bar says how long it held. Hatched: so many changes that single ones cannot be
drawn; their number stands there. Small strokes under the rows: transitions from a state to itself. Dashed brown with a
triangle: what the program asked, by puts. Solid blue: what the trace told. A filled block: more than four changes in one
column, from the least to the most value. Hatched grey: not connected, not begun, or stopped. A cross: a refused put. A violet
strip: a put waits for its answer. A circle: printf. Red dashed line: a fault, or many transitions at one time."""
HEAD_OF_TABLE = """<table><caption>What happened, and at which line of the trace</caption>
<thead><tr><th scope="col">Time</th><th scope="col">At line of the trace</th><th scope="col">What the program did</th></tr></thead>
<tbody>
"""


def pieces(name: str, record: Record, times: Times, wanted: Wanted) -> Iterator[str]:
    """The page, in pieces. All names and texts in it are escaped, and stand in elements alone."""
    canvas = Canvas(record.begin(), record.end(), record.stop(), times)
    lines = drawn(canvas, record, channels.View(wanted.values, wanted.scales))
    style, script = (f"\n{(HERE / it).read_text()}" for it in ("style.css", "script.js"))
    yield from head(name, style, script)
    yield from top(name, record, times, wanted.note)
    yield '<div class="both">\n'
    yield '<div class="pic" tabindex="0" role="region" aria-label="Timeline; the table has the same in words">\n'
    yield from controls()
    yield from picture(canvas, record, lines)
    column = stretch(record.clock.width)
    yield f'<details open><summary>How to read it</summary><p class="keys">{HELP} A column is {column}.</p></details>\n'
    yield f'</div>\n<div class="side">{HEAD_OF_TABLE}'
    yield from rows.rows(record.table.rows(), record.table.left_out, times)
    yield f"</tbody></table></div>\n</div>\n<script>{script}</script>\n</body></html>\n"


def hashed(text: str) -> str:
    """What a policy says of a script or a style."""
    return f"'sha256-{base64.b64encode(hashlib.sha256(text.encode()).digest()).decode()}'"


def head(name: str, style: str, script: str) -> Iterator[str]:
    """What stands in front of the page that is seen."""
    policy = f"default-src 'none'; style-src {hashed(style)}; script-src {hashed(script)}"
    yield '<!DOCTYPE html>\n<html lang="en"><head><meta charset="utf-8">\n'
    yield f'<meta http-equiv="Content-Security-Policy" content="{policy}">\n'
    yield '<meta name="viewport" content="width=device-width">\n'
    yield f"<title>Run of {escaped(name)}</title>\n<style>{style}</style></head>\n<body>\n"


def top(name: str, record: Record, times: Times, note: str) -> Iterator[str]:
    """How it ended, how much there was, and boxes for what matters."""
    text, is_bad = ending(record, times)
    kind = "ended bad" if is_bad else "ended"
    yield f'<h1>Run of {escaped(name)}</h1>\n<p class="{kind}">{escaped(text)}</p>\n'
    yield f'<p class="sum">{escaped(" ".join(summary(record, times)))}</p>\n'
    yield f'<p class="sum note">{escaped(note)}</p>\n' if note else ""
    spots = record.spots.told()
    if not spots:
        return
    yield '<ul class="spots">'
    for spot in spots:
        mild = ' class="mild"' if spot.kind in MILD else ""
        yield f'<li><a href="#pic" data-t="{spot.time}"{mild}>{times.at(spot.time)}: {escaped(spot.text())}</a></li>'
    left_out = record.spots.left_out()
    yield (f"<li>and {left_out} more</li>" if left_out else "") + "</ul>\n"


def controls() -> Iterator[str]:
    """The buttons, which the script shows."""
    yield '<p class="keys tools">'
    for key, text in BUTTONS:
        yield f'<button data-k="{key}">{text}</button> '
    yield '<span id="part">A click shows the event in the table; Shift and wheel zooms.</span></p>\n'


def drawn(canvas: Canvas, record: Record, view: channels.View) -> int:
    """Fills the canvas; how many lines the prints take."""
    lines = beside.prints(canvas, record.prints)
    sets = [it for it in record.sets if it.is_drawn]
    lanes = [it for it in record.channels if it.is_drawn]
    if sets:
        canvas.heading("STATES")
    for it in sets:
        SetDrawing(canvas, it, record).draw()
    for title, is_put in (("PUT BY THE PROGRAM", True), ("READ BY THE PROGRAM", False)):
        some = [it for it in lanes if it.is_put() == is_put]
        if some:
            canvas.heading(title)
        for it in some:
            channels.draw(canvas, it, record, view)
    canvas.y += 4
    beside.strokes(canvas, record.lines, "lines of the trace", "ln")
    beside.strokes(canvas, record.wakes, "wakes by delay", "wk")
    return lines


def picture(canvas: Canvas, record: Record, lines: int) -> Iterator[str]:
    """The picture itself."""
    height, wide = int(canvas.y + 4), LEFT + WIDTH + RIGHT
    zero = canvas.times.zero_ms()
    foot = 0 if zero is None else FOOT
    data = f'data-l="{LEFT}" data-w="{WIDTH}" data-h="{height}" data-t0="{canvas.begin}" data-t1="{canvas.end}"'
    data += f' data-zero="{"" if zero is None else zero}" data-days="{int(canvas.times.has_days)}" data-foot="{foot}"'
    data += f' data-rows="{lines}" data-col="{record.clock.width}"'
    size = f'width="{wide}" height="{height + foot}" viewBox="0 0 {wide} {height + foot}"'
    yield f'<svg id="pic" role="img" aria-label="Timeline of the run" {data} {size} xmlns="http://www.w3.org/2000/svg">\n'
    # The ground is a part of the picture: a browser that makes pages dark changes the texts and grounds round it, and none in it.
    yield f"<defs>{''.join(SYMBOLS)}</defs>\n{GROUND}\n<g>"
    yield from canvas.left
    yield f"</g>\n{beside.axis(canvas, height)}\n"
    box = f'x="{LEFT}" y="0" width="{WIDTH}" height="{height}" viewBox="0 0 {WIDTH} {height}"'
    yield f'<svg id="plot" class="plot" {box} preserveAspectRatio="none">\n'
    yield from (f"{it}\n" for it in canvas.shapes)
    yield after(canvas, height)
    yield "</svg>\n<g>"
    yield from (f"{it}\n" for it in canvas.marks)
    yield from through(canvas, record, height)
    yield f'</g><g id="cross" display="none"><path d="M0 12V{height}"/><text x="0" y="10"></text></g></svg>\n'


def after(canvas: Canvas, height: int) -> str:
    """A veil over what is behind the end."""
    begin, end = canvas.x(canvas.stop), canvas.x(canvas.end)
    place = f'x="{digits(begin)}" y="{HEAD}" width="{digits(end - begin)}" height="{height - HEAD}"'
    return f'<rect class="after" {place}/>\n' if end > begin else ""


def through(canvas: Canvas, record: Record, height: int) -> Iterator[str]:
    """Lines through all rows: the end, faults, and many transitions at one time."""
    line = f"M0 0V{height - HEAD}"
    if canvas.end > canvas.stop:
        text = f'<text x="-3" y="{height - HEAD - 4}" text-anchor="end">end</text>'
        yield upright(canvas, canvas.stop, "end", f'<path d="{line}"/>{text}')
    for spot in [it for it in record.spots.told() if it.kind in (FAULT, CHATTER)][:MOST_LINES]:
        title = f"<title>{escaped(f'{canvas.at(spot.time)}: {spot.text()}')}</title>"
        yield upright(canvas, spot.time, "spot", f'<path d="{line}"/><use href="#bang"/>{title}')


def upright(canvas: Canvas, time: int, kind: str, inner: str) -> str:
    """A line through all rows at a time."""
    x = canvas.x(time)
    place = f'data-x="{digits(x)}" data-y="{HEAD}" transform="translate({digits(LEFT + x)},{HEAD})"'
    return f'<g class="m {kind}" {place}>{inner}</g>\n'
