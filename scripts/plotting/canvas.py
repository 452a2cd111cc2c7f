"""A picture that is filled from the top to the bottom: shapes that are stretched when one zooms, and marks that are not.

Texts of a program and of a plant stand in elements alone, never in an attribute.
"""
from plotting.letters import escaped
from plotting.times import Times

# The width of the names at the left, of the picture itself, and of what is right of it; the height of the axis.
LEFT, WIDTH, RIGHT, HEAD = 220, 980, 10, 22
# About how wide a letter is.
LETTER = 5.9
# The same for the text of a `printf`, letter by letter: of the widest ones, of capitals, of narrow ones, and of all others.
WIDE, CAPITAL, THIN, MEAN = 10.5, 7.6, 4.4, 6.7
# So many texts are drawn.
MOST_TEXTS = 4000


def digits(number: float) -> str:
    """A number of a picture, in few letters."""
    text = f"{number:.2f}"
    return text.rstrip("0").rstrip(".") if "." in text else text


def tip(title: str) -> str:
    """What is shown of a shape under the pointer."""
    return f"<title>{escaped(title)}</title>" if title else ""


class Canvas:
    """The parts of a picture from one time to another."""

    def __init__(self, begin: int, end: int, stop: int, times: Times):
        """An empty one. What is known ends at `stop`."""
        self.begin, self.end, self.stop, self.times = begin, end, stop, times
        self.scale = WIDTH / (end - begin)
        # How far down it is filled.
        self.y = HEAD + 4.0
        self.left: list = []
        self.shapes: list = []
        self.marks: list = []
        self.text_count = 0

    def x(self, time: int) -> float:
        """Where a time is."""
        return (time - self.begin) * self.scale

    def at(self, time: int) -> str:
        """A time in words."""
        return self.times.at(time)

    def between(self, begin: int, end: int) -> str:
        """A stretch of time in words."""
        return f"from {self.at(begin)} to {self.at(min(end, self.stop))}"

    def heading(self, text: str) -> None:
        """A heading above what follows."""
        self.y += 8
        self.name(self.y + 11, text, "h", 2)
        self.y += 16

    def name(self, y: float, text: str, kind: str, x: float = 6, title: str = "") -> None:
        """A text at the left."""
        self.left.append(f'<text class="{kind}" x="{digits(x)}" y="{digits(y)}">{escaped(text)}{tip(title)}</text>')

    def note(self, y: float, text: str, kind: str = "c") -> None:
        """A small text that ends where the picture begins."""
        self.left.append(f'<text class="{kind}" x="{LEFT - 6}" y="{digits(y)}" text-anchor="end">{escaped(text)}</text>')

    def ground(self, y: float, height: float, kind: str = "z0") -> None:
        """The ground of a row."""
        self.left.append(f'<rect class="{kind}" x="{LEFT}" y="{digits(y)}" width="{WIDTH}" height="{digits(height)}"/>')

    def rect(self, box: tuple, kind: str, title: str = "", fill: str = "") -> None:
        """A rectangle from x to x, from y on, so high."""
        begin, end, y, height = box
        place = f'x="{digits(begin)}" y="{digits(y)}" width="{digits(max(end - begin, 0))}" height="{digits(height)}"'
        colour = f' fill="{fill}"' if fill else ""
        self.shapes.append(f'<rect class="{kind}" {place}{colour}>{tip(title)}</rect>')

    def path(self, kind: str, steps: list, title: str = "", fill: str = "") -> None:
        """Lines, where there are any."""
        if steps:
            colour = f' fill="{fill}"' if fill else ""
            self.shapes.append(f'<path class="{kind}" d="{"".join(steps)}"{colour}>{tip(title)}</path>')

    def text(self, begin: float, end: float, y: float, text: str, kind: str, is_right: bool = False) -> None:
        """A text between two places, at the left or the right of them, which is seen where it has room."""
        if self.text_count >= MOST_TEXTS:
            return
        self.text_count += 1
        wide = round(len(text) * LETTER + 6)
        hidden = "" if end - begin >= wide else ' display="none"'
        x, anchor = (end - 3, ' data-r="1" text-anchor="end"') if is_right else (begin + 3, "")
        place = f'data-x="{digits(begin)}" data-e="{digits(end)}" data-n="{wide}" x="{digits(LEFT + x)}" y="{digits(y)}"{anchor}'
        self.marks.append(f'<text class="m {kind}" {place}{hidden}>{escaped(text)}</text>')

    def mark(self, time: int, y: float, inner: str, title: str, kind: str = "") -> None:
        """A mark at a time, which keeps its size. What is in it has no text that was not escaped."""
        x = self.x(time)
        place = f'data-x="{digits(x)}" data-y="{digits(y)}" transform="translate({digits(LEFT + x)},{digits(y)})"'
        self.marks.append(f'<g class="m{kind and " " + kind}" {place}>{inner}<title>{escaped(title)}</title></g>')

    def symbol(self, time: int, y: float, symbol: str, title: str) -> None:
        """One of the symbols at a time."""
        self.mark(time, y, f'<use href="#{symbol}"/>', title)


def width_of(text: str) -> float:
    """How wide a text is at most, in the letters of the page."""
    return sum(WIDE if it in "MWmw%@" else THIN if it in " .,:;!|'()[]fijlrtI" else CAPITAL if it.isupper() else MEAN for it in text)


def shortened(text: str, most: int, keeps_end: bool = False) -> str:
    """A text of so many letters at most."""
    if len(text) <= most:
        return text
    return f"..{text[2 - most :]}" if keeps_end else f"{text[: most - 2]}.."


def move(x: float, y: float) -> str:
    """A step of a path to a place, without a line."""
    return f"M{digits(x)} {digits(y)}"


def block(begin: float, end: float, top: float, bottom: float) -> str:
    """Steps of a path round a rectangle."""
    return f"M{digits(begin)} {digits(bottom)}V{digits(top)}H{digits(end)}V{digits(bottom)}Z"

