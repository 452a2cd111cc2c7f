"""What a program still waits for before it begins, as `snl waits` says it, and what came in the place of a value."""


class Waits:
    """The links of a program beside what the lines of its channels told."""

    def __init__(self, wanted, lines):
        """The links that the tables named."""
        self.links, self.lines, self.has_begun = wanted.links, lines, False

    def texts(self):
        """A text for each link that the program waits for."""
        for text in filter(None, map(self.text, self.links)):
            yield f"waits for {text}"

    def text(self, link):
        """What a link lacks; nothing where it has all."""
        if link.name not in self.lines.up:
            since = self.lines.down.get(link.name)
            state = " to be up" if since is None else f", which is down again since {since}"
            return f"{link.name}{state} ({link.shown})"
        if link.is_monitored and link.name not in self.lines.numbered:
            return f"{link.name} to have a value ({link.shown}){self.lines.instead(link.name)}"
        return ""
