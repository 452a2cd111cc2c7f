"""Another text in a file of definitions: by which case is it seen?

`cases/slips` has a table of such edits, one a file of definitions: a line `file: PATH`, a line `old: TEXT`, a line `new: TEXT`, and `case: NAME`,
the name of a case that has another answer then."""
import re
from dataclasses import dataclass

from defining.calls import Failed

FILE = re.compile(r"crates/(?P<crate>\w+)/specs/(?P<module>[\w/]+)\.antt")


@dataclass
class Edit:
    """A text that stands once in a file, and what stands in its place."""

    file: str
    old: str
    new: str
    case: str = ""

    def place(self):
        """The crate of the file, and its module."""
        found = FILE.fullmatch(self.file)
        if not found:
            raise Failed(f"definitions: {self.file} is no file of definitions", 2)
        return found["crate"], found["module"].replace("/", ".")

    def text(self, names):
        """The text of the file with the new text in it."""
        try:
            text = names.text_of(self.file)
        except OSError as failed:
            raise Failed(f"definitions: {self.file}: {failed.strerror}", 2) from None
        if text.count(self.old) != 1:
            raise Failed(f"definitions: {self.file} has {text.count(self.old)} times: {self.old}", 2)
        return text.replace(self.old, self.new)


def table(path):
    """The edits of a table."""
    edits, parts = [], {}
    for number, line in enumerate(path.read_text(encoding="utf8").splitlines(), 1):
        label, colon, text = line.partition(": ")
        if not line.strip() or line.startswith("#"):
            continue
        if not colon or label not in ("file", "old", "new", "case") or label in parts:
            raise Failed(f"definitions: {path.name}:{number}: this is no line of an edit: {line}", 2)
        parts[label] = text
        if label == "case":
            edits.append(Edit(**parts))
            parts = {}
    return edits
