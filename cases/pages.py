"""Cases from docs/MESSAGES.md: each source there, with the messages that stand behind it."""
import re

from case import Case

EXAMPLE = re.compile(r"^```snl( [^\n]*)?\n(.*?)^```\n\n```\n(.*?)^```\n", re.MULTILINE | re.DOTALL)
OPENED = re.compile(r"^```snl\b", re.MULTILINE)
MESSAGE = re.compile(r"^### ([EW]\d+): ", re.MULTILINE)


def examples(root):
    """The examples, each of which is run by `snc` with the words named."""
    for number, (words, source, said) in enumerate(EXAMPLE.findall(text_of(root)), 1):
        first = said.split("\n")[0]
        status = int(" error: " in said)
        yield Case(f"docs/MESSAGES.md: example {number}: {first}", source.encode(), b"0 bad line", [*words.encode().split(), b"p.st"],
                   stderr=said.encode(), statuses=(status,), tool="snc")


def missing(root):
    """Messages of the page without an example that shows them, and examples that are not cut out."""
    page = text_of(root)
    parts = MESSAGE.split(page)[1:]
    found = []
    for name, part in zip(parts[::2], parts[1::2]):
        said = EXAMPLE.search(part)
        if not said or f": {name} " not in said[3]:
            found.append(f"FAILED docs/MESSAGES.md: {name} has no example that shows it")
    if len(EXAMPLE.findall(page)) != len(OPENED.findall(page)):
        found.append("FAILED docs/MESSAGES.md: a source has no messages right behind it")
    return found


def text_of(root):
    return (root / "docs/MESSAGES.md").read_text()
