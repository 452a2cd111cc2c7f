"""Whether what pages refer to is there: files and sections of links, and sections that stand in quotes behind the name of a page."""
import re

LINK = re.compile(r"\]\(([^)#\s]*)#?([^)\s]*)\)")
NAMED = re.compile(r"docs/((?:\w+/)?\w+\.md)`?,\s+\"([^\"]*)\"")
HEADING = re.compile(r"^#+ (.*)$", re.MULTILINE)
BLOCK = re.compile(r"^```.*?^```\n", re.MULTILINE | re.DOTALL)


def missing(root):
    """What pages refer to and is not there."""
    pages = {it: BLOCK.sub("", it.read_text()) for it in [*sorted(root.glob("docs/**/*.md")), root / "README.md"]}
    titles = {page: HEADING.findall(text) for page, text in pages.items()}
    wanted = [it for page, text in pages.items() for it in references(root, page, text)]
    if len(wanted) < 40:
        yield "FAILED docs: the links between pages are not found"
    for page, target, section in wanted:
        if not target.exists():
            yield f"FAILED {page.name}: there is no {target}"
        elif section and not any(is_named(title, section) for title in titles.get(target, ())):
            yield f"FAILED {page.name}: {target.name} has no section {section}"


def references(root, page, text):
    """Where the references of a page lead: to which file, and to which section, by its anchor or by its words."""
    for path, section in LINK.findall(text):
        if ":" not in path:
            yield page, (page.parent / path).resolve() if path else page, section
    for name, section in NAMED.findall(text):
        yield page, root / "docs" / name, " ".join(section.split())


def is_named(title, section):
    """Whether a section is meant: by its heading, with a number in front or without, or by the anchor that is made of it."""
    anchor = re.sub(r"[^\w -]", "", title.lower()).replace(" ", "-")
    return section in (title, re.sub(r"^\d+\. ", "", title), anchor)
