"""What a page of scripts/plot is made of, without a browser: its elements and attributes are those of a list, no name of a program
stands in an attribute, its one script and its one style are those of its policy, and the picture is XML."""
import base64
import hashlib
import re
import subprocess
import xml.etree.ElementTree
from collections import Counter
from dataclasses import dataclass
from html.parser import HTMLParser
from pathlib import Path

from case import SECONDS

# The elements of a page, with the attributes that each may have.
ELEMENTS = {
    "html": "lang",
    "head": "",
    "meta": "charset http-equiv content name",
    "title": "",
    "style": "",
    "body": "",
    "h1": "",
    "p": "class",
    "span": "class id",
    "br": "",
    "wbr": "",
    "ul": "class",
    "li": "",
    "a": "href data-t class",
    "div": "class tabindex role aria-label",
    "button": "data-k",
    "svg": "id role aria-label data-l data-w data-h data-t0 data-t1 data-zero data-days data-rows data-col data-foot "
    "width height viewbox xmlns class x y preserveaspectratio",
    "defs": "",
    "pattern": "id width height patternunits patterntransform",
    "path": "d stroke stroke-width fill class",
    "rect": "x y width height class fill rx stroke stroke-width",
    "circle": "r fill stroke stroke-width",
    "g": "id class transform data-x data-y display",
    "use": "href",
    "text": "class x y text-anchor data-x data-e data-n data-r display",
    "details": "open",
    "summary": "",
    "table": "",
    "caption": "",
    "thead": "",
    "tbody": "",
    "tr": "data-t class",
    "th": "scope",
    "td": "class colspan",
    "script": "",
}
WITHOUT_END = ("meta", "br", "wbr")
# What the value of an attribute may be made of. No name of a program and no print is in one.
PLAIN = re.compile(r"[\w #%.,:;()/=+'-]*")
URL = re.compile(r"url\((?!#)")


class Page(HTMLParser):
    """What is wrong with the elements of a page, its script and style, and its texts."""

    def __init__(self):
        super().__init__(convert_charrefs=True)
        self.wrong, self.open, self.counts, self.texts = [], [], Counter(), []
        self.inside = {"script": "", "style": ""}

    def handle_starttag(self, tag, attrs):
        self.counts[tag] += 1
        if tag not in ELEMENTS:
            self.wrong.append(f"the element {tag}")
        for name, value in attrs:
            self.attribute(tag, name, value or "")
        if tag not in WITHOUT_END:
            self.open.append(tag)

    def attribute(self, tag, name, value):
        if name not in ELEMENTS.get(tag, "").split():
            self.wrong.append(f"the attribute {name} of {tag}")
        if name == "href" and not value.startswith("#") or URL.search(value) or not PLAIN.fullmatch(value):
            self.wrong.append(f"{tag} {name}={value!r}")

    def handle_startendtag(self, tag, attrs):
        self.handle_starttag(tag, attrs)
        self.handle_endtag(tag)

    def handle_endtag(self, tag):
        if not self.open or self.open.pop() != tag:
            self.wrong.append(f"the end of {tag}")

    def handle_data(self, data):
        if self.open and self.open[-1] in self.inside:
            self.inside[self.open[-1]] += data
        else:
            self.texts.append(data)


def read_page(data):
    """A page, with all that is wrong with it."""
    page = Page()
    text = data.decode("latin-1")
    if "<style>" not in text or '<svg id="pic"' not in text:
        page.wrong.append("it is no page")
        return page
    page.feed(text)
    page.close()
    page.wrong += [f"{it} is left open" for it in page.open]
    page.wrong += ["a byte that is not printable ASCII"] if re.search(r"[^ -~\n]", text) else []
    page.wrong += [f"{page.counts[it]} elements {it}" for it in ("script", "style", "h1", "table") if page.counts[it] != 1]
    hashes = {it: base64.b64encode(hashlib.sha256(body.encode()).digest()).decode() for it, body in page.inside.items()}
    policy = f"default-src 'none'; style-src 'sha256-{hashes['style']}'; script-src 'sha256-{hashes['script']}'"
    page.wrong += [] if f'<meta http-equiv="Content-Security-Policy" content="{policy}">' in text else ["the policy"]
    # In a browser that makes pages dark the picture has to bring its own ground.
    page.wrong += [] if '</defs>\n<rect width="100%" height="100%" fill="#fff"/>\n' in text else ["the ground of the picture"]
    page.wrong += [] if text.index("Content-Security") < text.index("<style>") else ["the policy comes late"]
    begin, end = text.index('<svg id="pic"'), text.index("</svg>\n<details")
    try:
        xml.etree.ElementTree.fromstring(text[begin : end + len("</svg>")])
    except xml.etree.ElementTree.ParseError as fault:
        page.wrong.append(f"the picture is no XML: {fault}")
    return page


@dataclass
class Drawn:
    """The page of an example."""

    name: str
    source: Path
    trace: Path
    tool: str = "plot"

    def failure(self, programs):
        with open(self.trace, "rb") as trace:
            front = [programs["plot"], "--snc", programs["snc"], "--snl", programs["snl"]]
            ran = subprocess.run([*front, self.source], stdin=trace, capture_output=True, timeout=SECONDS)
        wrong = read_page(ran.stdout).wrong if not ran.returncode else [ran.stderr.decode()]
        return "\n  ".join([f"FAILED {self.name}", *wrong[:5]]) if wrong else None
