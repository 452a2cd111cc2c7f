"""What all parts of a port share: the tokens, the tree, the notes, and the changes of the text."""
import re
from dataclasses import dataclass, field
from fractions import Fraction
from typing import Optional

from porting.notes import KNOW, Notes
from porting.tokens import Token, harmless
from porting.tree import Node, Program

# The digits behind the point that a quantity has at least, and at most.
LEAST_DIGITS, MOST_DIGITS = 3, 12
# The finest unit that a number of 64 bits has room for.
MOST_OF_UNIT = 18


def unit_of(digits: int) -> str:
    """A unit as it is written."""
    return f"10^-{digits}" if digits else "1"


@dataclass
class Settings:
    """What the words of the call say."""

    units: dict[str, int] = field(default_factory=dict)
    finer: int = 0
    is_sketch: bool = False
    # Delays of quantities that are told apart, in seconds.
    delays: tuple[Fraction, ...] = ()
    # Whether a state is made that waits for the answer to a put with SYNC.
    waits: bool = False
    # The texts of macros in the names of channels, as the call of the program gives them.
    macros: dict[str, str] = field(default_factory=dict)


class Work:
    """A program that is being ported. Changes are kept as text in the place of tokens, and beside tokens."""

    def __init__(self, tokens: list[Token], program: Program, notes: Notes, settings: Settings):
        self.tokens, self.program, self.notes, self.settings = tokens, program, notes, settings
        self.least_digits = LEAST_DIGITS + settings.finer
        self.most_digits = MOST_DIGITS + settings.finer
        self.changes: dict[int, tuple[int, str]] = {}
        self.in_front: dict[int, str] = {}
        self.behind: dict[int, str] = {}
        self.names = {it.spelled for it in tokens if it.kind == "name"}
        self.by_hand_word = self.free("BY_HAND")

    def free(self, name: str) -> str:
        """A name that the program does not use."""
        while name in self.names:
            name += "_"
        return name

    def say(self, node: Node, kind: str, text: str, worth: Optional[int] = None) -> None:
        """Notes a text for the line in which a node begins."""
        self.notes.add(self.tokens[node.first].line, kind, text, worth)

    def spelled(self, first: int, end: int) -> str:
        """The source from a token up to another one, without what stands in front of it."""
        parts = [(it.before if at else "") + it.spelled + it.behind for at, it in enumerate(self.tokens[first:end])]
        return "".join(parts)

    def source(self, node: Node) -> str:
        """A node as the source has it, with the names of constants in their places."""
        parts = []
        for at, token in enumerate(self.tokens[node.first : node.end]):
            parts.append((token.before if at else "") + (token.behind.strip(" /*") or token.spelled))
        return "".join(parts)

    def named(self, node: Node) -> str:
        """A node in one line, for a comment."""
        return harmless(re.sub(r"\s+", " ", self.source(node)))

    def woven(self, node: Node, parts: list[tuple[Node, str]]) -> str:
        """The source of a node with other text in the places of some nodes in it, in their order."""
        text, at = "", node.first
        for part, new in parts:
            while at < part.first:
                text += self.one(at, node.first)
                at += 1
            text += self.tokens[at].before if at > node.first else ""
            # Two signs that would become another one.
            text += f" {new}" if text[-1:] in ("-", "+") and text[-1:] == new[:1] else new
            at = part.end
        while at < node.end:
            text += self.one(at, node.first)
            at += 1
        return text

    def one(self, at: int, first: int) -> str:
        """A token with what stands in front of it, but for the first."""
        token = self.tokens[at]
        return (token.before if at > first else "") + token.spelled + token.behind

    def change(self, first: int, end: int, text: str) -> None:
        """Puts a text in the place of tokens, if it is another one, with as many lines as they have."""
        old = self.spelled(first, end)
        if text != old:
            self.changes[first] = (end, text + "\n" * (old.count("\n") - text.count("\n")))

    def comment_out(self, node: Node, note: str) -> None:
        """Makes a comment of a node, and notes why."""
        self.say(node, KNOW, note)
        self.changes[node.first] = (node.end, f"/* {harmless(self.spelled(node.first, node.end))} */")
