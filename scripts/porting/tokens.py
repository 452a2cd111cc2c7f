"""Tokens of a source, each with what stands before it, so that all of them together are the source again."""
import re
from dataclasses import dataclass

PIECE = re.compile(
    r"""(?P<blank>[ \t\r\f\v]+)|(?P<newline>\n)|(?P<comment>/\*.*?\*/|//[^\n]*)|(?P<embedded>%\{.*?\}%|%%[^\n]*)
    |(?P<text>"(?:\\.|[^"\\\n])*")|(?P<character>'(?:\\.[0-7]*|[^'\\\n])')
    |(?P<number>0[xX][\w.]*|(?:\d|\.\d)(?:[eE][+-]|[\w.])*)|(?P<name>[A-Za-z_]\w*)
    |(?P<sign><<=|>>=|->|\+\+|--|<<|>>|<=|>=|==|!=|&&|\|\||[-+*/%&|^]=|[-+*/%&|^~!<>=?:;,.(){}\[\]])""",
    re.DOTALL | re.VERBOSE,
)

# A text, which is no comment whatever is in it, or a comment.
COMMENT = re.compile(r'("(?:\\.|[^"\\\n])*")|//[^\n]*|/\*.*?\*/', re.DOTALL)


@dataclass(eq=False)
class Token:
    """A piece of the source that means something."""

    # `text`, `character`, `number`, `name`, `sign`, or `end` behind the last one.
    kind: str
    spelled: str
    # Blanks, comments and lines of the preprocessor in front of it.
    before: str
    line: int
    # The name of the constant that it came from, as a comment.
    behind: str = ""
    # The lines of pieces of embedded C that stand in front of it.
    embedded: tuple = ()
    # Macros that are not replaced in it any more.
    hidden: frozenset = frozenset()

    def copy(self, line: int, before: str) -> "Token":
        """The same token at another place."""
        return Token(self.kind, self.spelled, before, line, hidden=self.hidden)

    def is_sign(self, spelled: str) -> bool:
        """Whether it is that sign."""
        return self.kind == "sign" and self.spelled == spelled


def harmless(text: str) -> str:
    """A text that may stand in a comment."""
    return text.replace("*/", "* /").replace("/*", "/ *")


def without_comments(text: str) -> str:
    """A text with a blank in the place of each comment."""
    return COMMENT.sub(lambda it: it[1] or " ", text)


def commented(text: str) -> str:
    """Lines of text, each as a comment; empty ones stay empty."""
    return "\n".join(f"// {line}" if line.strip() else line for line in text.split("\n"))
