"""Variables of a program, their types, and the groups of quantities that have one unit."""
from dataclasses import dataclass, field
from enum import Enum, auto
from fractions import Fraction
from typing import Optional


class Kind(Enum):
    """What a value is."""

    WHOLE = auto()
    QUANTITY = auto()
    TEXT = auto()
    FLAG = auto()
    # The first byte of a text, which tells whether it is empty.
    BYTE = auto()
    CONSTANT = auto()
    STRUCTURE = auto()
    NOTHING = auto()
    UNKNOWN = auto()


class Owner(Enum):
    """Where a variable is declared."""

    PROGRAM = auto()
    SET = auto()
    BLOCK = auto()
    PARAMETER = auto()
    RESULT = auto()
    STRUCTURE = auto()


@dataclass(frozen=True)
class Type:
    """A type: its kind, and how C spells it."""

    kind: Kind
    spelled: str


@dataclass(eq=False)
class Group:
    """Quantities that meet each other, and so have one unit, 10^-digits."""

    members: list["Variable"]
    joined_to: "Optional[Group]" = None
    constants: list[Fraction] = field(default_factory=list)
    # Groups with how many digits more than theirs this one needs.
    finer_than: list[tuple["Group", int]] = field(default_factory=list)
    products: list[tuple["Group", "Group"]] = field(default_factory=list)
    # What is added up in it: the factors of a step, the digits of its constant, and whether the sum itself is in it, as in a mean.
    steps: list[tuple[tuple["Group", ...], int, bool]] = field(default_factory=list)
    # Products that are stored in it as they are, and whether quantities are added up in it: then each of them is a step, too.
    stored: list[tuple[tuple["Group", ...], int, bool]] = field(default_factory=list)
    is_sum: bool = False
    # The quantities of quotients that are stored in it, and those by which it is divided.
    quotients: list[tuple["Group", ...]] = field(default_factory=list)
    over: list["Group"] = field(default_factory=list)
    # Groups of which it is a square root.
    roots: list["Group"] = field(default_factory=list)
    is_given: bool = False
    is_told: bool = False
    digits: int = 0

    def top(self) -> "Group":
        """The group that this one became a part of."""
        group = self
        while group.joined_to:
            group = group.joined_to
        return group

    def join(self, other: "Group") -> None:
        """Makes one group of two."""
        here, there = self.top(), other.top()
        if here is not there:
            there.joined_to = here
            here.members += there.members
            here.constants += there.constants
            here.finer_than += there.finer_than
            here.products += there.products
            here.steps += there.steps
            here.roots += there.roots
            here.stored += there.stored
            here.quotients += there.quotients
            here.over += there.over
            here.is_sum = here.is_sum or there.is_sum


@dataclass(eq=False)
class Channels:
    """What a variable is assigned to."""

    names: list[str] = field(default_factory=list)
    # One channel for each element, from the first on.
    is_list: bool = False
    # Elements that are assigned one by one: the expression of the subscript, and the channel.
    elements: list[tuple[object, str]] = field(default_factory=list)

    def all_names(self) -> list[str]:
        """The names of all channels, but empty ones."""
        return [it for it in [*self.names, *(name for _, name in self.elements)] if it]


@dataclass(eq=False)
class Variable:
    """A variable, a parameter, the result of a function, or a name of an enumeration."""

    name: str
    kind: Kind
    spelled_type: str
    # The size of each dimension: an expression, a number, or None where nothing is said.
    dimensions: list
    line: int
    owner: Owner
    # What it is called in the port.
    new_name: str = ""
    # The value of a name of an enumeration.
    value: int = 0
    channels: Optional[Channels] = None
    is_monitored: bool = False
    # Whether it is handed on to other state sets by a link without a channel.
    is_shared: bool = False
    # Whether it stands where only a text can.
    is_text: bool = False
    members: "Optional[dict[str, Variable]]" = None
    group: Optional[Group] = None
    # What is asked of it, where it is a text of a channel of which one thing alone is.
    pattern: Optional[object] = None
    # The numbers that are written in it, where it is a text of a channel from which some are read.
    numbers: "list[Variable]" = field(default_factory=list)

    def __post_init__(self):
        self.new_name = self.new_name or self.name
        if self.kind is Kind.QUANTITY:
            self.group = Group([self])

    def digits(self) -> int:
        """The digits behind the point that its numbers have: K where its unit is 10^-K."""
        return self.group.top().digits if self.group else 0
