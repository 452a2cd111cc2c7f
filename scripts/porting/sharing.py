"""Variables that state sets share: without safe mode they become links without a channel, which hand values on."""
from dataclasses import dataclass, field

from porting.binding import all_stored_by, behind_and, subscripts_of, variable_of
from porting.definitions import Definitions
from porting.notes import BROKEN, DECIDE, KNOW, OTHERWISE, REST
from porting.tree import (
    Action,
    Assignment,
    Block,
    Call,
    Declaration,
    Expression,
    For,
    Function,
    If,
    Name,
    Node,
    Option,
    Postfix,
    Prefix,
    While,
    every,
)
from porting.variables import Kind, Variable


@dataclass
class Uses:
    """The variables of the program that a part of it stores to, and those that it reads."""

    stored: dict[Variable, None] = field(default_factory=dict)
    read: dict[Variable, None] = field(default_factory=dict)

    def add(self, other: "Uses") -> None:
        """Adds the uses of another part."""
        self.stored.update(other.stored)
        self.read.update(other.read)


class Sharing(Definitions):
    """Finds what is shared."""

    def __init__(self, *given):
        super().__init__(*given)
        options = [it for it in self.program.definitions if isinstance(it, Option)]
        signs = [it.sign for it in options if "s" in it.letters]
        self.is_safe = bool(signs) and signs[-1] == "+"
        declarations = [it for it in self.program.definitions if isinstance(it, Declaration)]
        self.globals = dict.fromkeys(it.variable for one in declarations for it in one.declarators)
        self.function_uses: dict[str, Uses] = {}
        # What is said of shared variables, with the variables of which it is.
        self.shares: dict[tuple[str, str, int], list[Variable]] = {}

    def find_shared(self) -> None:
        """Marks the variables that state sets share, and notes each."""
        for it in self.program.definitions:
            if isinstance(it, Function):
                self.function_uses[it.name] = self.uses(it.body)
        uses = {it.name: self.uses(it) for it in self.program.sets}
        for variable in sorted(self.globals, key=lambda it: it.line):
            setters = [name for name, it in uses.items() if variable in it.stored]
            readers = [
                name for name, it in uses.items() if variable in it.read and any(setter != name for setter in setters)
            ]
            if setters and readers and variable.kind not in (Kind.UNKNOWN, Kind.CONSTANT):
                self.share(variable, "', '".join(setters), "', '".join(readers))
        self.tell_shared()

    def share(self, variable: Variable, setters: str, readers: str) -> None:
        """Shares a variable, or notes why it is not."""
        front = f"set in '{setters}' and read in '{readers}'"
        copies = "each state set has a copy"
        is_free = variable.channels is None and not variable.members
        kind, worth = DECIDE, OTHERWISE
        if self.is_safe:
            text, worth = f"{front}: {copies}, as the program says itself by +s: it is never handed on", BROKEN
        elif is_free and self.is_scratch(variable):
            kind, text, worth = KNOW, f"set before it is read in each block: {copies}", REST
        elif is_free:
            variable.is_shared = True
            kind, text = KNOW, f"{front}: it is handed on by a link without a channel"
        else:
            text = f"{front}: {copies}" + (", until the next value comes" if variable.is_monitored else "")
        self.shares.setdefault((kind, text, worth), []).append(variable)

    def tell_shared(self) -> None:
        """Notes what is shared: variables of which the same is said have one line."""
        for (kind, text, worth), variables in self.shares.items():
            names, is_one = ", ".join(f"'{it.name}'" for it in variables), len(variables) == 1
            told = text if is_one else text.replace(": it is", ": they are").replace("before it is", "before they are")
            self.notes.add(variables[0].line, kind, f"{names} {'is' if is_one else 'are'} {told}", worth)

    def uses(self, node: Node) -> Uses:
        """The uses in a node, with those of the functions that it calls."""
        found = Uses()
        places: list[Expression] = []
        if isinstance(node, Assignment):
            places = [node.left]
            self.store(found, node.left)
            if node.sign != "=":
                self.read(found, node.left)
        elif isinstance(node, (Prefix, Postfix)) and node.sign in ("++", "--"):
            self.store(found, node.operand)
        elif isinstance(node, Call):
            found.add(self.function_uses.get(node.function, Uses()))
            places = all_stored_by(node)
            for it in places:
                self.store(found, it)
            if node.function == "pvPut":
                return found
        elif isinstance(node, Name):
            self.read(found, node)
        for child in node.children():
            place = behind_and(child) if isinstance(child, Expression) else child
            is_place = any(it is place for it in places)
            for it in subscripts_of(place) if is_place else [child]:
                found.add(self.uses(it))
        return found

    def store(self, uses: Uses, place: Node) -> None:
        """Keeps a variable of the program that is stored to."""
        variable = variable_of(place)
        if variable in self.globals:
            uses.stored[variable] = None

    def read(self, uses: Uses, place: Node) -> None:
        """Keeps a variable of the program that is read."""
        variable = variable_of(place)
        if variable in self.globals:
            uses.read[variable] = None

    def is_scratch(self, variable: Variable) -> bool:
        """Whether a variable is stored to by `=` first, wherever it stands: then nothing is handed on by it."""
        used = [it for it in self.outer_parts() if self.mentions(it, variable)]
        return all(isinstance(it, Block) and self.begins_with_store(it.items, variable) for it in used)

    def outer_parts(self) -> list[Node]:
        """Conditions and blocks that stand in no other block."""
        parts: list[Node] = [it.body for it in self.program.definitions if isinstance(it, Function)]
        for state in [it for one in self.program.sets for it in one.states]:
            parts += [*state.entries, *state.exits]
            parts += [it for clause in state.clauses for it in clause.children()]
        return [*parts, *self.program.blocks]

    def mentions(self, node: Node, variable: Variable) -> list[Name]:
        """The places where a variable stands, in the order of the source."""
        return [it for it in every(node) if isinstance(it, Name) and it.variable is variable]

    def begins_with_store(self, nodes: list[Node], variable: Variable) -> bool:
        """Whether the first that some statements do with a variable is a store by `=`."""
        used = [it for it in nodes if self.mentions(it, variable)]
        if not used:
            return True
        first = used[0]
        if isinstance(first, Block):
            return self.begins_with_store(first.items, variable)
        if isinstance(first, Action):
            return self.is_stored_first(first.expression, variable)
        if isinstance(first, For) and first.head[0] is not None and self.mentions(first.head[0], variable):
            return self.is_stored_first(first.head[0], variable)
        if isinstance(first, (If, While, For)) and len(used) == 1:
            return all(self.begins_with_store([it], variable) for it in first.children())
        return False

    def is_stored_first(self, node: Expression, variable: Variable) -> bool:
        """Whether the first mention of a variable in an expression is what `=` stores to."""
        first = self.mentions(node, variable)[0]
        stores = [it for it in every(node) if isinstance(it, Assignment) and it.sign == "=" and it.left is first]
        return bool(stores) and not self.mentions(stores[0].right, variable)
