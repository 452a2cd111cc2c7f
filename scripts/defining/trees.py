"""Makes the tree of a program, as the definitions have it, of what `snl tree` writes.

docs/tools/tree.md tells that form. Which forms there are, and of what they are made, is read from the definitions of `snl_syntax`."""
import json
import re
from dataclasses import dataclass

from defining.sources import NotUnderstood
from defining.values import NIL, NONE, Record, listed, some
from defining.writing import attribute

CRATE = "snl_syntax"
MODULES = ("Expressions", "Declarations", "Statements", "Functions", "Definitions", "Programs")
# The form of the last row.
WHOLE = "ProgramTree"
# Rows of lists, with how many parts they have.
LISTS = {"nil": 0, "cons": 2}


class BadTree(Exception):
    """Something that is no tree of a program: what."""


@dataclass
class Form:
    """A form of a tree: its name, the type that it belongs to, the types of its parts, and where it is a record their names."""

    name: str
    type: str
    parts: list
    names: list


def types_in(file):
    """The forms of the trees in a file of definitions."""
    for definition in file.definitions.values():
        lines = [it.strip().removeprefix("pub ") for it in definition.signature.split("\n")[1:]]
        labels = [it.partition(" : ")[::2] for it in lines]
        if definition.kind == "record":
            yield Form(definition.name, definition.name, [it[1] for it in labels], [it[0] for it in labels])
        elif definition.kind == "data":
            for name, type_text in labels:
                *parts, made = re.split(r" → ", type_text)
                if made != definition.name:
                    raise NotUnderstood(f"{file.path()}:{definition.line}: {name} : {type_text}")
                yield Form(name, definition.name, parts, [])


class Trees:
    """Makes trees by the forms that the definitions have."""

    def __init__(self, names):
        """With the forms of the files of definitions of a repository."""
        self.forms = {it.name: it for module in MODULES for it in types_in(names.file(CRATE, module))}

    def program(self, text):
        """The tree of a program, of the text that `snl tree` wrote."""
        try:
            rows = json.loads(text)
        except ValueError as failed:
            raise BadTree(f"this is no JSON: {failed}") from None
        if not isinstance(rows, list):
            raise BadTree("this is no list of rows")
        made = [("", None)]
        for row in rows:
            made.append(self.tree(row, made))
        form, tree = made[-1]
        if form != WHOLE:
            raise BadTree(f"the last row is no {WHOLE}")
        return tree

    def tree(self, row, made):
        """The tree of a row, with the type that it has; the rows before it were made."""
        if not isinstance(row, list) or not row:
            raise BadTree(f"this is no row: {row!r:.80}")
        name, *parts = row
        if name in LISTS and len(parts) == LISTS[name]:
            return self.list_of(parts, made)
        form = self.forms.get(name) if isinstance(name, str) else None
        if not form or len(form.parts) != len(parts):
            raise BadTree(f"there is no such tree: {row!r:.80}")
        values = [self.value(type_text, part, made) for type_text, part in zip(form.parts, parts)]
        if form.names:
            return form.type, Record(**dict(zip(map(attribute, form.names), values)))
        return form.type, (form.name, *values)

    def list_of(self, parts, made):
        """A list: nothing, or its first thing and the rest, with the type of its things."""
        if not parts:
            return "List", NIL
        first, rest = parts
        kind, thing = ("Token", token_of(first)) if isinstance(first, list) else self.made_by(first, made)
        kinds, things = self.made_by(rest, made)
        if kinds not in ("List", f"List {kind}"):
            raise BadTree(f"these belong to no list: {kind} and {kinds}")
        return f"List {kind}", (thing, things)

    def made_by(self, number, made):
        """The tree of the row with a number, with its type."""
        if type(number) is not int or not 1 <= number < len(made):
            raise BadTree(f"no row before has the number {number!r:.80}")
        return made[number]

    def value(self, type_text, part, made):
        """A value of a type: a token, a truth value, something that may be missing, or a tree by the number of its row."""
        word, _, inner = type_text.partition(" ")
        if word == "Option":
            return NONE if part is None else some(self.value(inner, part, made))
        if word == "Bool" and isinstance(part, bool):
            return part
        if word == "Token":
            return token_of(part)
        found, tree = self.made_by(part, made)
        if found not in (type_text, "List") or found == "List" and word != "List":
            raise BadTree(f"row {part} is {found}, and not {type_text}")
        return tree


def token_of(part):
    """A token: its kind, its text, a letter a byte, and its place."""
    if not isinstance(part, list) or list(map(type, part)) != [str, str, int, int, int]:
        raise BadTree(f"this is no token: {part!r:.80}")
    kind, text, offset, file, line = part
    return Record(kind=(kind,), text=Record(now=listed(list(text.encode("latin-1")))), pos=Record(offset=offset, file=file, line=line))
