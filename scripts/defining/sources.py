"""Reads files of definitions (.antt): their imports, and of each definition its signature and its clauses, as text with line numbers.

Declared types, of which definitions speak by `declared`, are types of the code: of an enum the variants are read from its file (.rt)."""
import re
from dataclasses import dataclass, field
from pathlib import Path

WORDS = r"(?:(?:abbrev|unfoldable|pub|data|record)\s+)*"
# A definition is a name with a type behind a colon, a data type or a record a name behind its word.
HEAD = re.compile(rf"({WORDS})([^\s(){{}}:]+)(?=\s+:(?:\s|$))")
TYPE_HEAD = re.compile(r"((?:pub )?(?:data|record)\s+)(\S+)")
IMPORT = re.compile(r"(?:pub )?use (?P<path>[^{}\s]+?)(?:\.\{(?P<names>[^}]*)\}| as (?P<alias>\S+))?$")
TEXT = r'"(?:[^"\\]|\\.)*"'
COMMENT = re.compile(rf"({TEXT})|(?:^|(?<=\s))--(?:\s.*)?$")


class NotUnderstood(Exception):
    """A clause, or a name in it, that is not understood: what and where."""


@dataclass
class Clause:
    """The text of a clause and the line on which it begins."""

    text: str
    line: int


@dataclass
class Definition:
    """A definition: its name, whether it is a `term`, `data` or a `record`, its signature and its clauses."""

    name: str
    kind: str
    line: int
    signature: str
    clauses: list = field(default_factory=list)


@dataclass
class File:
    """A file of definitions of a crate: its definitions and constructors by name, and what its imports name."""

    crate: str
    module: str
    definitions: dict = field(default_factory=dict)
    # The number of arguments of each constructor.
    constructors: dict = field(default_factory=dict)
    # A name that is taken from elsewhere, with the path and the name there; and another name of a path.
    imported: dict = field(default_factory=dict)
    aliases: dict = field(default_factory=dict)

    def path(self):
        """Where the file stands in the repository."""
        return path_of(self.crate, self.module)


def path_of(crate, module):
    """Where a module of definitions stands in the repository."""
    return f"crates/{crate}/specs/{module.replace('.', '/')}.antt"


def bare(line):
    """A line without its comment and the blanks at its end."""
    return COMMENT.sub(lambda it: it[1] or "", line).rstrip()


def file_of(crate, module, text):
    """The file that a text is."""
    file, base, now = File(crate, module), 0, None
    for number, line in enumerate(text.split("\n"), 1):
        line = bare(line)
        word, indent = line.strip(), len(line) - len(line.lstrip())
        if not word:
            continue
        if re.match(r"(pub )?use ", word):
            take_import(file, word)
            now = None
        elif re.match(r"(pub )?mod ", word) or word.startswith("infix"):
            now = None
        elif word in ("mutual", "abbrev mutual"):
            base, now = 2, None
        elif now and (indent > base or word[0] in "}])"):
            extend(now, line)
        else:
            base = indent
            now = begun(file, word, number)
    for definition in file.definitions.values():
        if definition.kind == "data":
            file.constructors.update(constructors_in(definition.signature))
    return file


def extend(definition, line):
    """A further line of the last clause of a definition, or of its signature."""
    if definition.clauses:
        definition.clauses[-1].text += "\n" + line
    else:
        definition.signature += "\n" + line


def begun(file, word, number):
    """The definition whose signature or clause a line begins."""
    head = HEAD.match(word) or TYPE_HEAD.match(word)
    if head:
        kind = next((it for it in ("data", "record") if it in head[1]), "term")
        file.definitions[head[2]] = Definition(head[2], kind, number, word)
        return file.definitions[head[2]]
    if not file.definitions:
        raise NotUnderstood(f"{file.path()}:{number}: this is no definition: {word}")
    definition = list(file.definitions.values())[-1]
    definition.clauses.append(Clause(word, number))
    return definition


def take_import(file, line):
    """What a line `use ..` brings into a file."""
    found = IMPORT.match(line)
    if not found:
        raise NotUnderstood(f"{file.path()}: {line}")
    path = tuple(found["path"].split("."))
    if found["names"] is None:
        file.aliases[found["alias"] or path[-1]] = path
        return
    for item in found["names"].split(","):
        name, _, other = item.strip().partition(" as ")
        file.imported[other or name] = (path, name)


def constructors_in(text):
    """The constructors of a data type, with how many arguments each has."""
    found, indent = {}, 0
    for line in text.split("\n")[1:]:
        label = re.match(r"\s+([^\s():]+) : (.*)", line)
        if label:
            name, indent = label[1], len(line) - len(line.lstrip())
            found[name] = label[2]
        elif found and len(line) - len(line.lstrip()) > indent:
            found[name] += "\n" + line
        else:
            raise NotUnderstood(f"this is no constructor: {line.strip()}")
    return {name: arguments_in(type_text) for name, type_text in found.items()}


def arguments_in(type_text):
    """How many arguments something of a type takes. `(a b : T)` are as many as it has names; each other arrow outside of brackets is one."""
    count, depth, part = 0, 0, ""
    for sign in type_text + "→":
        depth += {"(": 1, "{": 1, ")": -1, "}": -1}.get(sign, 0)
        if sign != "→" or depth:
            part += sign
            continue
        count += names_in(part)
        part = ""
    return count - 1


def names_in(part):
    """How many arguments a part between two arrows stands for: binders, which may follow each other, or a type."""
    binders = re.findall(r"\(([^():]+) : ", part) if re.match(r"\s*\([^():]+ : ", part) else []
    return sum(len(it.split()) for it in binders) + bool(re.search(r"\)\s*[^\s()]+\s*$", part)) if binders else 1


def variants_in(text, name):
    """The variants of an enum in a file of code, each with how many members it has; None where the file has no such enum."""
    text = re.sub(r"(?m)//.*$", "", text)
    found = re.search(rf"\benum {name}\b[^{{]*\{{", text)
    if not found:
        return None
    variants, depth, part = {}, 0, ""
    for sign in text[found.end() :]:
        if sign == "}" and not depth:
            break
        depth += {"(": 1, "{": 1, "[": 1, "<": 1, ")": -1, "}": -1, "]": -1, ">": -1}.get(sign, 0)
        if sign == "," and not depth:
            variants.update(variant_of(part))
            part = ""
        else:
            part += sign
    variants.update(variant_of(part))
    return variants


def variant_of(part):
    """The name of a variant with the number of its members; nothing for blanks."""
    found = re.match(r"\s*(?:#\[[^\]]*\]\s*)*(\w+)\s*(?:([({])(.*)[)}])?\s*$", part, re.DOTALL)
    if not found:
        return {}
    depth, commas, last = 0, 0, ""
    for sign in found[3] or "":
        depth += {"(": 1, "<": 1, "[": 1, ")": -1, ">": -1, "]": -1}.get(sign, 0)
        if sign == "," and not depth:
            commas += 1
            last = ""
        else:
            last += sign
    return {found[1]: commas + bool(last.strip())}


def texts_below(root):
    """The text of a file below a folder, by its path, each read once."""
    kept = {}

    def text_of(path):
        if path not in kept:
            kept[path] = Path(root, path).read_text(encoding="utf8")
        return kept[path]

    return text_of
