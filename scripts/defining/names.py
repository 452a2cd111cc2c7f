"""What the names in a file of definitions mean: definitions, constructors, or names of the standard library."""
from dataclasses import dataclass

from defining.library import CONSTRUCTORS, NAMES, PATTERNS
from defining.sources import NotUnderstood, file_of, path_of, texts_below, variants_in

ROOT = "Rattle"
# Paths of the kit begin with this, or with one of these behind ROOT.
DENOTED, LIBRARY = "denote", ("std", "core")


@dataclass(frozen=True)
class Constructor:
    """A constructor with the number of its arguments."""

    name: str
    arguments: int


@dataclass(frozen=True)
class Library:
    """A name of the standard library."""

    name: str


@dataclass(frozen=True)
class Key:
    """A definition: its crate, its module and its name."""

    crate: str
    module: str
    name: str

    def __str__(self):
        """As a reader finds it."""
        return f"{self.crate} {self.module} {self.name}"


# What no file imports.
BUILT_IN = {"tt": Constructor("tt", 0), "⊥": Library("⊥"), "Unit": Library("Unit")}


class Names:
    """The files of definitions of a repository, each read once, and what the names in them mean."""

    def __init__(self, root):
        """Those below a folder."""
        self.text_of, self.files, self.enums = texts_below(root), {}, {}

    def file(self, crate, module):
        """A file, read when it is first asked for."""
        if (crate, module) not in self.files:
            try:
                text = self.text_of(path_of(crate, module))
            except OSError as failed:
                raise NotUnderstood(f"{path_of(crate, module)}: {failed.strerror}") from None
            self.files[crate, module] = file_of(crate, module, text)
        return self.files[crate, module]

    def definition(self, key):
        """A definition with its clauses."""
        return self.file(key.crate, key.module).definitions[key.name]

    def meaning(self, file, word):
        """What a word means in a file, without the fields behind it; None where it means nothing there."""
        if word in file.constructors:
            return Constructor(word, file.constructors[word])
        if word in file.definitions and file.definitions[word].kind == "term":
            return Key(file.crate, file.module, word)
        front, _, rest = word.partition(".")
        if rest and front in file.aliases:
            return self.found(file.aliases[front], rest)
        if word in file.imported:
            return self.found(*file.imported[word])
        return BUILT_IN.get(word)

    def found(self, path, name):
        """What a name means at the end of a path."""
        if path[0] == DENOTED or path[0] == ROOT and path[1] in LIBRARY:
            return library_name(name)
        if path[0] != ROOT or len(path) < 4 or path[2] != "specs":
            raise NotUnderstood(f"{'.'.join(path)} is no path that is known")
        if path[3] == "declared":
            return self.variant(path, name)
        if path[3] == "contracts":
            return library_name(name)
        return self.meaning(self.file(path[1], ".".join(path[3:])), name)

    def variant(self, path, name):
        """A variant of a declared enum, of which the path names the file and the type; None for the type itself."""
        crate, *modules, type_name = (path[1], *path[4:-1]) if path[-1] == "TheVariants" else (path[1], *path[4:])
        key = crate, "/".join(modules), type_name
        if key not in self.enums:
            self.enums[key] = self.read_enum(crate, modules, type_name)
        variants = self.enums[key]
        return Constructor(name, variants[name]) if path[-1] == "TheVariants" and name in variants else None

    def read_enum(self, crate, modules, type_name):
        """The variants of an enum of the code; none of a type that is no enum."""
        try:
            return variants_in(self.text_of(f"crates/{crate}/src/{'/'.join(modules)}.rt"), type_name) or {}
        except OSError as failed:
            raise NotUnderstood(f"{type_name} of {crate}: {failed.strerror}") from None

    def is_constructor(self, file):
        """A test whether a word is a constructor in a file."""

        def test(word):
            meaning = self.meaning(file, word)
            return isinstance(meaning, Constructor) or isinstance(meaning, Library) and meaning.name in PATTERNS

        return test


def library_name(name):
    """A name of the standard library."""
    if name in CONSTRUCTORS:
        return Constructor(name, CONSTRUCTORS[name])
    return Library(name) if name in NAMES else None
