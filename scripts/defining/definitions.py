"""Definitions as Python functions: each is written when another one needs it first, clause by clause."""
from contextlib import contextmanager

from defining import library, values
from defining.names import Names
from defining.parser import clause_of
from defining.sources import NotUnderstood, file_of
from defining.writing import Writer, inner_name, library_name, python_name, waiting_name

# Definitions whose answers are kept while a program is run: they are asked the same again and again. What they give follows from what
# they are given alone, as with all definitions.
REMEMBERED = {
    "builtin_of", "declared_in", "flag_number", "flags_of", "format_number", "formats_of", "function_places", "functions_of", "number_of",
    "placed_in", "predefined", "program_scopes", "routines_in", "said_in_program", "scope_of", "sense_of", "shared_in", "shared_variables",
    "sites", "ties", "variable_in", "variables_of", "whole_value",
}  # fmt: skip


class NoClause(Exception):
    """No clause of a definition takes what it is given."""


def no_case(value):
    """No case of an `elim` takes a value."""
    raise NoClause(f"no case for {value!r:.80}")


class Definitions:
    """The definitions of a repository, as functions that can be called."""

    def __init__(self, root):
        """Those below a folder; none is read yet."""
        self.names, self.texts, self.takes, self.clauses, self.reached, self.kept = Names(root), {}, {}, [], bytearray(), []
        self.space = {
            "Record": values.Record,
            "Function": values.Function,
            "NIL": values.NIL,
            "NoClause": NoClause,
            "applied": values.applied,
            "applied_once": values.applied_once,
            "applied_twice": values.applied_twice,
            "appended": values.appended,
            "no_case": no_case,
            **{library_name(name): function for name, (_, function) in library.NAMES.items()},
            **{waiting_name(name): values.Function(function, takes) for name, (takes, function) in library.NAMES.items()},
        }

    def need(self, key):
        """How many arguments a definition takes; it is written first, if it is not there yet."""
        if key not in self.takes:
            file = self.names.file(key.crate, key.module)
            definition = self.names.definition(key)
            if not definition.clauses:
                raise NotUnderstood(f"{file.path()}:{definition.line}: {key.name} has no clauses")
            self.takes[key] = len(self.parsed(file, definition, definition.clauses[0])[0])
            self.write(key, file, definition)
        return self.takes[key]

    def parsed(self, file, definition, clause):
        """The patterns and the term of a clause. What is not understood is told with its place."""
        try:
            return clause_of(definition, clause, self.names.is_constructor(file))
        except NotUnderstood as failed:
            raise NotUnderstood(f"{file.path()}:{clause.line}: {definition.name}: {failed}") from None

    def write(self, key, file, definition):
        """Writes a definition."""
        takes, name = self.takes[key], python_name(key)
        lines = [f"def {name}({', '.join(f'a{at}' for at in range(takes))}):"]
        for clause in definition.clauses:
            lines += self.lines_of(key, file, definition, clause)
        lines.append(f"    raise NoClause({str(key)!r})")
        exec(compile("\n".join(lines), str(key), "exec"), self.space)
        for codes, text in self.texts.items():
            self.space.setdefault(text, values.listed(list(codes)))
        self.space[inner_name(key)] = self.space[name]
        if key.name in REMEMBERED or not takes:
            self.space[name] = self.remembering(self.space[name])

    def lines_of(self, key, file, definition, clause):
        """The lines of a clause."""
        patterns, term = self.parsed(file, definition, clause)
        try:
            if len(patterns) != self.takes[key]:
                raise NotUnderstood(f"it takes {self.takes[key]} arguments, and here {len(patterns)}")
            writer, tests, scope = Writer(self.names, file, self.need, self.texts, key), [], {}
            for at, pattern in enumerate(patterns):
                writer.match(pattern, f"a{at}", tests, scope)
            text = writer.text(term, scope)
        except NotUnderstood as failed:
            placed = str(failed).startswith("crates/")
            raise NotUnderstood(str(failed) if placed else f"{file.path()}:{clause.line}: {definition.name}: {failed}") from None
        self.clauses.append((key, clause))
        self.reached.append(0)
        return [f"    if {' and '.join(tests) or 'True'}:", f"        reached[{len(self.clauses) - 1}] = 1", f"        return {text}"]

    def remembering(self, function):
        """A function that keeps what it gave for the same arguments."""
        answers = {}
        self.kept.append(answers)

        def remembered(*arguments):
            key = tuple([it if type(it) is int else id(it) for it in arguments])
            found = answers.get(key)
            if found is None:
                # The arguments are kept too, so that no other value comes to stand in their place.
                found = answers[key] = function(*arguments), arguments
            return found[0]

        return remembered

    def forget(self):
        """Forgets what was kept of a program."""
        for answers in self.kept:
            answers.clear()

    @contextmanager
    def with_text(self, crate, module, text):
        """Has another text in the place of a file of definitions for a while: its definitions that are needed are written anew."""
        file, takes, space = self.names.file(crate, module), dict(self.takes), dict(self.space)
        self.names.files[crate, module] = other = file_of(crate, module, text)
        try:
            for key in [it for it in takes if (it.crate, it.module) == (crate, module)]:
                self.write(key, other, self.names.definition(key))
            self.forget()
            yield
        finally:
            self.names.files[crate, module], self.takes = file, takes
            self.space.clear()
            self.space.update(space)
            self.forget()

    def function(self, key):
        """A definition, ready to be applied."""
        takes, name = self.need(key), python_name(key)
        self.space["reached"] = self.reached
        return values.Function(self.space[name], takes) if takes else self.space[name]()
