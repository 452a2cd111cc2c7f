"""Writes a clause as Python: tests of the arguments by the patterns, and an expression by the term."""
import keyword
import re
from itertools import count

from defining.library import NAMES, PATTERNS, SIGNS
from defining.names import Constructor, Key, Library
from defining.sources import NotUnderstood
from defining.terms import (
    Anything, Applied, Bound, Cases, Fields, FirstAndRest,
    If, Joined, Lambda, Let, Made, NewRecord, NoItem, Number, Parts, Text, Word,
)

NUMBERED = count()


def attribute(name):
    """The Python name of a field."""
    plain = re.sub(r"[^A-Za-z0-9_]", lambda it: f"_{ord(it[0]):x}_", name)
    return plain + "_" if keyword.iskeyword(plain) else plain


def python_name(key):
    """The Python name of a definition."""
    return attribute(f"{key.crate}__{key.module}__{key.name}".replace(".", "_"))


def inner_name(key):
    """The name by which a definition calls itself: what it gives on the way is not kept."""
    return f"inner_{python_name(key)}"


def library_name(name):
    """The Python name of what the standard library has."""
    return "library_" + attribute(name)


def waiting_name(name):
    """The Python name of what the standard library has, as a function that waits for all its arguments."""
    return "waiting_" + attribute(name)


def applied_to(function, arguments):
    """The text of a function that is applied to one argument or more."""
    name = {1: "applied_once", 2: "applied_twice"}.get(len(arguments), "applied")
    return f"{name}({function}, {', '.join(arguments)})"


def fields_of(text, fields):
    """Fields of a record, or parts of a pair by number."""
    for name in fields:
        text = f"{text}[{name}]" if name.isdigit() else f"{text}.{attribute(name)}"
    return text


class Writer:
    """Writes one clause of a file of definitions. `need` has to know how many arguments a definition takes."""

    def __init__(self, names, file, need, texts, own):
        """For a clause of a definition in this file; texts that it has are put into a dictionary."""
        self.names, self.file, self.need, self.texts, self.own = names, file, need, texts, own

    # ---- patterns

    def match(self, pattern, place, tests, scope):
        """What has to be tested so that a pattern matches what stands at a place, and the names that it gives to parts of that."""
        if isinstance(pattern, Bound):
            if pattern.name in scope and pattern.name != "_":
                raise NotUnderstood(f"{pattern.name} is bound twice")
            scope[pattern.name] = place
        elif isinstance(pattern, NoItem):
            tests.append(f"not {place}")
        elif isinstance(pattern, FirstAndRest):
            tests.append(place)
            self.match(pattern.first, f"{place}[0]", tests, scope)
            self.match(pattern.rest, f"{place}[1]", tests, scope)
        elif isinstance(pattern, Parts):
            for at, part in enumerate(pattern.parts):
                self.match(part, f"{place}[{at}]", tests, scope)
        elif isinstance(pattern, Made):
            self.match_made(pattern, place, tests, scope)
        elif not isinstance(pattern, Anything):
            raise NotUnderstood(f"{pattern} is no pattern")

    def match_made(self, pattern, place, tests, scope):
        """The same of a constructor."""
        meaning = self.names.meaning(self.file, pattern.word)
        wanted = PATTERNS[meaning.name] if isinstance(meaning, Library) else meaning.arguments
        if len(pattern.arguments) != wanted:
            raise NotUnderstood(f"{pattern.word} has {wanted} arguments, and {len(pattern.arguments)} stand there")
        if isinstance(meaning, Constructor):
            tests.append(f"{place}[0] == {meaning.name!r}")
            parts = [f"{place}[{at}]" for at in range(1, wanted + 1)]
        else:
            test, part = {
                "true": ("{0}", ""),
                "false": ("not {0}", ""),
                "zero": ("{0} == 0", ""),
                "suc": ("{0} > 0", "({0} - 1)"),
                "pos": ("{0} >= 0", "{0}"),
                "negsuc": ("{0} < 0", "(-{0} - 1)"),
            }[meaning.name]
            tests.append(test.format(place))
            parts = [part.format(place)]
        for argument, part in zip(pattern.arguments, parts):
            self.match(argument, part, tests, scope)

    # ---- terms

    def text(self, term, scope):
        """The Python expression of a term, where names stand for these."""
        if type(term) not in FORMS:
            raise NotUnderstood(f"{term} is no term")
        return FORMS[type(term)](self, term, scope)

    def number(self, term, scope):
        """A number."""
        return str(term.value)

    def no_item(self, term, scope):
        """The empty list."""
        return "NIL"

    def parts(self, term, scope):
        """A pair."""
        return f"({', '.join(self.text(it, scope) for it in term.parts)})"

    def fields(self, term, scope):
        """Fields of a term."""
        return fields_of(self.text(term.term, scope), term.fields)

    def joined(self, term, scope):
        """Two terms with a sign between."""
        left, right = self.text(term.left, scope), self.text(term.right, scope)
        if term.sign == ">>=":
            key = self.names.meaning(self.file, "◌>>=◌")
            if not isinstance(key, Key):
                raise NotUnderstood(">>= is no definition here")
            return self.call(key, [left, right])
        return SIGNS[term.sign][2].format(left, right)

    def choice(self, term, scope):
        """One of two terms."""
        condition, yes, no = (self.text(it, scope) for it in (term.condition, term.yes, term.no))
        return f"({yes} if {condition} else {no})"

    def let(self, term, scope):
        """A term with a name for another one."""
        name = self.fresh()
        body = self.text(term.body, {**scope, term.name: name})
        return f"(({name} := {self.text(term.value, scope)},) and {body})"

    def function(self, term, scope):
        """A function."""
        names = [self.fresh() for _ in term.names]
        body = self.text(term.body, {**scope, **dict(zip(term.names, names))})
        return f"Function(lambda {', '.join(names)}: {body}, {len(names)})"

    def cases(self, term, scope):
        """The first case whose pattern matches."""
        name, written = self.fresh(), []
        for pattern, body in term.cases:
            tests, inside = [], {}
            self.match(pattern, name, tests, inside)
            written.append((" and ".join(tests) or "True", self.text(body, {**scope, **inside})))
        made = f"no_case({name})"
        for test, body in reversed(written):
            made = f"({body} if {test} else {made})"
        return f"(({name} := {self.text(term.term, scope)},) and {made})"

    def record(self, term, scope):
        """A new record."""
        fields = ", ".join(f"{attribute(name)}={self.text(value, scope)}" for name, value in term.fields)
        return f"{self.text(term.base, scope)}.but({fields})" if term.base else f"Record({fields})"

    def quoted(self, term, scope):
        """A text."""
        return self.constant(term.codes)

    def word(self, term, scope):
        """A word alone."""
        return self.apply(term.word, [], scope)

    def applied(self, term, scope):
        """A function with arguments."""
        arguments = [self.text(it, scope) for it in term.arguments]
        if isinstance(term.function, Word):
            return self.apply(term.function.word, arguments, scope)
        return applied_to(self.text(term.function, scope), arguments)

    # ---- names

    def fresh(self):
        """A Python name that nothing else has."""
        return f"v{next(NUMBERED)}"

    def constant(self, codes):
        """The name of a text."""
        key = tuple(codes)
        return self.texts.setdefault(key, f"text_{len(self.texts)}")

    def apply(self, word, arguments, scope):
        """What a word gives for some arguments."""
        front, *fields = word.split(".")
        if front in scope and front != "_":
            if fields and front in self.file.aliases:
                raise NotUnderstood(f"{word}: {front} is a name here, and one of a path too")
            function = fields_of(scope[front], fields)
            return applied_to(function, arguments) if arguments else function
        meaning = self.names.meaning(self.file, word)
        if meaning is not None:
            return self.call(meaning, arguments)
        if fields and front not in self.file.aliases and (meaning := self.names.meaning(self.file, front)) is not None:
            function = fields_of(self.call(meaning, []), fields)
            return applied_to(function, arguments) if arguments else function
        raise NotUnderstood(f"{word} is no definition, no constructor and no name of the library that is known here")

    def call(self, meaning, arguments):
        """The call of a definition, of a constructor or of what the library has, with as many arguments as there are."""
        if isinstance(meaning, Constructor):
            return self.construct(meaning, arguments)
        if isinstance(meaning, Library):
            name, takes = library_name(meaning.name), NAMES[meaning.name][0]
        else:
            takes = self.need(meaning)
            name = inner_name(meaning) if meaning == self.own else python_name(meaning)
        if isinstance(meaning, Library) and takes and not arguments:
            return waiting_name(meaning.name)
        if len(arguments) < takes:
            given = f", ({', '.join(arguments)},)" if arguments else ""
            return f"Function({name}, {takes - len(arguments)}{given})"
        made = f"{name}({', '.join(arguments[:takes])})"
        return applied_to(made, arguments[takes:]) if arguments[takes:] else made

    def construct(self, meaning, arguments):
        """What a constructor makes; a function, where arguments are missing."""
        if len(arguments) > meaning.arguments:
            raise NotUnderstood(f"{meaning.name} has {meaning.arguments} arguments, and {len(arguments)} stand there")
        names = [self.fresh() for _ in range(meaning.arguments - len(arguments))]
        made = f"({', '.join([repr(meaning.name), *arguments, *names])},)"
        return f"Function(lambda {', '.join(names)}: {made}, {len(names)})" if names else made


FORMS = {
    Applied: Writer.applied,
    Cases: Writer.cases,
    Fields: Writer.fields,
    If: Writer.choice,
    Joined: Writer.joined,
    Lambda: Writer.function,
    Let: Writer.let,
    NewRecord: Writer.record,
    NoItem: Writer.no_item,
    Number: Writer.number,
    Parts: Writer.parts,
    Text: Writer.quoted,
    Word: Writer.word,
}
