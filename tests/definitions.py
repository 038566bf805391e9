"""How definitions of specs/ are read: each is cut out of its file with its comment, clause by clause, and the names in
it followed to what they are of.

Of the language of definitions as much is known as this needs. A definition begins at a line with `name : type`, behind
which its clauses stand, or with `record` or `data`. A name in it is bound there: before a `:` in brackets, behind a
`λ`, before a `←`, in the pattern of a clause, as a field of a record. Or it is what the file defines, or what a `use`
brings in. What is neither is an error, and so is a name that is both. Of a type of the code contracts see its parts, or
where it has a model the value of that.
"""
import functools
import os
import re
from typing import NamedTuple

from declared import file_of, type_in
from harness import TOP
from sources import SEPARATOR, names_in

USE = re.compile(r"^(?:pub )?use (.+)$")
HEAD = re.compile(r"^(?:(?:abbrev|unfoldable|pub|record|data) )*(?P<name>[^\s(){}]+)(?: [({][^=]*?[)}])* : ")
PART = re.compile(r"^  (?:pub )?(?P<name>[^\s(){}]+|\([^:]*\)) : ")
TOKEN = re.compile(r"\[\]|[^\s(){}\[\],;]+")
BINDER = re.compile(r"[({]([^(){}:]+?) : ")
LAMBDA = re.compile(r"λ ([^.]+)\.")
STEP = re.compile(r"(\S+) ←")
FIELD = re.compile(r"(?<=[{;] )\S+ = ")
QUOTED = re.compile(r'"[^"]*"')
TYPE = re.compile(r"\b[A-Z]\w*")
# Types of the code that need no word here.
PLAIN = {"Option"}
# Signs that stand for what a name does.
SIGNS = {"←": ">>="}
# What the language has, and no `use` brings in.
WORDS = set("→ × ¬ λ : = _ Type Unit tt ⊥ abbrev unfoldable pub record data where do".split())


class Word(NamedTuple):
    """What the kit defines, by its path."""

    path: str

    @property
    def file(self):
        """The module that has it."""
        return self.path.rpartition(".")[0]

    @property
    def name(self):
        """Its name there."""
        return self.path.rpartition(".")[2]


def bound_in(text):
    """The names that are bound in a text, but for those of a pattern."""
    found = [*BINDER.finditer(text), *LAMBDA.finditer(text), *STEP.finditer(text)]
    return {name for one in found for name in one.group(1).split()}


class Clause(NamedTuple):
    """What is declared, or one case of it: its lines as they stand, and in one line without comments."""

    lines: list
    text: str


class Definition:
    """A definition: its file, its name, its comment, its clauses, the cases that it has of its own, and its line where
    order counts."""

    def __init__(self, file, name, comment, clauses, variants, scope, place=0):
        self.file, self.name, self.comment, self.clauses, self.variants = file, name, comment, clauses, variants
        self.scope, self.place, self.case = scope, place, None

    def key(self):
        """What tells it apart."""
        return self.file, self.name, self.case

    def lines(self):
        """Its lines, with those of its comment."""
        return [*self.comment, *(line for clause in self.clauses for line in clause.lines)]

    def shown(self):
        """What is shown of it: its lines, and a mark where cases are left out."""
        return self.lines() + (["-- .."] if self.case else [])

    def shared(self):
        """The names that a record or a data type binds in all of its parts: its parameters and its fields."""
        parts = [found["name"] for clause in self.clauses if (found := PART.match(clause.text))]
        return bound_in(self.clauses[0].text) | (set() if self.variants else set(parts)) if parts else set()

    def own(self):
        """The names that are of itself in its clauses."""
        return {self.name, *filter(None, self.name.split("◌"))}

    def uses(self):
        """What it rests on, in the order in which it stands there, itself left out."""
        shared = self.shared()
        for clause in self.clauses:
            for what in self.used_in(clause.text, shared):
                if (what.file, what.name) != (self.file, self.name):
                    yield what

    def used_in(self, text, shared):
        """What the names of a clause are of."""
        bound, own = shared | bound_in(text), self.own()
        pattern, is_clause, _ = text.partition(" = ")
        if is_clause and not HEAD.match(text) and not PART.match(text):
            bound.update(token for token in TOKEN.findall(pattern) if not self.is_case(token))
        for token in TOKEN.findall(FIELD.sub(" ", text)):
            token = token.strip("λ").rstrip(".") if token.strip(".") else token
            token = SIGNS.get(token, token)
            if not token or token[0] in ".0123456789\"" or token in WORDS or token in own:
                continue
            if token.partition(".")[0] in bound:
                if self.scope.is_name(token):
                    raise LookupError(f"{self.file}: {token} is bound in {self.name}, and a name besides")
                continue
            what = self.scope.find(token)
            if what is None:
                raise LookupError(f"{self.file}: nobody knows what {token} is in {self.name}")
            yield what

    def is_case(self, token):
        """Whether a name of a pattern is a case of a data type, and not a variable."""
        what = self.scope.find(token)
        return token.rpartition(".")[2] in what.variants if isinstance(what, Definition) else what is not None

    def only(self, case):
        """As much of it as speaks of one case: what is declared, and the clauses whose pattern has the case."""
        head, *others = self.clauses
        return self.part(case, [head, *(clause for clause in others if self.is_of(clause, case))])

    def without(self, fields):
        """A record without some of its fields."""
        found = [(PART.match(clause.text), clause) for clause in self.clauses]
        return self.part("aside", [clause for part, clause in found if not part or part["name"] not in fields])

    def part(self, case, clauses):
        """Some clauses of it."""
        part = type(self)(self.file, self.name, self.comment, clauses, self.variants, self.scope, self.place)
        part.case = case
        return part

    def is_of(self, clause, case):
        """Whether a clause speaks of a case."""
        return case in re.findall(r"\w+", clause.text.partition(" = ")[0])


class Scope:
    """What the names of a file stand for: what it defines, and the paths that its `use`s bring in."""

    def __init__(self, uses):
        self.defined, self.paths = {}, {}
        for tree in uses:
            for name, path in names_in(tree):
                self.bring(name, self.paths, path)

    def bring(self, name, table, what):
        """Notes a name. Of an operator each part stands for it too."""
        table[name] = what
        for part in name.split("◌") if "◌" in name else ():
            table[part] = what

    def is_name(self, token):
        """Whether a name is that of a definition, and no other word for a path."""
        return token in self.defined or SEPARATOR.split(self.paths.get(token, ""))[-1] == token

    def find(self, token):
        """The definition or the word of the kit that a name is of; None where it is of neither."""
        head, *rest = token.split(".") if token.strip(".") else [token]
        if head in self.defined:
            return self.defined[head]
        return resolve(".".join([self.paths[head], *rest])) if head in self.paths else None


@functools.lru_cache(maxsize=None)
def module(file):
    """What stands in a file of specs/."""
    with open(f"{TOP}/{file}", encoding="utf-8") as source:
        lines = source.read().splitlines()
    scope = Scope(found.group(1) for line in lines if (found := USE.match(line)))
    comment, definition = [], None
    for number, line in enumerate(lines, 1):
        head = HEAD.match(line)
        if line.startswith("--"):
            comment = [] if line.startswith("-- ----") else [*comment, line]
            continue
        if not line or USE.match(line) or line.startswith(("infix", "pub mod ")):
            comment = comment if line.startswith("infix") else []
            continue
        text = re.sub(r"(^| )--( .*)?$", "", QUOTED.sub('""', line))
        if head:
            definition = Definition(file, head["name"], comment, [], set(), scope, number)
            scope.bring(head["name"], scope.defined, definition)
        part = PART.match(text)
        if part and re.match(r"(pub )?data ", definition.clauses[0].text):
            for name in part["name"].strip("()").split():
                definition.variants.add(name)
                scope.bring(name, scope.defined, definition)
        if head or part or not line.startswith("  "):
            definition.clauses.append(Clause(([] if head else comment) + [line], text))
        else:
            before = definition.clauses.pop()
            definition.clauses.append(Clause(before.lines + comment + [line], f"{before.text} {text.strip()}"))
        comment = []
    return scope


def split(folder, names, ending):
    """The file of a folder that the first of some names are the path of, and the names behind those."""
    for count in range(len(names), 0, -1):
        file = f"{folder}/{'/'.join(names[:count])}{ending}"
        if os.path.isfile(f"{TOP}/{file}"):
            return file, names[count:]
    return None, names


@functools.lru_cache(maxsize=None)
def resolve(path):
    """What a path is of: a definition of the crates, a declared type, or else a word of the kit."""
    names = path.split(".")
    if names[0] != "Rattle" or not names[1].startswith("lab_") or names[3] == "contracts":
        return Word(path)
    crate, inner = f"crates/{names[1]}", names[3:]
    if inner[0] == "declared":
        file, (name, *_) = split(f"{crate}/src", inner[1:], ".rt")
        return declared(file, name)
    file, rest = split(f"{crate}/specs", inner, ".antt")
    if file is not None:
        return module(file).find(rest[0]) if rest else None
    passed_on = module(f"{crate}/specs/Lib.antt").paths.get(inner[0])
    return resolve(".".join([passed_on, *inner[1:]])) if passed_on else None


class Declared(Definition):
    """A type of the code, as contracts see it."""

    def shown(self):
        """What is shown of it. A mark stands before the closing brace."""
        lines = self.lines()
        return [*lines[:-1], "    // ..", lines[-1]] if self.case else lines

    def is_of(self, clause, case):
        """Whether a clause is the variant of this name, or the end of all."""
        return re.match(r" *(\w*)", clause.lines[-1]).group(1) in {case, ""}

    def uses(self):
        """What its parts are of."""
        for clause in self.clauses:
            for name in TYPE.findall(clause.text):
                file = file_of(self.file, name)
                if file is not None and (file, name) != (self.file, self.name):
                    yield declared(file, name)
                elif file is None and name not in PLAIN:
                    raise LookupError(f"{self.file}: nobody knows what {name} is in {self.name}")


class Modelled(Definition):
    """A type of the code that contracts see as a value."""

    def own(self):
        """None: its value may be one of the same name."""
        return ()

    def shared(self):
        """The names that stand for any type."""
        return set(TYPE.findall(self.clauses[0].lines[0].partition(self.name)[2].partition(" ")[0]))


@functools.lru_cache(maxsize=None)
def declared(file, name):
    """A type that a file declares."""
    found = type_in(file, name)
    if found.value:
        shown = Clause([f"{found.parts[0].lines[0]}    {found.value}"], found.value.partition(" = ")[2])
        return Modelled(file, name, found.comment, [shown], set(), Scope(found.uses))
    clauses = [Clause(part.lines, part.types) for part in found.parts]
    return Declared(file, name, found.comment, clauses, {part.variant for part in found.parts} - {None}, Scope(()))
