"""The claims whose definitions docs/THEOREM.md has, and what each rests on."""
import functools
from typing import NamedTuple

from contracts import functions_of
from declared import GHOST_USE
from definitions import TOKEN, Scope, Word
from harness import TOP
from sources import code_of

MEANINGS = f"{TOP}/tests/theorem.tsv"
JUDGING = "crates/lab_judge/src/judging.rt"
READING = "crates/lab_history_file/src/reading.rt"
STATEMENT_LAWS = "crates/lab_statement/src/laws.rt"


class Promise(NamedTuple):
    """A clause of a public function, or as much of what it names as speaks of one case."""

    file: str
    function: str
    clause: str
    case: str = None


class Claim(NamedTuple):
    """A claim: its clauses; the names that aren't followed, since a law among the clauses tells of them; and by names of
    records the parts of them that another claim is about."""

    promises: list
    told: frozenset = frozenset()
    aside: dict = {}


def judged(clause, case=None):
    """A clause of the function that judges a history."""
    return Promise(JUDGING, "judge", clause, case)


HELD = [Promise(READING, "read_history", "held")]
# What a file keeps besides: limits, and that no transaction has the number of another.
RULES = {"HoldsHistory": {"short"}, "IsFileIn": {"keeps"}, "SpellsStatement": {"bytes", "printed"}}
REFUSED = [
    Promise(READING, "read_history", "fault"),
    Promise(READING, "read_history", "long"),
    Promise(STATEMENT_LAWS, "statement_is_read_from_its_text", "ensures"),
]
CLAIMS = {
    "serial": Claim([judged("serial", "Yes")]),
    "snapshot": Claim([judged("snapshot", "Yes")]),
    "fault": Claim([judged("serial", "NoFault"), judged("snapshot", "NoFault"), judged("fault")]),
    "cycle": Claim([judged("serial", "NoCycle"), judged("snapshot", "NoCycle")]),
    "phenomena": Claim([judged("found")]),
    "file": Claim(HELD, aside=RULES),
    "rules": Claim(HELD),
    "refusal": Claim(REFUSED, frozenset({"statement_in"})),
}
# What the counts are of: a title, and the parts that it is made of.
COUNTS = {
    "a yes of serializable": ["serial"],
    "a yes of snapshot": ["snapshot"],
    "a no by a fault": ["fault"],
    "a no by a cycle": ["cycle"],
    "each phenomenon": ["phenomena"],
    "the reader": ["file", "rules", "refusal"],
    "a yes of serializable, with what a file holds": ["serial", "file"],
}


def clause_of(promise):
    """The text of a promise's clause. (Clauses hold no quotes and no comments.)"""
    return " ".join(dict(functions_of(f"{TOP}/{promise.file}")[promise.function])[promise.clause].split())


def named_in(promise):
    """What a promise's clause names, of one case as much as speaks of that."""
    scope = Scope(GHOST_USE.findall(code_of(f"{TOP}/{promise.file}")))
    for token in TOKEN.findall(clause_of(promise)):
        what = scope.find(token.strip("λ").rstrip("."))
        if what is not None:
            yield what if isinstance(what, Word) or promise.case is None else what.only(promise.case)


@functools.lru_cache(maxsize=None)
def reached(part):
    """The definitions that a part rests on, each behind those that it names, and the words of the kit."""
    claim, found, words, passed = CLAIMS[part], {}, set(), set()

    def follow(what, case):
        if isinstance(what, Word):
            words.add(meaning_of(what))
            return
        if case is not None and case in what.variants and what.case is None:
            what = what.only(case)
        if what.name in claim.aside:
            what = what.without(claim.aside[what.name])
        if what.name in claim.told or what.key() in passed:
            return
        passed.add(what.key())
        for named in what.uses():
            follow(named, what.case)
        found[what.key()] = what

    for promise in claim.promises:
        for what in named_in(promise):
            follow(what, None)
    return whole(found), words


def whole(found):
    """Definitions without the parts of those that are there as a whole."""
    return {key: what for key, what in found.items() if what.case is None or (*key[:2], None) not in found}


@functools.lru_cache(maxsize=None)
def meanings():
    """The words of the kit: of each name, behind that of its module, its form and what it means."""
    with open(MEANINGS, encoding="utf-8") as lines:
        return {name: (form, meaning) for name, form, meaning in (line.rstrip("\n").split("\t") for line in lines)}


def meaning_of(word):
    """The name under which a word of the kit is explained."""
    name = word.name if word.name.count("◌") != 2 else word.name.strip("◌")
    key = f"{word.file.rpartition('.')[2]}.{name}"
    if key not in meanings():
        raise LookupError(f"tests/theorem.tsv doesn't explain {key}, of {word.path}")
    return key


def size(definitions):
    """How many lines definitions have."""
    return sum(len(what.lines()) for what in definitions.values())


def joined(parts):
    """What some parts rest on together."""
    found, words = {}, set()
    for part in parts:
        found.update(reached(part)[0])
        words |= reached(part)[1]
    return whole(found), words
