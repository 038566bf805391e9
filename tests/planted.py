"""The table of wrong bodies that were planted once, docs/internals/planted.tsv: what is wrong with its rows.

A row has four cells: crates, functions or constants, mistakes, and what shows the mistakes. Crates and functions are
separated by commas, mistakes and the items of the last cell by semicolons. An item is one of these:

- `contract`: a clause of the function, or of the trait's function; `clause NAME, ..` names it
- `invariant`: the invariant of a loop or of a type
- `case FILE: NAME`, `cases FILE`: cases of tests/cases
- `example PATH`: an expected output of examples/
- `test NAME`, `test NAME: WHAT`: a test of tests/, or a `#[test]` function
- `harmless: REASON`: nothing refuses the body, and nothing has to
- `open: REASON`: nothing refuses the body yet
"""
import functools
import glob
import json
import os
import re
from collections.abc import Iterator

from contracts import functions_of
from harness import TOP
from sources import code_of

TABLE = f"{TOP}/docs/internals/planted.tsv"
HEAD = ["crate", "function", "mistake", "shown by"]
CONSTANT = re.compile(r"\b(?:const|static) ([A-Z_]+)\b")
ITEM = re.compile(r"(?:^|; )(contract|clause|invariant|cases?|example|test|harmless|open)\b:? ?")


@functools.lru_cache(maxsize=None)
def clauses_in(crate: str) -> dict[str, list[str]]:
    """The functions of a crate, each with the names of its clauses, and its constants, which have none."""
    found: dict[str, list[str]] = {}
    for path in glob.glob(f"{TOP}/crates/{crate}/src/**/*.rt", recursive=True):
        found.update((name, []) for name in CONSTANT.findall(code_of(path)))
        for name, clauses in functions_of(path).items():
            found.setdefault(name, []).extend(clause for clause, _ in clauses)
    return found


@functools.lru_cache(maxsize=None)
def test_functions() -> set[str]:
    """The names of the functions of the crates that have tests and nothing else."""
    return {name for path in glob.glob(f"{TOP}/crates/*_tests/src/*.rt") for name in functions_of(path)}


def clauses_of(crates: list[str], function: str) -> list[str] | None:
    """The names of a function's clauses, in these crates; None if it isn't there. `Type::name` or `name` names it."""
    found = [
        clauses
        for crate in crates
        for name, clauses in clauses_in(crate).items()
        if function in (name, name.rpartition("::")[2])
    ]
    return [clause for clauses in found for clause in clauses] if found else None


def case_names(file: str) -> list[str]:
    """The names of the cases of a file; none if there is no such file."""
    try:
        with open(f"{TOP}/tests/cases/{file}.jsonl", encoding="utf-8") as lines:
            return [json.loads(line)["name"] for line in lines if line.strip()]
    except OSError:
        return []


def is_shown(kind: str, text: str, clauses: list[str]) -> bool:
    """Whether an item of the last cell names something that exists, given the clauses of the row's functions."""
    if kind == "clause":
        return set(text.split(", ")) <= set(clauses)
    if kind == "case":
        file, _, name = text.partition(": ")
        return name in case_names(file)
    if kind == "test":
        name = text.partition(":")[0]
        return os.path.exists(f"{TOP}/tests/{name}") or name in test_functions()
    return {
        "contract": not text,
        "invariant": not text,
        "cases": bool(case_names(text)),
        "example": os.path.exists(f"{TOP}/examples/{text}"),
    }.get(kind, bool(text))


def wrong(cells: list[str]) -> Iterator[str]:
    """What is wrong with a row."""
    if len(cells) != len(HEAD) or not all(cells):
        yield "it hasn't four cells with text"
        return
    found = {name: clauses_of(cells[0].split(", "), name) for name in cells[1].split(", ")}
    yield from (f"{cells[0]} has no function {name}" for name, clauses in found.items() if clauses is None)
    _, *parts = ITEM.split(cells[3])
    if not parts or not ITEM.match(cells[3]):
        yield f"no item of a known kind: {cells[3]}"
    for kind, text in zip(parts[::2], parts[1::2]):
        if not is_shown(kind, text, sum(filter(None, found.values()), [])):
            yield f"nothing like that exists: {kind} {text}"


def rows() -> Iterator[tuple[int, list[str]]]:
    """The rows of the table after its head, each with what is wrong with it."""
    with open(TABLE, encoding="utf-8") as lines:
        for number, line in enumerate(lines, 1):
            cells = line.rstrip("\n").split("\t")
            if number > 1:
                yield number, list(wrong(cells))
            elif cells != HEAD:
                yield number, [f"the head isn't {', '.join(HEAD)}"]
