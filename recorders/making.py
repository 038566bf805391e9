"""Scripts of interleaved sessions, made by rule: many sessions use few rows, and keys are used again.

They are for whoever writes a recorder: the ten cases have no update by values, no delete and no key that comes back.
"""
from __future__ import annotations

import random
from dataclasses import dataclass

SETUP = "setup (1, 10), (2, 20), (3, 30), stock (1, 11), stock (2, 22);"
COMMANDS = 30
TABLES = "test", "test", "test", "stock"
STATEMENTS = ("select",) * 5 + ("update",) * 6 + ("insert",) * 2 + ("delete",)
ENDS = (("commit", "begin"), ("commit", "begin"), ("commit", "begin"), ("abort", "begin"), ("commit",), ("begin",))
RESULTS = "value + 1", "value + 7", "value - 5", "12", "value + 0"
# Conditions by their positions in `conditions`: on ids; on values.
BY_IDS, BY_VALUES = (1, 2, 3, 4), (0, 5, 6, 7, 8)


@dataclass(frozen=True)
class Kind:
    """What a kind of scripts has more of."""

    about: str
    statements: tuple[str, ...] = STATEMENTS
    conditions: tuple[int, ...] = tuple(range(9))
    ending: float = 0.3  # the share of commands that end a transaction
    inserted: tuple[int, int] = (3, 9)  # the least and the greatest id of an insert
    results: tuple[str, ...] = RESULTS


KINDS = {
    "mixed": Kind("of everything"),
    "values": Kind("updates and deletes by value", ("select", "update", "update", "update", "delete"), BY_VALUES),
    "born": Kind("keys that are deleted and inserted again", ("select", "delete", "insert", "insert"), inserted=(1, 4)),
    "waits": Kind("statements that wait", ("select", "update", "update", "update"), BY_IDS, ending=0.15),
    "refused": Kind(
        "existing keys, values out of range, deadlocks",
        ("select", "update", "update", "insert"),
        ending=0.2,
        inserted=(1, 5),
        results=(*RESULTS, "value + 1000000000", "value - 1000000000"),
    ),
}


def conditions(draw: random.Random) -> tuple[str, ...]:
    row, low, high = draw.randint(1, 4), draw.randint(5, 20), draw.randint(8, 30)
    return (
        "",
        f" where id = {row}",
        f" where id = {row}",
        f" where id = {row}",
        f" where id in ({row}, {draw.randint(3, 7)})",
        f" where value > {high}",
        f" where value % 3 = {draw.randint(0, 2)}",
        f" where not (id = {row} or value < {low})",
        f" where value <= {high} and id <> {row}",
    )


def condition(draw: random.Random, kind: Kind) -> str:
    found = conditions(draw)
    return found[draw.choice(kind.conditions)]


def statement(draw: random.Random, kind: Kind) -> str:
    table, word = draw.choice(TABLES), draw.choice(kind.statements)
    if word == "select":
        return f"select * from {table}{condition(draw, kind)}"
    if word == "update":
        return f"update {table} set value = {draw.choice(kind.results)}{condition(draw, kind)}"
    if word == "insert":
        return f"insert into {table} (id, value) values ({draw.randint(*kind.inserted)}, {draw.randint(5, 35)})"
    return f"delete from {table}{condition(draw, kind)}"


def made(seed: int, name: str = "mixed") -> str:
    """A script: two to five sessions begin, and then come commands of any of them."""
    kind, draw = KINDS[name], random.Random(seed)
    sessions = range(1, draw.randint(2, 5) + 1)
    lines = [f"begin; -- T{session}" for session in sessions]
    for _ in range(COMMANDS):
        commands = draw.choice(ENDS) if draw.random() < kind.ending else (statement(draw, kind),)
        session = draw.choice(sessions)
        lines += [f"{command}; -- T{session}" for command in commands]
    return "\n".join([SETUP, *lines, ""])


def scripts(count: int, seed: int, names: tuple[str, ...]) -> list[str]:
    """Some scripts, of these kinds in turn; the first one has this seed, and the others the following ones."""
    return [made(seed + place, names[place % len(names)]) for place in range(count)]
