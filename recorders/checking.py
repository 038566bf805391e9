"""Whether a history is a play of a script: the lines that it leaves out, and what it has beyond them.

A history doesn't say which session ran a transaction. Each session's transactions are in the order of their numbers, as
they begin in that order. Among all ways to assign them, the one with the fewest differences counts.
"""
from __future__ import annotations

from dataclasses import dataclass, field
from difflib import SequenceMatcher
from heapq import heappop, heappush
from typing import Any, Iterable, Iterator, NamedTuple

from script import Script
from statement import Command

MOST = 5_000  # assignments that are followed, until the first one at hand is taken
SKIPPED = 2  # the most transactions of a session that are left out, one after another


@dataclass
class Block:
    """A transaction of a script: its statements, its `commit` or `abort` if there is one."""

    session: int
    statements: list[Command] = field(default_factory=list)
    end: Command | None = None

    def refused(self, lines: frozenset[int]) -> int:
        """The position of the first refused statement, or of the end."""
        found = (place for place, command in enumerate(self.statements) if command.line in lines)
        return next(found, len(self.statements))

    def is_refused(self, lines: frozenset[int]) -> bool:
        return any(command.line in lines for command in [*self.statements, *([self.end] if self.end else [])])


class Recorded(NamedTuple):
    """A transaction of a history."""

    no: int
    is_committed: bool
    statements: tuple[str, ...]


class Way(NamedTuple):
    """An assignment of the transactions so far. In their order, the one with the fewest differences comes first, and among
    those the one that has got furthest."""

    cost: int  # the number of differences
    behind: int  # the number of transactions so far, negated; one more is the end of the sessions
    places: tuple[int, ...]  # the next block of each session
    differences: tuple[str, ...]

    def after(self, places: tuple[int, ...], more: tuple[str, ...]) -> Way:
        return Way(self.cost + len(more), self.behind - 1, places, self.differences + more)


def blocks_of(script: Script) -> dict[int, list[Block]]:
    """The transactions of each session. A `begin` inside of one is skipped, and so is any other command outside."""
    found: dict[int, list[Block]] = {}
    opened: dict[int, Block] = {}
    for command in script.commands:
        session, block = command.session, opened.get(command.session)
        if command.kind == "begin":
            if not block:
                opened[session] = Block(session)
                found.setdefault(session, []).append(opened[session])
        elif block and command.statement:
            block.statements.append(command)
        elif block:
            block.end = opened.pop(session) and command
    return found


def recorded_of(history: dict[str, Any]) -> list[Recorded]:
    txns = sorted(history["transactions"], key=lambda txn: int(txn["no"]))
    return [
        Recorded(txn["no"], txn["outcome"] == "committed", tuple(op["statement"] for op in txn["ops"])) for txn in txns
    ]


def missing(command: Command) -> str:
    return f"missing: line {command.line}: T{command.session} {command.printed()}"


def without(block: Block, lines: frozenset[int]) -> tuple[str, ...]:
    """The differences if a whole transaction is left out; one without statements may be."""
    return tuple(missing(command) for command in block.statements[: block.refused(lines)])


def compared(txn: Recorded, block: Block, due: Iterable[Command]) -> tuple[str, ...]:
    """The statements of a transaction that differ from those of these commands."""
    commands = list(due)
    found: list[str] = []
    pairs = SequenceMatcher(None, [command.printed() for command in commands], txn.statements, autojunk=False)
    for what, begin, end, first, last in pairs.get_opcodes():
        if what != "equal":
            found += map(missing, commands[begin:end])
            found += [f"extra: T{txn.no} op {place + 1}: {txn.statements[place]}" for place in range(first, last)]
    return tuple(found)


def differences(txn: Recorded, block: Block, lines: frozenset[int]) -> tuple[str, ...]:
    """How a transaction differs from its lines in the script. After a refused statement, it has no more of them, or all
    of the others where the database goes on."""
    wrong = wrong_outcome(txn, block, lines)
    found = compared(txn, block, block.statements[: block.refused(lines)])
    if found and block.refused(lines) < len(block.statements):
        others = [command for command in block.statements if command.line not in lines]
        found = min(found, compared(txn, block, others), key=len)
    return found + wrong


def wrong_outcome(txn: Recorded, block: Block, lines: frozenset[int]) -> tuple[str, ...]:
    commits = block.end is not None and block.end.kind == "commit"
    if txn.is_committed and not commits:
        return (f"differs: T{txn.no} has committed, and session {block.session} doesn't commit it",)
    if commits and not txn.is_committed and not block.is_refused(lines):
        assert block.end is not None
        return (f"{missing(block.end)}: T{txn.no} is aborted, and nothing of it was refused",)
    return ()


def faults(script: Script, history: dict[str, Any], refused: Iterable[int] = ()) -> list[str]:
    """The differences between a history and a play of a script, in which the database refused these lines."""
    by_session = blocks_of(script)
    sessions = [by_session[session] for session in sorted(by_session)]
    return list(Assigning(sessions, recorded_of(history), frozenset(refused)).fewest())


class Assigning:
    """The blocks of each session, and the transactions that are assigned to them."""

    def __init__(self, sessions: list[list[Block]], txns: list[Recorded], lines: frozenset[int]) -> None:
        self.sessions, self.txns, self.lines = sessions, txns, lines
        self.known: dict[tuple[int, int, int], tuple[str, ...]] = {}

    def fewest(self) -> tuple[str, ...]:
        """The differences of the best assignment. After MOST ways, it follows the one at hand to its end."""
        waiting, met = [Way(0, 0, (0,) * len(self.sessions), ())], set()
        while True:
            way = heappop(waiting)
            if -way.behind > len(self.txns):
                return way.differences
            if way[1:3] not in met:
                met.add(way[1:3])
                if len(met) > MOST:
                    waiting = []
                for after in self.steps(way):
                    heappush(waiting, after)

    def steps(self, way: Way) -> Iterator[Way]:
        """The assignments of one more transaction: to one of the next blocks of a session, or to none."""
        at = -way.behind
        if at == len(self.txns):
            left = (self.skipped(place, begin, len(self.sessions[place])) for place, begin in enumerate(way.places))
            yield way.after(way.places, tuple(text for texts in left for text in texts))
            return
        txn = self.txns[at]
        texts = enumerate(txn.statements or ("no statement",), 1)
        yield way.after(way.places, tuple(f"extra: T{txn.no} op {place}: {text}" for place, text in texts))
        for place, begin in enumerate(way.places):
            for end in range(begin, min(begin + 1 + SKIPPED, len(self.sessions[place]))):
                places = (*way.places[:place], end + 1, *way.places[place + 1 :])
                yield way.after(places, self.skipped(place, begin, end) + self.different(at, place, end))

    def skipped(self, place: int, begin: int, end: int) -> tuple[str, ...]:
        return tuple(text for block in self.sessions[place][begin:end] for text in without(block, self.lines))

    def different(self, at: int, place: int, end: int) -> tuple[str, ...]:
        key = at, place, end
        if key not in self.known:
            self.known[key] = differences(self.txns[at], self.sessions[place][end], self.lines)
        return self.known[key]
