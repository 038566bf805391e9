"""A reference implementation of the names of anomalies: which names a cycle of a sound history has, from the papers'
definitions. It shares nothing with the program but the format of histories; statements are read by recorders/script.py.

The definitions of the papers are over orders of reads and writes, as in r1[x] .. w2[x] .. w1[x]. Here, `older` is what
"reads x before T2 writes it" is in a history of versions: the version that was read precedes T2's in the order in which
the row's versions were installed. What a transaction reads of its own writes isn't compared with others' writes.

An operation reads a row if its result depends on the row's value: a select that returns the row; an update or a delete that
matches it and that computes with its value or has a condition on it. `update test set value = 5 where id = 1` overwrites the
row without reading it, whatever version it finds.

lost update           P4 of Berenson et al. 1995: r1[x] .. w2[x] .. w1[x], where T1 writes "based on its earlier read value".
                      T1's first write of x is later than T2's; its operation saw an older version than T2's, or it doesn't
                      read x, and T1's last read of x before it is older than T2's version
read skew             A5A of Berenson et al. 1995: r1[x] .. w2[x] .. w2[y] .. c2 .. r1[y], of two rows x and y
non-repeatable read   P2 of Berenson et al. 1995, fuzzy read, as A2: r1[x] .. w2[x] .. c2 .. r1[x], of one row x
write skew            A5B of Berenson et al. 1995: r1[x] .. r2[y] .. w1[y] .. w2[x], of two rows: an anti-dependency each way
long fork             Sovran et al. 2011: one reader saw T1's write and not T2's, another one T2's and not T1's
read-only anomaly     Fekete, O'Neil and O'Neil 2004: under snapshot isolation, a transaction that writes nothing makes a
                      history not serializable that is serializable without it
phantom               P3 of Berenson et al. 1995: r1[P] .. w2[y in P]. T1 comes before T2 only because a predicate of T1's
                      missed T2's write: there is no other dependency from T1 to T2

A name of two transactions is given to a cycle if two neighbours in it have the anomaly; that of the long fork, if its four
transactions are the cycle; and the read-only anomaly, if the reader is in it."""
import sys
from dataclasses import dataclass
from functools import cached_property

from harness import TOP

sys.path.insert(1, f"{TOP}/recorders")
import script  # noqa: E402
import statement as statements  # noqa: E402

Row = tuple[str, int]
LOST, SKEW, FUZZY = "lost update", "read skew", "non-repeatable read"
WRITE_SKEW, FORK, READ_ONLY, PHANTOM = "write skew", "long fork", "read-only anomaly", "phantom"
FORKED = 4  # the transactions of a long fork


def by_row(members: list) -> dict:
    return {(table, id): value for table, id, value in members}


class Operation:
    """An operation of a history file."""

    def __init__(self, given: dict):
        self.statement = script.statement_of(given["statement"])
        self.rows, self.writes = by_row(given["rows"]), by_row(given["writes"])
        self.view = {(table, id): (no, place) for table, id, no, place in given["view"]}

    @cached_property
    def uses_values(self) -> bool:
        """Whether what it does to a row depends on the row's value."""
        how = self.statement
        has_sign = bool(how.change and how.change[0])
        return how.kind == "select" or has_sign or bool(how.where and "value" in statements.columns(how.where))

    def reads(self, row: Row) -> bool:
        return row in self.rows and self.uses_values

    def matches(self, row: Row, value: int | None) -> bool:
        """Whether its predicate matches a row with this value; None if the row is absent."""
        return value is not None and row[0] == self.statement.table and self.statement.matches(row[1], value)


@dataclass(frozen=True)
class Edge:
    """A dependency of two transactions, as the report prints it."""

    first: int
    kind: str
    row: Row
    second: int


def is_acyclic(edges: set[tuple]) -> bool:
    """Whether a graph has no cycle."""
    after: dict = {}
    for first, second in edges:
        after.setdefault(first, set()).add(second)
        after.setdefault(second, set())
    before = dict.fromkeys(after, 0)
    for seconds in after.values():
        for second in seconds:
            before[second] += 1
    free, left = [node for node, count in before.items() if not count], len(before)
    while free:
        left -= 1
        for second in after[free.pop()]:
            before[second] -= 1
            if not before[second]:
                free.append(second)
    return not left


class History:
    """A sound history: its committed transactions, and the versions of its rows. The position of a version is its place in
    the order of installation; 0 is the initial version."""

    def __init__(self, given: dict):
        whole = [txn for txn in given["transactions"] if txn["outcome"] == "committed"]
        self.ops = {txn["no"]: [Operation(op) for op in txn["ops"]] for txn in whole}
        self.installed = by_row(given["installed"])
        self.initial = by_row(given["initial"])

    def position(self, row: Row, no: int) -> int:
        """The position of a transaction's version of a row, or 0 if it installed none."""
        by = self.installed.get(row, [])
        return by.index(no) + 1 if no in by else 0

    def saw(self, op: Operation, row: Row) -> int:
        """The position of the version of a row that an operation saw."""
        return self.position(row, op.view[row][0]) if row in op.view else 0

    def is_own(self, no: int, op: Operation, row: Row) -> bool:
        return row in op.view and op.view[row][0] == no

    def states(self, row: Row) -> list[int | None]:
        """The values of a row's versions, by position; None where the row is absent."""
        found = [self.initial.get(row)]
        for no in self.installed[row]:
            found.append(next(op.writes[row] for op in reversed(self.ops[no]) if row in op.writes))
        return found

    @cached_property
    def edges(self) -> set[Edge]:
        """The dependencies, by the table of docs/REPORT.md, "Dependencies"."""
        found = set()
        for row, by in self.installed.items():
            found |= {Edge(first, "ww", row, second) for first, second in zip(by, by[1:])}
            states = self.states(row)
            for no, ops in self.ops.items():
                for op in ops:
                    found |= set(self.of_item(no, op, row, by)) | set(self.of_predicate(no, op, row, states))
        return {edge for edge in found if edge.first != edge.second}

    def of_item(self, no: int, op: Operation, row: Row, by: list[int]):
        """The dependencies of an operation that returned a row."""
        if row in op.rows and not self.is_own(no, op, row):
            seen = self.saw(op, row)
            if seen:
                yield Edge(by[seen - 1], "wr", row, no)
            if seen < len(by):
                yield Edge(no, "rw", row, by[seen])

    def of_predicate(self, no: int, op: Operation, row: Row, states: list):
        """The dependencies on the writes that changed whether a row matches. An operation that saw its own transaction's
        version has none."""
        if self.is_own(no, op, row):
            return
        seen, by = self.saw(op, row), self.installed[row]
        for place, writer in enumerate(by, 1):
            if op.matches(row, states[place - 1]) != op.matches(row, states[place]):
                yield Edge(writer, "wr-p", row, no) if place <= seen else Edge(no, "rw-p", row, writer)

    def is_serializable(self, without: int | None = None) -> bool:
        """Whether no dependencies form a cycle, of all transactions or of all but one."""
        pairs = {(edge.first, edge.second) for edge in self.edges}
        return is_acyclic({pair for pair in pairs if without not in pair})

    @cached_property
    def is_snapshot(self) -> bool:
        """Whether starts and commits can be ordered, by the table of docs/REPORT.md, "Snapshots"."""
        found = {(("start", no), ("commit", no)) for no in self.ops}
        for edge in self.edges:
            first, second = ("start", "commit") if edge.kind.startswith("rw") else ("commit", "start")
            found.add(((first, edge.first), (second, edge.second)))
        return is_acyclic(found)

    def positions_read(self, no: int, row: Row) -> list[int]:
        """The positions at which a transaction's operations read a row; what it wrote itself doesn't count."""
        return [self.saw(op, row) for op in self.ops[no] if op.reads(row) and not self.is_own(no, op, row)]

    def read_older(self, no: int, row: Row, other: int) -> bool:
        """Whether a transaction read a row that another one wrote, in an older version."""
        return any(seen < self.position(row, other) for seen in self.positions_read(no, row))

    def read_newer(self, no: int, row: Row, other: int) -> bool:
        """Whether a transaction read a row that another one wrote, in that one's version or a later one."""
        return any(seen >= self.position(row, other) for seen in self.positions_read(no, row))

    def rows_by(self, no: int) -> list[Row]:
        """The rows of which a transaction installed a version."""
        return [row for row, by in self.installed.items() if no in by]

    def wrote_nothing(self, no: int) -> bool:
        return not any(op.writes for op in self.ops[no])

    def loses(self, loser: int, other: int, row: Row) -> bool:
        """Whether a transaction's write of a row is lost by another one's."""
        lost, ops = self.position(row, loser), self.ops[other]
        if not 0 < lost < self.position(row, other):
            return False
        place = next(place for place, op in enumerate(ops) if row in op.writes)
        writing = ops[place]
        if writing.statement.kind == "insert":
            return False
        if self.saw(writing, row) < lost:
            return True
        if writing.uses_values:
            return False
        earlier = [self.saw(op, row) for op in ops[:place] if op.reads(row)]
        return bool(earlier) and earlier[-1] < lost


def is_lost_update(history: History, one: int, other: int) -> bool:
    return any(history.loses(one, other, row) for row in history.rows_by(one))


def is_read_skew(history: History, reader: int, writer: int) -> bool:
    rows = history.rows_by(writer)
    missed = {row for row in rows if history.read_older(reader, row, writer)}
    found = {row for row in rows if history.read_newer(reader, row, writer)}
    return any(one != other for one in missed for other in found)


def is_fuzzy_read(history: History, reader: int, writer: int) -> bool:
    rows = history.rows_by(writer)
    return any(history.read_older(reader, row, writer) and history.read_newer(reader, row, writer) for row in rows)


def is_write_skew(history: History, one: int, other: int) -> bool:
    there = {edge.row for edge in history.edges if (edge.first, edge.kind, edge.second) == (one, "rw", other)}
    back = {edge.row for edge in history.edges if (edge.first, edge.kind, edge.second) == (other, "rw", one)}
    return any(row != another for row in there for another in back)


def is_phantom(history: History, reader: int, writer: int) -> bool:
    return {edge.kind for edge in history.edges if (edge.first, edge.second) == (reader, writer)} == {"rw-p"}


def is_long_fork(history: History, first: int, saw_first: int, second: int, saw_second: int) -> bool:
    """Whether one reader saw the first write and not the second, and the other reader the second and not the first."""
    return any(
        one != other
        and history.read_newer(saw_first, one, first) and history.read_older(saw_first, other, second)
        and history.read_newer(saw_second, other, second) and history.read_older(saw_second, one, first)
        for one in history.rows_by(first) for other in history.rows_by(second)
    )


def is_read_only_anomaly(history: History, reader: int) -> bool:
    return history.is_snapshot and history.wrote_nothing(reader) and history.is_serializable(without=reader)


PAIRS = {LOST: is_lost_update, SKEW: is_read_skew, FUZZY: is_fuzzy_read, WRITE_SKEW: is_write_skew}


def names_of(history: History, cycle: list[Edge]) -> set[str]:
    """The names of a cycle of a history."""
    nodes = [edge.first for edge in cycle]
    steps = {(edge.first, edge.second) for edge in cycle}
    pairs = steps | {(second, first) for first, second in steps}
    found = {name for name, holds in PAIRS.items() if any(holds(history, *pair) for pair in pairs)}
    turned = [nodes[place:] + nodes[:place] for place in range(len(nodes))]
    if len(nodes) == FORKED and any(is_long_fork(history, *four) for four in turned):
        found.add(FORK)
    if any(is_read_only_anomaly(history, no) for no in nodes):
        found.add(READ_ONLY)
    if any(is_phantom(history, *step) for step in steps):
        found.add(PHANTOM)
    return found
