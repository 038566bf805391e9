"""Runs the statements of a history again on SQLite, and compares what they return, write and leave with the recording."""
import json
import re
import sqlite3

from script import Wrong, statement_of

COLUMNS = "id integer primary key, value integer not null check (value between -1000000000 and 1000000000)"


class Differs(Exception):
    """The run differs from the recording."""


class NothingToReplay(Exception):
    """A file or a report that can't be replayed."""


class Tables:
    """The current tables of a history, in a separate SQLite database in memory."""

    def __init__(self, rows, names):
        self.connection = sqlite3.connect(":memory:", isolation_level=None)
        for name in names:
            self.connection.execute(f'create table "{name}" ({COLUMNS})')
        self.names = names
        self.install(rows)

    def copy(self):
        made = Tables({}, ())
        self.connection.backup(made.connection)
        made.names = self.names
        return made

    def listed(self, table, condition="true"):
        question = f'select id, value from "{table}" where {condition}'
        return {(table, id): value for id, value in self.connection.execute(question)}

    def rows(self):
        return {row: value for name in self.names for row, value in self.listed(name).items()}

    def install(self, writes):
        """Stores written rows: a value, or None for a deleted row."""
        for (name, id), value in writes.items():
            self.connection.execute(f'delete from "{name}" where id = {id}')
            if value is not None:
                self.connection.execute(f'insert into "{name}" values ({id}, {value})')

    def run(self, statement):
        """Runs a statement; returns the returned rows and the written rows, each with its value."""
        name = statement.table
        if statement.kind == "insert":
            self.connection.execute(f'insert into "{name}" values ({statement.row[0]}, {statement.row[1]})')
            return {}, {(name, statement.row[0]): statement.row[1]}
        listed = self.listed(name, statement.condition())
        if statement.kind == "select":
            return listed, {}
        which = f"where {statement.condition()}"
        if statement.kind == "delete":
            self.connection.execute(f'delete from "{name}" {which}')
            return listed, dict.fromkeys(listed)
        change = f'update "{name}" set value = {statement.result()} {which} returning id, value'
        return listed, {(name, id): value for id, value in self.connection.execute(change).fetchall()}


class History:
    """The committed transactions of a file of either version; a row is a table and an id."""

    def __init__(self, text):
        try:
            whole = json.loads(text)
            self.is_old = whole["version"] == 1
            self.initial, self.end = self.valued(whole["initial"]), self.valued(whole["end"])
            committed = [txn for txn in whole["transactions"] if txn["outcome"] == "committed"]
            self.operations = {txn["no"]: [self.operation(op) for op in txn["ops"]] for txn in committed}
        except (ValueError, KeyError, TypeError, Wrong) as what:
            raise NothingToReplay(f"this is no history: {type(what).__name__} {what}") from None
        statements = [statement for ops in self.operations.values() for statement, _, _ in ops]
        rows = [*self.initial, *self.end]
        self.tables = sorted({name for name, _ in rows} | {statement.table for statement in statements})

    def valued(self, members):
        """The value, or None, of each row."""
        found = {}
        for *name, value in members:
            table, id = ("test", *name) if self.is_old else name
            found[table, id] = value
        return found

    def operation(self, op):
        return statement_of(op["statement"]), self.valued(op["rows"]), self.valued(op["writes"])

    def beginning(self):
        return Tables(self.initial, self.tables)

    def run(self, no, tables):
        """Runs a transaction's statements; returns the last value of each row that it wrote."""
        left = {}
        for place, (statement, rows, writes) in enumerate(self.operations[no], 1):
            where = f"T{no} op {place} {statement.printed()}"
            try:
                found, written = tables.run(statement)
            except sqlite3.IntegrityError as why:
                raise Differs(f"{where}: SQLite refuses it ({why})") from None
            same(f"{where}: rows", found, rows)
            same(f"{where}: writes", written, writes)
            left.update(written)
        return left

    def compare_end(self, tables):
        same("end", tables.rows(), self.end)

    def statements(self):
        return sum(map(len, self.operations.values()))


def shown(row, values):
    return f"({' '.join(map(str, row))}, {'none' if values[row] is None else values[row]})" if row in values else "none"


def same(what, found, recorded):
    """Raises Differs with the smallest row that isn't as recorded."""
    for row in sorted(found.keys() | recorded.keys()):
        if found.get(row, ()) != recorded.get(row, ()):
            raise Differs(f"{what}: SQLite has {shown(row, found)}, the record {shown(row, recorded)}")


def replay_order(history, order):
    """Runs the committed transactions one after another."""
    each_once(history, order)
    tables = history.beginning()
    for no in order:
        history.run(no, tables)
    history.compare_end(tables)


def replay_places(history, places):
    """Runs the committed transactions by their starts and commits; `places` has both for each transaction."""
    each_once(history, [no for no, _ in places])
    points = sorted([(start, "start", no) for no, (start, _) in places] + [(end, "commit", no) for no, (_, end) in places])
    if len({place for place, _, _ in points}) < len(points) or any(end <= start for _, (start, end) in places):
        raise Differs("places: two have the same place, or a commit comes before its start")
    starts, tables, left, committed = {}, history.beginning(), {}, {}
    for place, kind, no in points:
        if kind == "start":
            starts[no], left[no] = place, history.run(no, tables.copy())
            continue
        for row, (other, at) in committed.items():
            if row in left[no] and at > starts[no]:
                raise Differs(f"T{no} and T{other} overlap, and both write {' '.join(map(str, row))}")
        committed.update(dict.fromkeys(left[no], (no, place)))
        tables.install(left[no])
    history.compare_end(tables)


def each_once(history, numbers):
    if sorted(numbers) != sorted(history.operations):
        raise Differs("the verdict doesn't have each committed transaction once")


def verdict(report, name):
    """The text after the `yes` of a verdict; None for a `no`."""
    found = re.search(rf"^{name}: (no |yes(?= |$))(.*)$", report, re.M)
    if not found:
        raise NothingToReplay(f"the report doesn't say whether it is {name}")
    return found[2] if found[1] == "yes" else None


def replays(text, report):
    """Replays each verdict that is a "yes", and yields a line for it."""
    history = History(text)
    order, places = verdict(report, "serializable"), verdict(report, "snapshot")
    if order is None and places is None:
        raise NothingToReplay("neither verdict is a yes")
    if order is not None:
        replay_order(history, [int(no) for no in re.findall(r" T(\d+)", order)])
        yield f"replayed: {history.statements()} statements, as recorded"
    if places is not None:
        found = re.findall(r" T(\d+) (\d+)-(\d+)", places)
        replay_places(history, [(int(no), (int(start), int(end))) for no, start, end in found])
        yield f"replayed by starts and commits: {history.statements()} statements, as recorded"
