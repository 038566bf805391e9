"""What dialects of databases without `returning` share.

A deleted row stays, marked as gone, so its version is read with it, and its key comes back as the same row. A select
returns the versions of all rows that it may match, and whether it matches them. An update keeps the value and the version
that it replaces in the row's own columns; they are found again by the statement's own version. The rows that it looked at
and didn't change are known if the database lets the client define a function that notes them within the statement: one
that Java code has (`over_jdbc.py`), or MySQL's user variables (`mariadb`). Otherwise they are read after the statement.
"""
from __future__ import annotations

from dataclasses import dataclass
from typing import Any

from recording import Operation, Refused, Transaction, Unreachable, operation_of
from statement import Statement
from tables import COLUMNS, Tables, change_of, version

Row = list[Any]  # of a result: numbers, texts and None
Name = tuple[int, int]  # of a version


@dataclass
class Done:
    """What a statement did: entries of `listed` for operation_of, and the id and the version of each row that it looked
    at."""

    listed: list[Any]
    looked: list[Any]
    remark: str = ""


class WithoutReturning(Tables):
    """Its dialect may also have

    ORDER       the order in which a select reads rows, if the statement alone would read them in it
    STABLE      the levels at which a read shows what an earlier statement of its transaction saw, by a snapshot or by
                locks. At other levels, a view that was read after its statement gets a remark
    INSERTS_FIRST
                whether an insert is tried before the update that brings a gone row back, so that it takes only the locks
                that it would take alone. Its transaction has to go on after a duplicate key
    DUPLICATE   the SQL state of a duplicate key
    looks, changes
                how an update notes the rows that it looks at
    """

    COLUMNS, PRESENT = f"{COLUMNS}, gone integer default 0 not null", "gone = 0"
    ORDER, STABLE, INSERTS_FIRST, DUPLICATE = "", (), True, "23505"

    def do(self, connection: Any, txn: Transaction, statement: Statement) -> Operation:
        call = getattr(self, statement.kind)
        done = call(connection, statement, txn.next_version(), self.table(statement.table))
        seen = {(statement.table, id): version(no, op) for id, no, op in done.looked}
        op = operation_of(txn, statement, done.listed, seen)
        op.remark = done.remark
        return op

    def select(self, connection: Any, statement: Statement, _: Name, table: str) -> Done:
        """Reads the rows that the statement alone would read, so that it takes the same locks."""
        sql = self.SQL
        matches = f"case when gone = 0 and ({statement.condition(sql)}) then 1 else 0 end"
        which = f"where {statement.ids(sql)}{self.ORDER}"
        lines = self.ask(connection, f"select id, {sql.value}, txn, op, {matches} from {table} {which}")
        return Done([[*line[:4], None] for line in lines if line[4]], [(id, no, op) for id, _, no, op, _ in lines])

    def delete(self, connection: Any, statement: Statement, name: Name, table: str) -> Done:
        return self.update(connection, statement, name, table)

    def update(self, connection: Any, statement: Statement, name: Name, table: str) -> Done:
        """An update, or a delete, which marks its rows as gone."""
        sql, gone = self.SQL, ", gone = 1" if statement.kind == "delete" else ""
        looks = self.looks(f"gone = 0 and ({statement.condition(sql)})")
        change = f"{change_of(statement, name, sql)}{gone}"
        count, noted = self.changes(connection, f"update {table} set {change} where {statement.ids(sql)} and {looks}")
        if noted is None:
            listed, others = self.read_again(connection, name, table, statement.ids(sql))
            remark = self.remark_on(others)
        else:
            matched = [id for id, _, _, is_matched in noted if is_matched]
            listed, others = self.read_again(connection, name, table, among(matched)) if matched else ([], [])
            remark = "; ".join(f"row {id} of {statement.table} matched, and was gone after a wait" for id, *_ in others)
            others = [line[:3] for line in noted]
        if len(listed) != count:
            raise Unreachable(f"the statement changed {count} rows, and {len(listed)} have its version")
        return Done(listed, others, remark)

    def looks(self, condition: str) -> str:
        """The condition of an update, in which the rows that it looks at are noted, if the database can do that."""
        return condition

    def changes(self, connection: Any, question: str) -> tuple[int, list[Row] | None]:
        """Runs an update; returns how many rows it changed, and the noted rows, each with its id, its version and whether
        it matched. They are None if the database can't note them."""
        return self.ask(connection, question)[0][0], None

    def read_again(self, connection: Any, name: Name, table: str, which: str) -> tuple[list[Any], list[Row]]:
        """The rows that a statement changed, as entries of `listed`; and the versions of the other rows."""
        names = f"id, txn, op, old_value, old_txn, old_op, {self.SQL.value}, gone"
        lines = self.ask(connection, f"select {names} from {table} where {which}")
        own = [line for line in lines if tuple(line[1:3]) == name]
        others = [line[:3] for line in lines if tuple(line[1:3]) != name]
        return [(id, *old, None if gone else value) for id, _, _, *old, value, gone in own], others

    def remark_on(self, others: list[Row]) -> str:
        if not others or self.words.level in self.STABLE:
            return ""
        rows = ", ".join(str(id) for id, _, _ in others)
        return f"row {rows}: what the statement saw was read after it, and may be newer"

    def insert(self, connection: Any, statement: Statement, name: Name, table: str) -> Done:
        """A row that is gone comes back, as a new version."""
        (id, value), listed = statement.row, [(statement.row[0], None, None, None, statement.row[1])]
        if not self.INSERTS_FIRST and self.comes_back(connection, statement.row, name, table):
            return Done(listed, self.replaced(connection, id, table))
        try:
            names = f"(id, {self.SQL.value}, txn, op)"
            self.ask(connection, f"insert into {table} {names} values ({id}, {value}, {name[0]}, {name[1]})")
            return Done(listed, [])
        except Refused as why:
            is_there = self.INSERTS_FIRST and str(why).startswith(self.DUPLICATE)
            if not is_there or not self.comes_back(connection, statement.row, name, table):
                raise
        return Done(listed, self.replaced(connection, id, table))

    def comes_back(self, connection: Any, row: tuple[int, int], name: Name, table: str) -> bool:
        """Whether a row was gone, and came back."""
        (id, left), (no, op), value = row, name, self.SQL.value
        change = f"old_value = {value}, old_txn = txn, old_op = op, {value} = {left}, txn = {no}, op = {op}, gone = 0"
        return bool(self.ask(connection, f"update {table} set {change} where id = {id} and gone = 1")[0][0])

    def replaced(self, connection: Any, id: int, table: str) -> list[Any]:
        """The version of a row before it came back."""
        return [(id, *old) for old in self.ask(connection, f"select old_txn, old_op from {table} where id = {id}")]

    def rows(self) -> dict[tuple[str, int], int]:
        found: dict[tuple[str, int], int] = {}
        for name in self.script.tables:
            question = f"select id, {self.SQL.value} from {self.table(name)} where {self.PRESENT}"
            found.update({(name, id): value for id, value in self.look(question)})
        return found


def among(ids: list[int]) -> str:
    return f"id in ({', '.join(map(str, ids))})"
