"""What dialects over JDBC share: connections of one JVM (`bridge.py`), a separate schema, and who waits.

A database that runs in the JVM runs a statement in the thread that asks for it. So a statement can note the rows that it
looks at by calling a Java function, and the thread shows whether the statement waits. A database elsewhere has neither: its
dialect leaves NOTE empty, and answers `waits` by a query.
"""
from __future__ import annotations

import itertools
import os
import time
from argparse import Namespace
from importlib import import_module
from importlib.machinery import SourceFileLoader
from importlib.util import module_from_spec, spec_from_loader
from typing import Any

import bridge
from recording import Refused, Transaction, Unreachable
from script import Script
from statement import Sql
from without_returning import Row, WithoutReturning

DIALECTS = "hsqldb", "h2", "derby"
PASSWORD = "JDBC_PASSWORD"  # the variable of the environment with the user's password
CLOSING, LOOK = 10, 0.01  # seconds to wait until the connections are closed; seconds between two looks
# The levels of java.sql.Connection.
LEVELS = {"read uncommitted": 1, "read committed": 2, "repeatable read": 4, "serializable": 8}


class OverJdbc(WithoutReturning):
    """A dialect over JDBC. `recorders/derby.py` is an example. It has

    JARS, PACKAGE   where Debian's package has the driver, and the package's name
    PROPERTIES      system properties of the JVM
    SETTING         the SQL that sets the level of a connection; empty if JDBC does it
    NOTE            the SQL that creates the noting function in the schema; empty if the database doesn't run in the JVM
    DROPPING        the SQL statements that remove the schema; one with `{table}` is run for each table
    WAITING         the Java method in which a thread waits for another transaction; empty: any thread that is parked for
                    30 ms, while nothing ends, waits
    """

    SQL = Sql('"value"', "mod({}, {})", "1 = 1", "1 = 0")
    COLUMNS = (
        'id integer primary key, "value" integer not null check ("value" between -1000000000 and 1000000000),'
        " txn integer default 0 not null, op integer default 0 not null,"
        " old_value integer, old_txn integer, old_op integer, gone integer default 0 not null"
    )
    CLEARED = "txn = 0, op = 0, old_value = null, old_txn = null, old_op = null where txn <> 0"
    JARS: tuple[str, ...] = ()
    PACKAGE = ""
    PROPERTIES: dict[str, str] = {}
    SETTING, NOTE, WAITING = "", "", ""
    DROPPING: tuple[str, ...] = ("drop schema {schema} cascade",)

    @classmethod
    def levels(cls, words: Namespace) -> dict[str, str]:
        """The promise of each level of the database that these arguments name."""
        return cls.LEVELS

    def __init__(self, words: Namespace, script: Script) -> None:
        jars = tuple(words.jar or self.installed(words.url))
        for path in jars:
            if not os.path.exists(path):
                raise Unreachable(f"argument --jar: {path}: No such file or directory")
        self.bridge, self.places, self.is_made = bridge.running(jars, self.PROPERTIES), itertools.count(1), False
        self.schema = f"hermitage_lab_{os.getpid()}_{time.time_ns()}"
        self.ROOM = f"{self.schema}."
        super().__init__(words, script)

    def installed(self, url: str) -> list[str]:
        """The driver of Debian's package."""
        if not any(map(os.path.exists, self.JARS)):
            package = f" (Debian: package {self.PACKAGE})" if self.PACKAGE else ""
            raise Unreachable(f"there is no driver for {url}: --jar names its file{package}")
        return [path for path in self.JARS if os.path.exists(path)]

    def connect(self) -> bridge.Connection:
        """The first connection is the looker, whose statements commit at once."""
        is_looker, password = not self.connections, os.environ.get(PASSWORD, "")
        connection = bridge.Connection(self.bridge, self.words.url, self.words.user, password, is_looker)
        self.connections.append(connection)
        if not is_looker:
            self.set_level(connection)
        return connection

    def set_level(self, connection: bridge.Connection) -> None:
        if self.SETTING:
            self.asked(connection, self.SETTING.format(level=self.words.level))
        else:
            connection.request("isolation", LEVELS[self.words.level])
        connection.request("commit")

    def make_tables(self) -> None:
        self.look(f"create schema {self.schema}")
        self.is_made = True
        if self.NOTE:
            self.look(self.NOTE.format(room=self.ROOM))
        super().make_tables()

    def make_notes(self) -> None:
        """Rows that are gone stay, and numbers of commits are counted here."""

    clear_notes = make_notes

    def version(self) -> str:
        return str(self.looker.request("version")[0][0])

    def begin(self, connection: bridge.Connection) -> None:
        """JDBC has no `begin`: the first statement begins the transaction, and takes its snapshot."""

    def looks(self, condition: str) -> str:
        """Notes each row that an update looks at, and again if it matches. A `case` has an order, where optimizers
        reorder the parts of an `and`."""
        if not self.NOTE:
            return condition
        note = f"{self.ROOM}note"
        return f"case when {note}(0, id, txn, op) = 0 then 0 when {condition} then {note}(1, id, 0, 0) else 0 end = 1"

    def changes(self, connection: bridge.Connection, question: str) -> tuple[int, list[Row] | None]:
        if not self.NOTE:
            return super().changes(connection, question)
        (count,), *noted = connection.request("note", question)
        return count, noted

    def waits(self, connection: bridge.Connection) -> bool:
        return bool(self.looker.request("waits", connection.number, self.WAITING)[0][0])

    def place(self, connection: bridge.Connection, txn: Transaction) -> int:
        """The sessions are threads of one process, so a counter does what a table of commits would."""
        return next(self.places)

    def commit(self, connection: bridge.Connection) -> None:
        connection.request("commit")

    def rollback(self, connection: bridge.Connection) -> None:
        try:
            connection.request("rollback")
        except Refused as why:
            raise Unreachable(f"the rollback has failed: {why}") from None

    def close(self) -> None:
        """Closes the sessions, which ends their transactions, and removes the schema."""
        sessions = self.connections[1:]
        for connection in sessions:
            connection.close()
        try:
            if self.is_made:
                self.wait_for([connection.number for connection in sessions])
                self.drop()
        except (Refused, Unreachable) as why:
            raise Unreachable(f"the schema {self.schema} is left: {why}") from None
        finally:
            self.looker.close()

    def wait_for(self, numbers: list[int]) -> None:
        """Waits until the sessions are closed. One that waits for another goes on when that one is closed."""
        until = time.monotonic() + CLOSING
        while self.looker.request("open-ones", *numbers)[0][0] if numbers else False:
            if time.monotonic() > until:
                raise Unreachable(f"a session waits for more than {CLOSING} s, and for none of the others")
            time.sleep(LOOK)

    def drop(self) -> None:
        for question in self.DROPPING:
            names = map(self.table, self.script.tables) if "{table}" in question else [""]
            for table in names:
                self.looker.ask(question.format(schema=self.schema, room=self.ROOM, table=table))


def dialect_of(words: Namespace) -> type[OverJdbc]:
    """The dialect that the arguments name: by --dialect, or else by the second part of the URL."""
    named = words.dialect or (words.url.split(":")[1:2] or [""])[0]
    if os.path.dirname(named):
        return loaded(named).DIALECT  # type: ignore[no-any-return]
    if named not in DIALECTS:
        raise Unreachable(f"no dialect for {words.url}: --dialect names one (there are {', '.join(DIALECTS)}, or a file)")
    return import_module(named).DIALECT  # type: ignore[no-any-return]


def loaded(path: str) -> Any:
    loader = SourceFileLoader("dialect", path)
    module = module_from_spec(spec_from_loader(loader.name, loader))
    try:
        loader.exec_module(module)
        module.DIALECT
    except (OSError, SyntaxError, AttributeError) as why:
        raise Unreachable(f"{path} is no dialect: {why}") from None
    return module
