"""The dialect of Derby."""
from over_jdbc import OverJdbc


class Derby(OverJdbc):
    NAME = "Derby"
    JARS, PACKAGE = ("/usr/share/java/derby.jar",), "libderby-java"
    # What the SQL standard's names promise.
    LEVELS = {
        "read uncommitted": "PL-1",
        "read committed": "PL-2",
        "repeatable read": "PL-2.99",
        "serializable": "PL-3",
    }
    # (By itself, it looks for deadlocks after 20 seconds.)
    PROPERTIES = {"derby.locks.deadlockTimeout": "1", "derby.locks.waitTimeout": "60"}
    NOTE = (
        "create function {room}note (matches int, id int, txn int, op int) returns int"
        " parameter style java no sql language java external name 'Bridge.note'"
    )
    WAITING = "org.apache.derby.impl.services.locks.ActiveLock.waitForGrant"
    # (It has no `cascade`.)
    DROPPING = "drop table {table}", "drop function {room}note", "drop schema {schema} restrict"

    def version(self) -> str:
        """(Debian's build has no number, which is printed as `(???)`.)"""
        return super().version().partition(" ")[0]


DIALECT = Derby
