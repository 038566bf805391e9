"""The dialect of H2."""
from over_jdbc import OverJdbc


class H2(OverJdbc):
    NAME = "H2"
    JARS, PACKAGE = ("/usr/share/java/h2.jar",), "libh2-java"
    # Its documentation (IsolationLevel) promises what the SQL standard's names do.
    LEVELS = {
        "read uncommitted": "PL-1",
        "read committed": "PL-2",
        "repeatable read": "PL-2.99",
        "snapshot": "SI",
        "serializable": "PL-3",
    }
    SETTING = "set session characteristics as transaction isolation level {level}"
    NOTE = "create alias {room}note for 'Bridge.note'"
    # (Whoever waits for a transaction that rolled a statement back does so in a busy loop.)
    INSERTS_FIRST = False
    WAITING = "org.h2.mvstore.tx.Transaction.waitForThisToEnd"


DIALECT = H2
