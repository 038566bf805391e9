"""The dialect of HSQLDB, whose levels depend on its transaction model: `hsqldb.tx=` in the URL, or else locks."""
from __future__ import annotations

import re
from argparse import Namespace

from over_jdbc import OverJdbc
from recording import Unreachable

LOCKS, MVLOCKS, MVCC = "LOCKS", "MVLOCKS", "MVCC"
# The guide, "Sessions and Transactions": with locks, repeatable read is upgraded to serializable. In MVCC the two are
# translated to snapshot isolation. Read uncommitted is read committed, for transactions that only read.
BY_LOCKS = {"read committed": "PL-2", "repeatable read": "PL-3", "serializable": "PL-3"}
BY_SNAPSHOTS = {"read committed": "PL-2", "repeatable read": "SI", "serializable": "SI"}


def model_of(url: str) -> str:
    named = re.search(r";hsqldb\.tx=(\w+)", url, re.I)
    return named[1].upper() if named else LOCKS


class Hsqldb(OverJdbc):
    JARS, PACKAGE = ("/usr/share/java/hsqldb.jar",), "libhsqldb-java"
    PROPERTIES = {"hsqldb.method_class_names": "Bridge.*", "hsqldb.reconfig_logging": "false"}
    NOTE = (
        "create function {room}note (matches int, id int, txn int, op int) returns int"
        " not deterministic no sql language java external name 'CLASSPATH:Bridge.note'"
    )
    WAITING = "org.hsqldb.lib.CountUpDownLatch.await"

    @classmethod
    def levels(cls, words: Namespace) -> dict[str, str]:
        return BY_SNAPSHOTS if model_of(words.url) == MVCC else BY_LOCKS

    @property
    def NAME(self) -> str:
        return f"HSQLDB ({model_of(self.words.url)})"

    def make_tables(self) -> None:
        ((model,),) = self.look("values transaction_control()")
        if model != model_of(self.words.url):
            raise Unreachable(f"the database has the transaction model {model}: say ;hsqldb.tx={model.lower()} in its URL")
        super().make_tables()


DIALECT = Hsqldb
