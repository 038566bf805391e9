"""The databases of tests/jdbc: each transaction model with its levels, and what they promise, keep and show."""
from __future__ import annotations

import glob
import os
import shutil
from dataclasses import dataclass

from recorded.due_mariadb import READ_UNCOMMITTED
from recorded.mutations import READ_COMMITTED, REPEATABLE_READ, SERIALIZABLE

SNAPSHOT = "snapshot"
JARS = "/usr/share/java"
PACKAGES = {"java": "default-jdk-headless", "hsqldb": "libhsqldb-java", "h2": "libh2-java", "derby": "libderby-java"}
# The cases whose own anomaly happens. Each level shows those that its model permits: read committed, snapshot isolation,
# and two-phase locking with and without locks on conditions.
DIRTY, WEAK, SKEW = {"G1a", "G1b", "G1c"}, {"PMP", "P4", "G-single", "G2-item", "G2"}, {"G2-item", "G2"}
PHANTOMS: set[str] = {"PMP", "G2"}
NONE: set[str] = set()


@dataclass(frozen=True)
class Level:
    """What a level promises, what its scripts keep, and the cases that are seen."""

    promised: str
    kept: str
    seen: frozenset[str]


@dataclass(frozen=True)
class Model:
    name: str  # as the second recorder names it
    title: str  # as recorders/cases prints it
    url: str  # {n} is the number of a database
    levels: dict[str, Level]

    @property
    def product(self) -> str:
        return self.url.split(":")[1]

    def one_url(self) -> str:
        return self.url.replace("{n}", "")

    def promised(self) -> list[str]:
        """The cells of the last line of its table."""
        levels = self.levels.values()
        return [f"{it.promised}, {'kept' if it.promised == it.kept else 'not kept'}" for it in levels]


def level(kept: str, seen: set[str], promised: str = "") -> Level:
    return Level(promised or kept, kept, frozenset(seen))


LOCKING = {READ_COMMITTED: level("PL-2", WEAK), REPEATABLE_READ: level("PL-3", NONE), SERIALIZABLE: level("PL-3", NONE)}
MODELS = (
    Model("hsqldb-locks", "HSQLDB (LOCKS)", "jdbc:hsqldb:mem:locks{n};hsqldb.tx=locks", LOCKING),
    Model("hsqldb-mvlocks", "HSQLDB (MVLOCKS)", "jdbc:hsqldb:mem:mvlocks{n};hsqldb.tx=mvlocks", LOCKING),
    Model(
        "hsqldb-mvcc",
        "HSQLDB (MVCC)",
        "jdbc:hsqldb:mem:mvcc{n};hsqldb.tx=mvcc",
        {READ_COMMITTED: level("PL-2", WEAK), REPEATABLE_READ: level("SI", SKEW), SERIALIZABLE: level("SI", SKEW)},
    ),
    Model(
        "h2",
        "H2",
        "jdbc:h2:mem:db{n}",
        {
            READ_UNCOMMITTED: level("PL-1", DIRTY | WEAK),
            READ_COMMITTED: level("PL-2", WEAK),
            REPEATABLE_READ: level("SI", SKEW, "PL-2.99"),
            SNAPSHOT: level("SI", SKEW),
            SERIALIZABLE: level("SI", SKEW, "PL-3"),
        },
    ),
    Model(
        "derby",
        "Derby",
        "jdbc:derby:memory:db{n};create=true",
        {
            READ_UNCOMMITTED: level("PL-1", DIRTY | WEAK),
            READ_COMMITTED: level("PL-2", WEAK),
            REPEATABLE_READ: level("PL-2.99", PHANTOMS),
            SERIALIZABLE: level("PL-3", NONE),
        },
    ),
)


def missing() -> list[str]:
    """The Debian packages that aren't installed."""
    found = [] if shutil.which("javac") else [PACKAGES["java"]]
    return found + [PACKAGES[name] for name in PACKAGES if name != "java" and not os.path.exists(f"{JARS}/{name}.jar")]


def jars() -> str:
    return os.pathsep.join(
        sorted(glob.glob(f"{JARS}/hsqldb.jar") + glob.glob(f"{JARS}/h2.jar") + glob.glob(f"{JARS}/derby.jar"))
    )
