"""Generated histories, each with one anomaly whose name is known by how it was made, and plays of increments.

The names are those of tests/naming.py; each function below says why a history has them. Onlookers, which read what the
others wrote, and bystanders, which use another table, must not change a name."""
import random
import sys

from harness import TOP
from naming import FORK, FUZZY, LOST, PHANTOM, READ_ONLY, SKEW, WRITE_SKEW
from runs import listed

sys.path.insert(1, f"{TOP}/recorders")
import script  # noqa: E402

TABLES = "test", "stock", "accounts"
HIGHEST = 1_000  # transaction numbers
ENGINES = "committed", "committed", "committed", "snapshot", "optimistic", "locking"


class Making:
    """A history that is written operation by operation. Each one names the transactions whose writes it sees; a
    transaction's own writes are seen as well. Versions are installed in the order of the first writes."""

    def __init__(self, draw: random.Random):
        self.draw, self.table = draw, draw.choice(TABLES)
        self.initial = {(self.table, id): 10 * id for id in range(1, 5)}
        self.ops: dict[int, list] = {}
        self.installed: dict[tuple, list[int]] = {}
        self.last: dict[tuple, tuple] = {}  # by row and transaction: the operation of its last write, and the value

    def rows(self) -> list[tuple]:
        return sorted({*self.initial, *self.installed})

    def seen(self, no: int, row: tuple, sees: tuple):
        """The version of a row that an operation sees: its writer and operation, or None, and its value."""
        by = [it for it in self.installed.get(row, ()) if it in sees]
        if (row, no) in self.last:
            by = [no]
        if not by:
            return None, self.initial.get(row)
        place, value = self.last[row, by[-1]]
        return (by[-1], place), value

    def run(self, no: int, text: str, sees: tuple = ()):
        """Runs a statement of a transaction; `@` in it is the table."""
        text = text.replace("@", self.table)
        how, ops = script.statement_of(text), self.ops.setdefault(no, [])
        saw = {row: self.seen(no, row, sees) for row in self.rows()}
        found = {row: value for row, (_, value) in saw.items()
                 if value is not None and row[0] == how.table and how.matches(row[1], value) and how.kind != "insert"}
        writes = {} if how.kind == "select" else {row: how.left(value) for row, value in found.items()}
        if how.kind == "insert":
            writes = {(how.table, how.row[0]): how.row[1]}
        view = [[*row, *name] for row, (name, _) in saw.items() if name]
        ops.append({"statement": text, "view": view, "rows": listed(found),
                    "writes": [[*row, value] for row, value in sorted(writes.items())]})
        for row, value in writes.items():
            if (row, no) not in self.last:
                self.installed.setdefault(row, []).append(no)
            self.last[row, no] = len(ops), value

    def select(self, no: int, id: int, sees: tuple = ()):
        self.run(no, f"select * from @ where id = {id}", sees)

    def adds(self, no: int, id: int, sees: tuple = ()):
        """Computes with the row's value."""
        self.run(no, f"update @ set value = value + {self.draw.randint(1, 9)} where id = {id}", sees)

    def sets(self, no: int, id: int, sees: tuple = ()):
        """Overwrites the row, whatever its value."""
        self.run(no, f"update @ set value = {self.draw.randint(50, 99)} where id = {id}", sees)

    def writes(self, no: int, id: int, sees: tuple = ()):
        self.draw.choice((self.adds, self.sets))(no, id, sees)

    def stand_by(self):
        """Transactions on another table, one after another."""
        for no in range(21, 21 + self.draw.randint(0, 3)):
            self.run(no, f"insert into by_side (id, value) values ({no}, 1)", tuple(range(21, no)))

    def history(self) -> dict:
        end = {row: self.last[row, by[-1]][1] for row, by in self.installed.items()}
        left = {row: value for row, value in {**self.initial, **end}.items() if value is not None}
        txns = [{"no": no, "outcome": "committed", "ops": ops} for no, ops in self.ops.items()]
        return {"format": "hermitage-history", "version": 2, "initial": listed(self.initial), "end": listed(left),
                "transactions": txns, "installed": [[*row, by] for row, by in sorted(self.installed.items())]}


def lost_update(making: Making) -> set[str]:
    """T2 reads row 1, T1 writes it, and T2 overwrites it without having read T1's version."""
    making.select(2, 1)
    making.writes(1, 1)
    if making.draw.random() < 0.5:
        making.sets(2, 1, (1,))
    else:
        making.writes(2, 1)
    return {LOST}


def lost_update_beside(making: Making) -> set[str]:
    """As before with row 2, and T2 also overwrites a lower row, which it hasn't read."""
    making.select(2, 2)
    making.adds(1, 1)
    making.adds(1, 2)
    making.sets(2, 1, (1,))
    making.sets(2, 2, (1,))
    return {LOST}


def lost_update_watched(making: Making) -> set[str]:
    """An onlooker sees T1's version, and not T2's."""
    found = lost_update(making)
    making.select(3, 1, (1,))
    return found


def lost_delete(making: Making) -> set[str]:
    """T2 deletes the row that it read before T1 changed it."""
    making.select(2, 1)
    making.writes(1, 1)
    making.run(2, "delete from @ where id = 1", (1,))
    return {LOST}


def increments(making: Making) -> set[str]:
    """T2 reads row 1, others add to it, and T2 adds to what they left: no increment is lost, and T2 read two values."""
    making.select(2, 1)
    others = tuple(making.draw.sample((1, 3, 4), making.draw.randint(1, 3)))
    for place, no in enumerate(others):
        making.adds(no, 1, others[:place])
    making.adds(2, 1, others)
    return {FUZZY}


def guarded(making: Making) -> set[str]:
    """T2 reads row 1, T1 changes it, and T2 overwrites it on a condition on T1's value."""
    making.select(2, 1)
    making.adds(1, 1)
    making.run(2, "update @ set value = 77 where id = 1 and value > 10", (1,))
    return {FUZZY}


def reread(making: Making) -> set[str]:
    """T2 reads row 1 before and after T1 writes it, and then overwrites it, knowing T1's value."""
    making.select(2, 1)
    making.writes(1, 1)
    making.select(2, 1, (1,))
    if making.draw.random() < 0.5:
        making.sets(2, 1, (1,))
    return {FUZZY}


def read_skew(making: Making) -> set[str]:
    """T2 reads row 1 before T1 writes rows 1 and 2, and row 2 afterwards."""
    making.select(2, 1)
    making.writes(1, 1)
    making.writes(1, 2)
    making.select(2, 2, (1,))
    if making.draw.random() < 0.3:
        making.sets(2, 3, (1,))
    return {SKEW}


def skew_through_another(making: Making) -> set[str]:
    """T2 misses T1's write of row 1 and sees T3's of row 2, which read T1's: A5A needs one writer of both."""
    making.select(2, 1)
    making.writes(1, 1)
    making.select(3, 1, (1,))
    making.writes(3, 2, (1,))
    making.select(2, 2, (1, 3))
    return set()


def write_skew(making: Making) -> set[str]:
    """Each reads a row that the other one then writes."""
    for no, id in (1, 2), (2, 1):
        making.select(no, id)
        if making.draw.random() < 0.5:
            making.select(no, 3 - id)
    making.writes(1, 1)
    making.writes(2, 2)
    return {WRITE_SKEW}


def write_skew_watched(making: Making) -> set[str]:
    """An onlooker sees one of the two writes, and reads the other row before the other write. The two are a cycle without
    it, so it isn't the read-only anomaly."""
    found = write_skew(making)
    making.select(3, 1, (1,))
    making.select(3, 2, (1,))
    return found


def long_fork(making: Making) -> set[str]:
    """T3 sees T1's write and not T2's, T4 sees T2's and not T1's."""
    making.writes(1, 1)
    making.writes(2, 2)
    for no, saw in (3, 1), (4, 2):
        for id in making.draw.sample((1, 2), 2):
            making.select(no, id, (saw,))
    return {FORK}


def read_only_anomaly(making: Making) -> set[str]:
    """T2 reads row 2 before T1 writes it, and writes row 1 after T3, which wrote nothing, saw T1's write and not T2's."""
    making.select(2, 1)
    making.select(2, 2)
    making.writes(1, 2)
    for id in making.draw.sample((1, 2), 2):
        making.select(3, id, (1,))
    making.writes(2, 1)
    return {READ_ONLY}


def phantoms(making: Making) -> set[str]:
    """Each misses the row that the other one inserts."""
    for no in 1, 2:
        making.run(no, "select * from @ where value = 7")
    for no in 1, 2:
        making.run(no, f"insert into @ (id, value) values ({no + 4}, 7)")
    return {PHANTOM}


KINDS = (
    lost_update, lost_update_beside, lost_update_watched, lost_delete, increments, guarded, reread, read_skew,
    skew_through_another, write_skew, write_skew_watched, long_fork, read_only_anomaly, phantoms,
)


def made(draw: random.Random, kind) -> tuple[dict, set[str]]:
    """A history of a kind, and its names."""
    making = Making(draw)
    names = kind(making)
    making.stand_by()
    return making.history(), names


def renumbered(draw: random.Random, history: dict) -> dict:
    """The same history with other transaction numbers, in another order."""
    before = [txn["no"] for txn in history["transactions"]]
    to = dict(zip(before, draw.sample(range(1, HIGHEST), len(before))))

    def operation(op):
        return {**op, "view": [[table, id, to[no], place] for table, id, no, place in op["view"]]}

    txns = [{**txn, "no": to[txn["no"]], "ops": list(map(operation, txn["ops"]))} for txn in history["transactions"]]
    installed = [[table, id, [to[no] for no in by]] for table, id, by in history["installed"]]
    return {**history, "transactions": draw.sample(txns, len(txns)), "installed": installed}


def play(draw: random.Random) -> tuple[str, str]:
    """An engine, and a script in which sessions read rows, add to them, and overwrite them."""
    sessions, rows = draw.randint(2, 4), draw.randint(1, 3)
    lines = ["setup (1, 10), (2, 20), (3, 30);", *(f"begin; -- T{no}" for no in range(1, sessions + 1))]
    for _ in range(draw.randint(5, 14)):
        id, no = draw.randint(1, rows), draw.randint(1, sessions)
        read, add = f"select * from test where id = {id}", f"update test set value = value + {no} where id = {id}"
        others = (
            f"update test set value = {no} where id = {id}", f"select * from test where value > {10 * id}",
            f"delete from test where id = {id}", "commit",
        )
        text = draw.choice((read, add, add, *others) if draw.random() < 0.3 else (read, add))
        lines.append(f"{text}; -- T{no}")
    return draw.choice(ENGINES), "\n".join([*lines, *(f"commit; -- T{no}" for no in range(1, sessions + 1)), ""])
