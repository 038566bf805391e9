"""A reference implementation of the engines, and random scripts.

It keeps only a setup and a log. Before each answer it goes through the log from its beginning: who is active and waits, what
each has run and written, what is committed. It looks for a deadlock by trying all paths, shorter ones first, and among those
of one length the least first. When the play has ended, it looks up the history in the log."""
import json
import random
from dataclasses import dataclass, field, replace

ENGINES = "locking", "committed", "snapshot", "optimistic"
SNAPSHOTS = "snapshot", "optimistic"
SESSIONS = range(1, 10)
LIMIT = 1_000_000_000
TEST = "test"
# A row is the name of its table and its number there. A statement acts on the row of a number of its table; without a table
# name, of `test`.
ONE_TABLE = {(TEST, 1): 10, (TEST, 2): 20, (TEST, 3): 30, (TEST, 4): 40}
# The table in which the row of a number is used most often.
HOMES = {1: "stock", 2: TEST, 3: "s_old", 4: "zones", 5: "stock"}
TABLES = sorted(set(HOMES.values()))
FOUR_TABLES = {("s_old", 2): 21, ("s_old", 3): 30, ("stock", 1): 10, ("stock", 2): 22, (TEST, 1): 11, (TEST, 2): 20, ("zones", 4): 40}


@dataclass(frozen=True)
class Statement:
    kind: str
    text: str
    holds: object = lambda number, value: True  # of a row's number and a value
    result: object = None  # of an update, by the old value; of an insert, its value
    number: int = 0  # of an insert, or of the one row that it names
    table: str = TEST

    @property
    def row(self):
        """The row of an insert."""
        return self.table, self.number

    def matches(self, row, state):
        """Whether a row in this state matches. An absent row, or one of another table, never does; an insert matches only
        its own row."""
        if state is None or row[0] != self.table:
            return False
        return row == self.row if self.kind == "insert" else self.holds(row[1], state)

    def would_write(self, row, state):
        """Whether it would write a row in this state, even if it would be refused."""
        if self.kind == "insert":
            return row == self.row
        return self.kind != "select" and self.matches(row, state)

    def left(self, state):
        """The state in which it would leave a row that it would write; None if the result is out of range."""
        if self.kind == "insert":
            return self.result
        if self.kind == "update" and state is not None and abs(self.result(state)) <= LIMIT:
            return self.result(state)
        return None


def select(where, holds, number=0):
    return Statement("select", "select * from test" + where, holds, number=number)


def update(what, result, where="", holds=lambda number, value: True, number=0):
    return Statement("update", f"update test set value = {what}{where}", holds, result, number)


def insert(number, value):
    return Statement("insert", f"insert into test (id, value) values ({number}, {value})", result=value, number=number)


def delete(where, holds, number=0):
    return Statement("delete", "delete from test" + where, holds, number=number)


def of_row(number):
    return f" where id = {number}", lambda it, value: it == number, number


def on_table(table, statement):
    """The same statement on another table instead of `test`."""
    return replace(statement, table=table, text=statement.text.replace(f" {TEST}", f" {table}", 1))


# First those that name a row, which make longer cycles, then those that look at all rows.
POINTS = (
    select(*of_row(1)),
    update("value + 1", lambda v: v + 1, *of_row(1)),
    update("value + 1", lambda v: v + 1, *of_row(1)),
    update("value + 1", lambda v: v + 1, *of_row(2)),
    update("value + 1", lambda v: v + 1, *of_row(2)),
    update("value - 1", lambda v: v - 1, *of_row(3)),
    update("value - 1", lambda v: v - 1, *of_row(3)),
    update("value + 2", lambda v: v + 2, *of_row(4)),
    update("value + 2", lambda v: v + 2, *of_row(4)),
    update("value + 999999990", lambda v: v + 999_999_990, *of_row(2)),
    insert(3, 5),
    insert(5, 31),
    delete(*of_row(3)),
    delete(*of_row(4)),
    select(" where id in (2, 5)", lambda number, value: number in (2, 5)),
)
WIDE = (
    select("", lambda number, value: True),
    select(" where value % 3 = 1", lambda number, value: value >= 0 and value % 3 == 1),
    select(" where value > 12 and not id = 2", lambda number, value: value > 12 and number != 2),
    update("value + 2", lambda v: v + 2),
    update("value - 3", lambda v: v - 3, " where value > 15 or id = 3", lambda number, value: value > 15 or number == 3),
    update("12", lambda v: 12, " where id in (1, 4)", lambda number, value: number in (1, 4)),
    insert(1, 13),
    insert(4, 14),
    delete(" where value < 12", lambda number, value: value < 12),
    delete(*of_row(1)),
)
ENDS = (("commit", "begin"), ("commit", "begin"), ("begin",), ("commit",), ("abort",))


def made(seed):
    """The setup and the lines of a script, each a session and a command: all sessions begin, and then come commands of
    any of them."""
    draw = random.Random(seed)
    sessions = range(1, draw.randint(2, 9) + 1)
    statements = POINTS + WIDE if seed % 3 == 0 else POINTS
    setup = FOUR_TABLES if seed % 5 < 2 else ONE_TABLE
    lines = [(session, "begin") for session in sessions]
    for _ in range(90 if seed % 8 == 7 else 40):
        session = draw.choice(sessions)
        ends = draw.random() < (0.5 if seed % 8 == 7 else 0.2)
        commands = draw.choice(ENDS) if ends else (draw.choice(statements),)
        if setup is FOUR_TABLES and not ends:
            # (a row is used in its main table three times in four, so that sessions interact)
            home = HOMES.get(commands[0].number)
            commands = (on_table(home if home and draw.random() < 0.75 else draw.choice(TABLES), *commands),)
        lines += [(session, command) for command in commands]
    return setup, lines


def text_of(command):
    return command if isinstance(command, str) else command.text


def named(row):
    """A row as it is printed: by its number alone if it is of `test`."""
    table, number = row
    return str(number) if table == TEST else f"{table} {number}"


def setup_text(setup):
    """The rows of a setup, in the printed form."""
    names = {row: "" if row[0] == TEST else f"{row[0]} " for row in setup}
    return ", ".join(f"{names[row]}({row[1]}, {value})" for row, value in sorted(setup.items())) or "()"


def script_of(setup, lines):
    """The text of a script, in the printed form."""
    return f"setup {setup_text(setup)};\n" + "".join(f"{text_of(command)}; -- T{session}\n" for session, command in lines)


@dataclass
class Txn:
    session: int
    number: int
    begun_on: dict  # the versions that were committed then
    installed: int  # how many versions were installed before
    ran: list = field(default_factory=list)
    own: dict = field(default_factory=dict)  # its last versions


@dataclass(frozen=True)
class Install:
    """A version that a commit installed: of which row, by which transaction, and the row's state before and after."""

    row: tuple
    by: int
    before: object
    after: object


@dataclass
class Found:
    """The facts in a log. A version is a name and a state; the state of an absent row, and the name of an initial
    version, is None."""

    active: dict
    waiting: dict
    committed: dict
    installed: list
    begun: int = 0


def look(setup, log):
    """Goes through a log."""
    found = Found({}, {}, {row: (None, value) for row, value in setup.items()}, [])
    for session, command, (kind, *parts) in log:
        if (kind, *parts) == ("refused", "Busy"):
            continue
        found.waiting.pop(session, None)
        if kind == "begun":
            found.begun += 1
            found.active[session] = Txn(session, found.begun, dict(found.committed), len(found.installed))
        elif kind == "waits":
            found.waiting[session] = command
        elif kind == "rows":
            txn = found.active[session]
            txn.ran.append(command)
            name = [txn.number, len(txn.ran)]
            txn.own.update({row: (name, state) for row, state in parts[2].items()})
        elif kind == "committed":
            txn = found.active.pop(session)
            for row, (_, after) in sorted(txn.own.items()):
                before = found.committed.get(row, (None, None))[1]
                found.installed.append(Install(row, txn.number, before, after))
            found.committed.update(txn.own)
        elif kind == "aborted" or parts[0] not in ("NoTransaction", "AlreadyBegun"):
            found.active.pop(session, None)
    return found


class Engine:
    def __init__(self, level, setup):
        self.level, self.setup, self.log = level, setup, []

    def found(self):
        return look(self.setup, self.log)

    def step(self, session, command):
        found = self.found()
        answer = ("refused", "Busy") if session in found.waiting else self.answer(found, session, command)
        self.log.append((session, command, answer))

    def retry(self, session):
        found = self.found()
        command = found.waiting[session]
        self.log.append((session, command, self.answer(found, session, command)))

    def answer(self, found, session, command):
        txn = found.active.get(session)
        if txn is None:
            return ("begun", found.begun + 1) if command == "begin" else ("refused", "NoTransaction")
        if command == "begin":
            return ("refused", "AlreadyBegun")
        if command == "abort":
            return ("aborted",)
        return self.commit(found, txn) if command == "commit" else self.run(found, txn, command)

    def commit(self, found, txn):
        """At snapshot and optimistic, a commit is refused at the least row that another transaction installed since the
        begin and that this one wrote; at optimistic also if one of its statements matches the row as it was before that,
        or after it. The first transaction that did so is named."""
        since = found.installed[txn.installed :] if self.level in SNAPSHOTS else []
        for row in sorted({it.row for it in since}):
            installs = [it for it in since if it.row == row]
            if row in txn.own:
                return ("refused", "WriteConflict", f"row {named(row)} by {installs[0].by}")
            for it in installs:
                read = any(ran.matches(row, it.before) or ran.matches(row, it.after) for ran in txn.ran)
                if read and self.level == "optimistic":
                    return ("refused", "ReadConflict", f"row {named(row)} by {it.by}")
        return ("committed",)

    def seen(self, found, txn):
        """The versions that a transaction sees."""
        return {**(txn.begun_on if self.level in SNAPSHOTS else found.committed), **txn.own}

    def blocks(self, found, other, statement, row, state):
        """Whether another transaction blocks a statement at a row, which the statement sees in this state."""
        pending = other.own.get(row)
        writes = statement.would_write(row, state)
        if self.level in SNAPSHOTS:
            return False
        if writes and pending:
            return True
        if self.level == "committed":
            return False
        before = found.committed.get(row, (None, None))[1]
        if pending and (statement.matches(row, pending[1]) or statement.matches(row, before)):
            return True
        after = statement.left(state)
        return writes and any(ran.matches(row, state) or ran.matches(row, after) for ran in other.ran)

    def blockers(self, found, txn, statement):
        """The sessions that block a transaction's statement."""
        seen = self.seen(found, txn)
        rows = {*seen, *found.committed, *([statement.row] if statement.kind == "insert" else [])}
        rows.update(row for other in found.active.values() for row in other.own)
        return [
            session
            for session, other in sorted(found.active.items())
            if other is not txn
            and any(self.blocks(found, other, statement, row, seen.get(row, (None, None))[1]) for row in rows)
        ]

    def waits(self, found):
        """The sessions that each waiting session waits for."""
        return [
            (session, other)
            for session, statement in sorted(found.waiting.items())
            for other in self.blockers(found, found.active[session], statement)
        ]

    def run(self, found, txn, statement):
        on = self.blockers(found, txn, statement)
        if not on:
            return self.effect(self.seen(found, txn), statement)
        circle = circle_of(self.waits(found) + [(txn.session, other) for other in on], txn.session)
        return ("refused", "Deadlock", " ".join(f"T{it}" for it in circle)) if circle else ("waits", on)

    def effect(self, seen, statement):
        """The effect of a statement that isn't blocked: the view, the rows that it returns, and what it writes."""
        states = {row: state for row, (_, state) in sorted(seen.items()) if state is not None}
        if statement.kind == "insert":
            if statement.row in states:
                return ("refused", "DuplicateKey", named(statement.row))
            rows, writes = {}, {statement.row: statement.result}
        else:
            rows = {row: state for row, state in states.items() if statement.matches(row, state)}
            writes = {row: statement.left(state) for row, state in rows.items() if statement.kind != "select"}
        if statement.kind == "update":
            for row, state in writes.items():
                if state is None:
                    return ("refused", "OutOfRange", named(row))
        return ("rows", {row: name for row, (name, _) in sorted(seen.items()) if name}, rows, writes)

    def retryable(self):
        """The least session that nobody blocks any more, or that is on a cycle."""
        found = self.found()
        waits = self.waits(found)
        for session in sorted(found.waiting):
            if all(it[0] != session for it in waits) or circle_of(waits, session):
                return session
        return None


def circle_of(waits, session):
    """The cycle of a session, if it is on one."""
    walks = [[session]]
    for _ in SESSIONS:
        for walk in walks:
            if (walk[-1], session) in waits:
                return walk
        walks = [walk + [to] for walk in walks for at, to in waits if at == walk[-1] and to not in walk]
    return None


def played(level, setup, lines):
    """The log of a play: a retry if one is possible, else the first line whose session doesn't wait, else the abort of
    the least session that is active and doesn't wait."""
    engine, left = Engine(level, setup), list(lines)
    while True:
        session = engine.retryable()
        if session is not None:
            engine.retry(session)
            continue
        found = engine.found()
        ready = [at for at, line in enumerate(left) if line[0] not in found.waiting]
        open_ones = [it for it in sorted(found.active) if it not in found.waiting]
        if ready:
            engine.step(*left.pop(ready[0]))
        elif open_ones:
            engine.step(open_ones[0], "abort")
        else:
            return engine.log


def answer_text(kind, *parts):
    if kind == "rows":
        return "rows " + (", ".join(f"({number}, {value})" for (_, number), value in parts[1].items()) or "none")
    if kind == "waits":
        return "waits " + ", ".join(f"T{session}" for session in parts[0])
    return " ".join([kind, *map(str, parts)])


def log_text(log):
    return "".join(f"T{session} {text_of(command)}: {answer_text(*answer)}\n" for session, command, answer in log)


def members(states):
    """The members of a list, each a row and its value, or null."""
    return [[*row, state] for row, state in states.items()]


def history_text(setup, log):
    """The file of the history that a log describes, looked up for each transaction."""
    txns = []
    for place, (session, _, (kind, *_)) in enumerate(log):
        if kind == "begun":
            ops, outcome = operations(log[place + 1 :], session)
            txns.append({"no": len(txns) + 1, "ops": ops, "outcome": outcome})
    found = look(setup, log)
    installed = {}
    for it in found.installed:
        installed.setdefault(it.row, []).append(it.by)
    file = {
        "end": [[*row, state] for row, (_, state) in sorted(found.committed.items()) if state is not None],
        "format": "hermitage-history",
        "initial": members(setup),
        "installed": [[*row, numbers] for row, numbers in sorted(installed.items())],
        "transactions": txns,
        "version": 2,
    }
    return json.dumps(file, separators=(",", ":")) + "\n"


def operations(rest, session):
    """The operations of a session's transaction that has just begun, and its end."""
    ops = []
    for other, command, (kind, *parts) in rest:
        if other != session:
            continue
        if kind == "rows":
            view, rows, writes = parts
            op = {
                "rows": members(rows),
                "statement": command.text,
                "view": [[*row, *name] for row, name in view.items()],
                "writes": members(writes),
            }
            ops.append(op)
        elif kind in ("committed", "aborted"):
            return ops, kind
        elif kind == "refused" and parts[0] not in ("NoTransaction", "AlreadyBegun", "Busy"):
            return ops, "aborted"
    return ops, "aborted"
