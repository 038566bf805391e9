"""Runs a script on a database, line by line, and writes the history of the run.

Each session has its own connection (`database`). Everything in the history comes from the database's results: rows,
written values, versions, and which statements wait or are refused.
"""
import json
import time
from dataclasses import dataclass, field

PAUSE = 0.005  # seconds between two checks of waiting sessions
TRANSACTIONS, OPERATIONS, ROWS, ENTRIES, BYTES = 1000, 10_000, 1000, 200_000, 8_388_608


class Refused(Exception):
    """The database refused a statement or a commit, and its transaction is aborted."""


class Untold(Exception):
    """A history can't express what happened, or it can't be known: the run is left out."""


class Unreachable(Exception):
    """The database doesn't respond."""


class Waits(Exception):
    """The database doesn't block: the statement has to be retried when another transaction has ended."""


@dataclass
class Operation:
    """What a statement did. A version is a transaction number and an operation number, or None for the initial one."""

    statement: object
    view: dict  # a version for each row
    rows: dict  # a value for each row
    writes: dict  # a value for each row, or None
    remark: str = ""  # a warning for the user

    def members(self):
        return {
            "statement": self.statement.printed(),
            "view": [[*row, *version] for row, version in sorted(self.view.items()) if version],
            "rows": [[*row, value] for row, value in sorted(self.rows.items())],
            "writes": [[*row, value] for row, value in sorted(self.writes.items())],
        }


@dataclass
class Transaction:
    """A transaction counts as aborted until its commit has succeeded."""

    no: int
    session: int
    outcome: str = "aborted"
    place: int = None  # in the order of commits
    ops: list = field(default_factory=list)
    own: dict = field(default_factory=dict)  # the last version of each row that it wrote
    snapshot: dict = None  # a version for each row, if the transaction has a snapshot
    is_refused: bool = False

    def next_version(self):
        return self.no, len(self.ops) + 1

    def take(self, op):
        """Appends an operation."""
        self.own.update(dict.fromkeys(op.writes, self.next_version()))
        self.ops.append(op)


def operation_of(txn, statement, listed, seen):
    """The operation of a statement that returned these rows and looked at these versions. An entry of `listed` has the
    id, the old value, the name of the old version and the new value. All other rows were seen as in the transaction's
    snapshot, if it has one, and as the transaction wrote them. A view has the rows of the statement's table, and the
    rows of other tables that the transaction wrote."""
    found, known = {}, {**(txn.snapshot or {}), **txn.own, **seen}
    for id, value, no, op, left in listed:
        if (statement.table, id) in found:
            raise Untold(f"T{txn.session} finds row {id} of {statement.table} twice, as it was and as inserted anew")
        found[statement.table, id] = value, (no, op) if no else None, left
    view = {row: version for row, version in known.items() if row[0] == statement.table or row in txn.own}
    if statement.kind != "insert":
        view.update({row: version for row, (_, version, _) in found.items()})
    rows = {row: value for row, (value, _, _) in found.items() if statement.kind != "insert"}
    writes = {row: left for row, (_, _, left) in found.items() if statement.kind != "select"}
    return Operation(statement, view, rows, writes)


class Play:
    """The run of a script: lines are run in order, and the lines of a waiting session wait with it."""

    def __init__(self, script, database, is_logged, patience, warn):
        self.database, self.is_logged, self.patience, self.warn = database, is_logged, patience, warn
        self.pending = list(script.commands)
        self.sessions, self.active, self.waiting = {}, {}, {}
        self.transactions = []

    def run(self):
        while self.pending or self.waiting:
            self.settle()
            command = self.next()
            if command:
                self.at(command, self.give)
            elif self.waiting:
                self.make_way()
        for session in sorted(self.active):
            self.roll_back(session, "the script has ended")

    def next(self):
        """Removes and returns the first line of a session that doesn't wait."""
        for place, command in enumerate(self.pending):
            if command.session not in self.waiting:
                return self.pending.pop(place)
        return None

    def settle(self):
        """Takes results until all remaining sessions wait."""
        before = None
        while before != len(self.waiting):
            before = len(self.waiting)
            for _, command in sorted(self.waiting.items()):
                self.at(command, self.take_answer)

    def at(self, command, call):
        """Calls `call` for a command; adds the script's line to an error that ends the run."""
        try:
            call(command)
        except (Untold, Unreachable) as what:
            raise type(what)(f"line {command.line}: {what}") from None

    def make_way(self):
        """Only waiting sessions have lines left. Rolls back the lowest-numbered active session that doesn't wait. If all
        of them wait, the database resolves that, or a session outside the script blocks them."""
        free = sorted(set(self.active) - set(self.waiting))
        if free:
            self.roll_back(free[0], "others wait for it and it has no line left")
            return
        until = time.monotonic() + self.patience
        waiting = len(self.waiting)
        while len(self.waiting) == waiting:
            if time.monotonic() > until:
                line = min(command.line for command in self.waiting.values())
                raise Unreachable(f"line {line}: waits for more than {self.patience} s, and for none of the script's sessions")
            time.sleep(PAUSE)
            self.settle()

    def give(self, command):
        number = command.session
        if (number in self.active) == (command.kind == "begin"):
            where = "a transaction" if number in self.active else "none"
            self.tell(command, f"left out, its session is in {where}")
        elif command.kind == "begin":
            self.begin(command)
        elif command.kind == "commit":
            self.commit(command)
        elif command.kind == "abort":
            self.tell(command, "aborted")
            self.sessions[number].rollback(self.active.pop(number))
        else:
            self.waiting[number] = command
            self.sessions[number].start(self.active[number], command.statement)
            if not self.sessions[number].is_answered():
                self.tell(command, "waits")

    def begin(self, command):
        number = command.session
        if number not in self.sessions:
            self.sessions[number] = self.database.session()
        txn = Transaction(len(self.transactions) + 1, number)
        self.transactions.append(txn)
        self.active[number] = txn
        self.sessions[number].begin(txn)
        self.tell(command, f"begun {txn.no}")

    def take_answer(self, command):
        """Takes the result of a statement if it has ended: an operation, unless it was refused."""
        session = self.sessions[command.session]
        if not session.is_answered():
            return
        del self.waiting[command.session]
        txn = self.active[command.session]
        try:
            op = session.operation(txn, command.statement)
        except Refused as why:
            self.tell(command, f"refused {why}")
            return
        txn.take(op)
        if op.remark:
            self.warn(f"line {command.line}: {op.remark}")
        rows = ", ".join(f"({id}, {value})" for (_, id), value in sorted(op.rows.items()))
        self.tell(command, f"rows {rows or 'none'}")

    def commit(self, command):
        txn = self.active.pop(command.session)
        try:
            txn.place = self.sessions[command.session].commit(txn)
        except Refused as why:
            self.tell(command, f"refused {why}")
            return
        txn.outcome = "committed"
        self.tell(command, "committed")

    def roll_back(self, session, why):
        self.sessions[session].rollback(self.active.pop(session))
        self.say(f"T{session} is rolled back: {why}")

    def tell(self, command, what):
        self.say(f"line {command.line}: T{command.session} {command.printed()}: {what}")

    def say(self, what):
        if self.is_logged:
            self.warn(what)


def installed(transactions):
    """For each row, the committed transactions that wrote it, in commit order."""
    found = {}
    committed = [txn for txn in transactions if txn.outcome == "committed" and txn.own]
    for txn in sorted(committed, key=lambda txn: txn.place):
        for row in txn.own:
            found.setdefault(row, []).append(txn.no)
    return [[*row, numbers] for row, numbers in sorted(found.items())]


def history(initial, transactions, end):
    """The object of the history file."""
    return {
        "format": "hermitage-history",
        "version": 2,
        "initial": [[*row, value] for row, value in sorted(initial.items())],
        "transactions": [
            {"no": txn.no, "outcome": txn.outcome, "ops": [op.members() for op in txn.ops]} for txn in transactions
        ],
        "installed": installed(transactions),
        "end": [[*row, value] for row, value in sorted(end.items())],
    }


def text_of(whole):
    """The text of a history file; raises Untold if it exceeds the limits."""
    ops = [op for txn in whole["transactions"] for op in txn["ops"]]
    entries = [entry for op in ops for key in ("view", "rows", "writes") for entry in op[key]]
    members = entries + whole["initial"] + whole["installed"] + whole["end"]
    text = json.dumps(whole, separators=(",", ":"), sort_keys=True)
    counts = {
        "transactions": (len(whole["transactions"]), TRANSACTIONS),
        "operations": (len(ops), OPERATIONS),
        "rows": (len({(table, id) for table, id, *_ in members}), ROWS),
        "entries": (len(entries), ENTRIES),
        "bytes": (len(text), BYTES),
    }
    for what, (count, most) in counts.items():
        if count > most:
            raise Untold(f"the run has {count} {what}, and a history at most {most}")
    return text


def record(script, database, is_logged, patience, warn):
    """Runs a script on a database that has the tables of its setup; returns the text of the history. Warnings for the
    user are passed to `warn`, line by line."""
    initial = database.rows()
    play = Play(script, database, is_logged, patience, warn)
    play.run()
    return text_of(history(initial, play.transactions, database.rows()))
