"""A load: concurrent sessions that run the transactions of a mix, each in a thread, and the parts of the recording.

Transactions begin while the part has room. When it is nearly full, no new one begins. Once no transaction is open, the
rows are read, the version columns are cleared, and the next part begins.
"""
import random
import threading
import time
from dataclasses import dataclass, field

import mix
from recording import BYTES, ENTRIES, OPERATIONS, Refused, Transaction, Unreachable, Untold, history, text_of
from recording import ROWS as IDS
from script import VALUES
from statement import TEST

LOOK, STOPPING = 0.1, 2  # seconds between two looks at the clock; seconds for the sessions of a failed run to stop
OF_ENTRY, OF_OPERATION = 30, 100  # the most bytes of an entry, and of an operation without its text and entries
# A part is nearly full at half of a history's limits, since the open transactions still end in it.
NEARLY = 2


class Ids:
    """The ids of rows that are inserted and deleted. A deleted one isn't inserted again in the same part: for some
    databases that is another row, which a history can't express."""

    def __init__(self, rows, count):
        self.all = range(count + 1, IDS + 1)
        self.present = [id for id in self.all if (TEST, id) in rows]
        self.absent = [id for id in self.all if (TEST, id) not in rows]
        self.had_some = bool(self.absent)

    def new(self, draw):
        """An absent id. If the part began without one, any id: the insert is then refused."""
        id = self.absent.pop() if self.absent else draw.choice(self.all)
        self.present.append(id)
        return id

    def old(self, draw):
        """An id that is probably present, each only once; if there is none, any id."""
        if not self.present:
            return draw.choice(self.all)
        place = draw.randrange(len(self.present))
        self.present[place], self.present[-1] = self.present[-1], self.present[place]
        return self.present.pop()


@dataclass
class Part:
    """The recording since the last cut, and how much of a history it fills."""

    initial: dict
    ids: Ids
    most: int  # transactions
    transactions: list = field(default_factory=list)
    operations: int = 0
    entries: int = 0
    bytes: int = 0
    untold: str = None  # why a history can't express what happened

    def count(self, txn):
        for op in txn.ops:
            entries = len(op.view) + len(op.rows) + len(op.writes)
            self.entries += entries
            self.bytes += OF_OPERATION + len(op.statement.printed()) + OF_ENTRY * entries
        self.operations += len(txn.ops)

    def is_full(self):
        return (
            bool(self.untold)
            or len(self.transactions) >= self.most
            or self.ids.had_some and not self.ids.absent
            or self.operations > OPERATIONS / NEARLY
            or self.entries > ENTRIES / NEARLY
            or self.bytes > BYTES / NEARLY
        )

    def text(self, end):
        """The text of its history file; raises Untold."""
        if self.untold:
            raise Untold(self.untold)
        return text_of(history(self.initial, self.transactions, end))


def needed(op, own):
    """Reduces an operation's view to the rows that its statement may match and those that its transaction wrote."""
    ids = op.statement.among(id for _, id in op.view)
    op.view = {row: version for row, version in op.view.items() if row in own or row[1] in ids}
    return op


class Load:
    """The sessions and their current part. One lock protects what they share."""

    def __init__(self, database, kinds, given, patience):
        self.database, self.mix, self.given, self.patience = database, kinds, given, patience
        self.changed = threading.Condition()
        self.part = self.next_part()
        self.open, self.is_cutting, self.is_over, self.failure = 0, False, False, None
        self.until, self.begun, self.ends_early = None, time.monotonic(), False
        self.transactions = self.committed = 0

    def next_part(self):
        rows = self.database.rows()
        return Part(rows, Ids(rows, self.given.rows), self.given.transactions)

    def end_early(self):
        self.ends_early = True

    def is_time_up(self):
        return self.ends_early or time.monotonic() >= self.until

    def parts(self, tell):
        """Yields each part with its final rows. `tell` is called now and then, while the sessions run."""
        sessions = [self.database.session() for _ in range(self.given.sessions)]
        self.begun = time.monotonic()
        self.until = self.begun + self.given.seconds
        for number, session in enumerate(sessions, 1):
            threading.Thread(target=self.run_session, args=(number, session), daemon=True).start()
        try:
            while not self.is_over:
                with self.changed:
                    self.wait_for_cut(tell)
                    cut = self.cut()
                yield cut
        finally:
            self.stop()

    def wait_for_cut(self, tell):
        """Waits until the part is nearly full or the time is up, and then until no transaction is open."""
        while not (self.is_cutting or self.failure or self.is_time_up()):
            tell(self)
            self.changed.wait(LOOK)
        self.is_cutting = True
        if not self.changed.wait_for(lambda: self.failure or not self.open, self.patience):
            raise Unreachable(f"a session waits for more than {self.patience} s, and for none of the others")
        if self.failure:
            raise self.failure

    def cut(self):
        done, end = self.part, self.database.rows()
        self.is_over = self.is_time_up()
        if not self.is_over:
            self.database.clear()
            self.part = self.next_part()
        self.is_cutting = False
        self.changed.notify_all()
        return done, end

    def stop(self):
        """Waits for sessions to stop before the database is closed; those that can't stop are ended with it."""
        with self.changed:
            self.is_over = True
            self.changed.notify_all()
            self.changed.wait_for(lambda: not self.open, STOPPING)

    def run_session(self, number, session):
        draw = random.Random(f"{self.given.seed} {number}")
        try:
            while txn := self.begun_by(number):
                try:
                    self.run_transaction(session, txn, draw)
                finally:
                    self.ended(txn)
        except BaseException as why:
            with self.changed:
                self.failure = why
                self.changed.notify_all()

    def begun_by(self, number):
        """The next transaction of a session, once it may begin; None if the run is over."""
        with self.changed:
            self.changed.wait_for(lambda: self.is_over or not self.is_cutting)
            if self.is_over:
                return None
            txn = Transaction(len(self.part.transactions) + 1, number)
            self.part.transactions.append(txn)
            self.open += 1
            self.look_if_full()
            return txn

    def ended(self, txn):
        with self.changed:
            self.open -= 1
            self.transactions += 1
            self.committed += txn.outcome == "committed"
            self.part.count(txn)
            self.look_if_full()

    def look_if_full(self):
        """Notifies the main thread if the part is nearly full and no transaction is open."""
        self.is_cutting = self.is_cutting or self.part.is_full()
        if self.is_cutting and not self.open:
            self.changed.notify_all()

    def run_transaction(self, session, txn, draw):
        """Runs a transaction of the mix. If it is refused, it stays aborted. Untold spoils the whole part."""
        session.begin(txn)
        try:
            self.run_statements(session, txn, draw)
        except Refused:
            session.rollback(txn)
            return
        except Untold as why:
            session.rollback(txn)
            self.part.untold = str(why)
            return
        try:
            txn.place = session.commit(txn)
            txn.outcome = "committed"
        except Refused:
            pass  # (it was rolled back)

    def run_statements(self, session, txn, draw):
        numbers = self.numbers(draw)
        for text in self.mix.drawn(draw).statements:
            numbers.update(self.spare_ids(text, numbers, draw))
            op = session.carry_out(txn, mix.with_numbers(text, numbers))
            if op.remark:
                raise Untold(op.remark)
            txn.take(needed(op, txn.own))
            if op.statement.kind == "select":
                numbers["next"] = min(next(iter(op.rows.values()), 0) + 1, VALUES[1])

    def numbers(self, draw):
        """The numbers for the names of the mix, in one transaction."""
        a, b = sorted(draw.sample(range(1, self.given.rows + 1), 2))
        return {"a": a, "b": b, "digit": draw.randrange(10), "next": 1}

    def spare_ids(self, text, numbers, draw):
        """Ids for `$new` and `$old`, given out when the first statement of the transaction names them."""
        names = [name for name in ("new", "old") if name in text and name not in numbers]
        if not names:
            return {}
        with self.changed:
            return {name: getattr(self.part.ids, name)(draw) for name in names}
