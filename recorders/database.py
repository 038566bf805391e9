"""What recorders share: a database that runs scripts, and its sessions, whose statements run in threads.

A recorder is a dialect: a class derived from Database, with the members below. `tables.py` has what SQL databases share,
`served.py` what servers share, and `client.py` the pipes to a server's command-line client; a blocking Python driver can
replace it. `toy` is a complete example in 48 lines. Different sessions may call at the same time, each from its thread.

    NAME, version()     the title of a table; the version is the one that the database reports
    LEVELS              for each level, what the manual promises: PL-1, PL-2, PL-2.99, SI or PL-3. recorders/cases
                        compares its table with it
    make_tables()       creates the tables, with the rows of `script.setup`. Everything is committed before the first
                        session connects
    rows()              the committed rows: a value for each table and id, without deleted rows. It is called when no
                        transaction is open
    connect()           a connection for one session. Another connection sees its uncommitted changes only as far as the
                        level allows
    begin(connection)   begins a transaction at `words.level`. It doesn't wait
    do(connection, txn, statement)
                        runs a statement; returns operation_of(txn, statement, listed, seen), or raises Refused. It may
                        wait as long as the database lets it: it runs in the session's own thread
    waits(connection)   whether the session's statement waits for another transaction: True only if the statement can't
                        go on before another transaction ends. If it is True while the statement is about to return, the
                        next line runs too early. It is called from another thread, some 500 times a second, so it needs
                        its own connection
    place(connection, txn)
                        draws the commit number of a transaction that wrote something: in the transaction, after its last
                        write, while its writes are locked. Of two transactions that wrote one row, the one that commits
                        first has the lower number
    commit(connection)  commits; raises Refused if the database refuses. The outcome is what the database reports
    rollback(connection)
                        rolls back, also if the database has already done so
    clear()             removes the names of versions, and deleted rows: what is committed counts as initial from then on.
                        Rows and values stay, and no later statement sees an older version. Only recorders/load calls it,
                        when no transaction is open
    close()             removes what was created, also if sessions wait or were interrupted

What `do` must guarantee:

    listed              has an entry for each row that the statement returned or matched, and for the row of an insert: the
                        id, the old value, the two numbers of the old version (None, None for the initial one), and the
                        new value or None. All of it comes from the statement itself; if the statement waited for a row, it
                        is what the statement found after the wait
    seen                has the version (None for the initial one) of each other row that the statement may match, present
                        or deleted, as the statement saw it. Read it in the statement (mariadb), in its transaction if that
                        has one snapshot (sqlite), or in its snapshot (postgres: `snapshot(connection)`, called at the
                        levels of OF_SNAPSHOTS). The base class adds the transaction's own writes and its snapshot
    the version's name  txn.next_version() goes into the row with the value, in the same statement. If the statement is
                        refused, nothing of it remains
    nothing else        it takes no lock and reads no row that the statement alone wouldn't. The recorder's documentation
                        lists the exceptions
    no guesses          if it can't know something, it sets `remark` of the operation, which is printed on standard error,
                        or raises Untold, which leaves the run out

If the database doesn't block but reports that it is locked, as SQLite does, `do` raises Waits, and is called again when
another transaction has ended. Unreachable is raised if the database doesn't respond.
"""
import threading
import time

from recording import Refused, Waits

LOOK = 0.002  # seconds between two checks of a running statement


class Database:
    """The tables of a script in a database, and its dialect."""

    NAME = ""
    LEVELS = {}  # for each level, what the manual promises: PL-1, PL-2, PL-2.99, SI or PL-3
    # The levels at which a transaction has one snapshot, which is taken with its first statement.
    OF_SNAPSHOTS = ()
    # Whether a transaction stays open after a refused statement, and the database refuses its further statements.
    STAYS_OPEN = False
    ERRORS = ()  # a driver's exceptions for a database that doesn't respond

    def __init__(self, words, script):
        self.words, self.script = words, script
        self.has_snapshots = words.level in self.OF_SNAPSHOTS

    def version(self):
        return ""

    def session(self):
        return Session(self)

    def snapshot(self, connection):
        """The versions of all rows in the snapshot of a transaction that is about to run its first statement."""
        raise NotImplementedError

    def waits(self, _):
        """False for a database that never blocks; its `do` raises Waits instead."""
        return False

    def clear(self):
        """Removes the names of versions, while no transaction is open: what is committed then counts as initial."""
        raise NotImplementedError

    def close(self):
        """Removes what was created, even if connections wait or were interrupted."""


class Session:
    """A session's connection, and its current statement."""

    def __init__(self, database):
        self.database, self.connection = database, database.connect()
        self.given = self.thread = self.op = self.failure = None

    def begin(self, _):
        self.database.begin(self.connection)

    def start(self, txn, statement):
        """Starts a statement, and doesn't wait for it."""
        self.given, self.thread = (txn, statement), None

    def is_answered(self):
        """Returns True once the statement has ended, or False once it is seen to wait. A statement that raised Waits is
        retried by each call."""
        if not self.thread:
            self.thread = threading.Thread(target=self.try_given, daemon=True)
            self.thread.start()
        while self.is_working(LOOK):
            if self.database.waits(self.connection):
                return not self.is_working(0)
        if isinstance(self.failure, Waits):
            self.thread = None
        return bool(self.thread)

    def is_working(self, seconds):
        self.thread.join(seconds)
        return self.thread.is_alive()

    def try_given(self):
        """Runs the statement in its thread; `operation` returns or raises the outcome."""
        self.op = self.failure = None
        try:
            self.op = self.tried(*self.given)
        except BaseException as why:
            self.failure = why

    def operation(self, *_):
        """The operation of the statement; raises Refused if the statement was refused."""
        if self.failure:
            raise self.failure
        return self.op

    def carry_out(self, txn, statement):
        """Runs a statement, however long it waits, and returns its operation; raises Refused. For callers that have a
        thread for each session."""
        while True:
            try:
                return self.tried(txn, statement)
            except Waits:
                time.sleep(LOOK)

    def tried(self, txn, statement):
        """Runs a statement. If it is refused, the transaction is aborted."""
        database = self.database
        self.look_if_open(txn)
        try:
            if database.has_snapshots and txn.snapshot is None and not txn.is_refused:
                txn.snapshot = database.snapshot(self.connection)
            return database.do(self.connection, txn, statement)
        except Refused:
            txn.is_refused = True
            if not database.STAYS_OPEN:
                database.rollback(self.connection)
            raise

    def look_if_open(self, txn):
        if txn.is_refused and not self.database.STAYS_OPEN:
            raise Refused("the transaction was rolled back")

    def commit(self, txn):
        """Commits; returns the commit number, or None if nothing was written; raises Refused. The number is drawn while
        the transaction's writes are locked, so of two transactions that wrote one row, the first draws first."""
        self.look_if_open(txn)
        place = self.database.place(self.connection, txn) if txn.own and not txn.is_refused else None
        try:
            self.database.commit(self.connection)
        except Refused:
            self.database.rollback(self.connection)
            raise
        return place

    def rollback(self, txn):
        if self.database.STAYS_OPEN or not txn.is_refused:
            self.database.rollback(self.connection)
