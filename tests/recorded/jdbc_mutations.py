"""Wrong recorders over JDBC: edits of recorders/, each with a model and a level at which it must be found, and how.

An edit is a file, a text that occurs in it once, and the replacement. The evidence is a pattern: a line of a report, or the
first difference that recorders/check prints.
"""
from recorded.mutations import READ_COMMITTED, SERIALIZABLE

OVER, RECORDING, WITHOUT, DATABASE = "over_jdbc.py", "recording.py", "without_returning.py", "database.py"
# The versions of the rows that an update looked at are read after it.
VIEW_AFTER = (
    (OVER, "        if not self.NOTE:\n            return condition\n", "        if True:\n            return condition\n"),
    (OVER, "        if not self.NOTE:\n            return super()", "        if True:\n            return super()"),
    (WITHOUT, "if not others or self.words.level in self.STABLE:", "if True:"),
)
# What it is, the model, the level, the kinds of scripts, the edits, and the evidence.
MUTATIONS = (
    ("a view is read after its update", "h2", READ_COMMITTED, "values", VIEW_AFTER, "F6 RowsDiffer"),
    (
        "the lines of a session that waits are dropped",
        "hsqldb-locks",
        SERIALIZABLE,
        "waits",
        (
            (
                RECORDING,
                "        for place, command in enumerate(self.pending):",
                "        self.pending = [it for it in self.pending if it.session not in self.waiting]\n"
                "        for place, command in enumerate(self.pending):",
            ),
        ),
        "missing: line ",
    ),
    (
        "views don't have a transaction's own writes",
        "hsqldb-mvcc",
        READ_COMMITTED,
        "mixed",
        (
            (RECORDING, "**txn.own, **seen}", "**seen}"),
            (WITHOUT, "for id, no, op in done.looked}", "for id, no, op in done.looked if no != txn.no}"),
        ),
        "F4 OwnWriteMissed",
    ),
    (
        "views don't have the rows that are gone",
        "hsqldb-mvcc",
        SERIALIZABLE,
        "born",
        ((WITHOUT, 'f"where {statement.ids(sql)}{', 'f"where gone = 0 and {statement.ids(sql)}{'),),
        "F6 RowsDiffer",
    ),
    (
        "the level isn't set",
        "hsqldb-locks",
        SERIALIZABLE,
        "mixed",
        ((OVER, 'connection.request("isolation", LEVELS[self.words.level])', "pass"),),
        "serializable: no",
    ),
)
# The commit number is drawn after the commit: a script's lines run one after another, so only a load shows it.
DRAWN_LATE = (
    (
        DATABASE,
        "        place = self.database.place(self.connection, txn) if txn.own and not txn.is_refused else None\n",
        "",
    ),
    (
        DATABASE,
        "            raise\n        return place",
        "            raise\n        return self.database.place(self.connection, txn)",
    ),
)
