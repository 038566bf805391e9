"""recorders/made and recorders/check: the same scripts each time, and histories that are a play of a script or aren't."""
from __future__ import annotations

import json
import os
import re
import sys
import tempfile
from typing import Any

from harness import TOP, Tally, run

sys.path.insert(1, f"{TOP}/recorders")
import script  # noqa: E402
from making import KINDS, scripts  # noqa: E402

MADE, CHECK = f"{TOP}/recorders/made", f"{TOP}/recorders/check"
# Two sessions that write the same row; T2 begins another transaction.
SCRIPT = """setup (1, 10), (2, 20);
begin; -- T1
begin; -- T2
select * from test; -- T1
update test set value = 5 where id = 1; -- T1
update test set value = 6 where id = 1; -- T2
select * from test where id = 2; -- T2
commit; -- T1
commit; -- T2
begin; -- T2
delete from test; -- T2
abort; -- T2
"""
ALL, FIRST, SECOND = "select * from test", "update test set value = 5 where id = 1", "update test set value = 6 where id = 1"
TWO, GONE = "select * from test where id = 2", "delete from test"
Txn = tuple[str, list[str]]
WHOLE: list[Txn] = [("committed", [ALL, FIRST]), ("committed", [SECOND, TWO]), ("aborted", [GONE])]
# What it shows, the transactions, the refused lines, and the differences.
PLAYS: tuple[tuple[str, list[Txn], list[int], list[str]], ...] = (
    ("a play", WHOLE, [], []),
    ("the sessions in another order", [WHOLE[1], WHOLE[0], WHOLE[2]], [], []),
    ("a refused statement", [WHOLE[0], ("aborted", []), WHOLE[2]], [6], []),
    ("a refused statement, after which its transaction goes on", [WHOLE[0], ("committed", [TWO]), WHOLE[2]], [6], []),
    ("a refused commit", [WHOLE[0], ("aborted", [SECOND, TWO]), WHOLE[2]], [9], []),
    ("a dropped line", [WHOLE[0], ("committed", [SECOND]), WHOLE[2]], [], ["missing: line 7: T2 select"]),
    (
        "the end of a session is dropped",
        [WHOLE[0], ("aborted", [SECOND])],
        [],
        ["missing: line 7: T2 select", "missing: line 9: T2 commit", "missing: line 11: T2 delete"],
    ),
    ("a line that is given twice", [("committed", [ALL, FIRST, FIRST]), *WHOLE[1:]], [], [f"extra: T1 op 3: {FIRST}"]),
    (
        "another statement",
        [("committed", [ALL, SECOND]), *WHOLE[1:]],
        [],
        ["missing: line 5: T1 update", f"extra: T1 op 2: {SECOND}"],
    ),
    ("an abort that has committed", [*WHOLE[:2], ("committed", [GONE])], [], ["differs: T3 has committed"]),
    ("a transaction too many", [*WHOLE, ("committed", [ALL])], [], ["extra: T4 op 1"]),
    (
        "statements after a refused one, in an aborted transaction",
        [WHOLE[0], ("aborted", [SECOND, TWO]), WHOLE[2]],
        [6],
        ["extra: T2 op 1"],
    ),
)


def history(txns: list[Txn]) -> dict[str, Any]:
    """What recorders/check reads of a history."""
    ops = [[{"statement": text} for text in texts] for _, texts in txns]
    return {
        "transactions": [
            {"no": no, "outcome": outcome, "ops": its} for no, ((outcome, _), its) in enumerate(zip(txns, ops), 1)
        ]
    }


def try_check(tally: Tally) -> None:
    with tempfile.TemporaryDirectory() as room:
        for name, text in ("script.txt", SCRIPT), ("log.txt", "line 6: T2 update test: refused why\n"), ("bad.json", "[]"):
            with open(f"{room}/{name}", "w", encoding="utf-8") as file:
                file.write(text)
        for what, txns, refused, due in PLAYS:
            with open(f"{room}/history.json", "w", encoding="utf-8") as file:
                json.dump(history(txns), file)
            more = ["--refused", ",".join(map(str, refused))] if refused else []
            more = ["--log", f"{room}/log.txt"] if refused == [6] else more
            ended = run([CHECK, f"{room}/script.txt", f"{room}/history.json", *more])
            lines = ended.stdout.decode().splitlines()
            is_due = len(lines) == len(due) and all(any(line.startswith(it) for line in lines) for it in due)
            tally.note(
                is_due and ended.returncode == bool(due), f"check: {what}: {ended.returncode}, {lines}, {ended.stderr!r}"
            )
        for files, status in ((["script.txt", "bad.json"], 2), (["none.txt", "bad.json"], 3), (["log.txt", "bad.json"], 2)):
            ended = run([CHECK, *[f"{room}/{name}" for name in files]])
            is_due = ended.returncode == status and ended.stderr.count(b"\n") == 1 and not ended.stdout
            tally.note(is_due, f"check: {files}: {ended.returncode}, {ended.stderr!r}")


def try_made(tally: Tally) -> None:
    """Each kind has its own scripts, each a script of the grammar, with what the kind has more of."""
    texts = {name: "".join(scripts(40, 1, (name,))) for name in KINDS}
    for name in KINDS:
        for text in scripts(40, 1, (name,)):
            tally.note(script.read(text.encode()).commands, f"made: {name}: no script: {text}")
    shares = {
        name: {what: len(re.findall(pattern, text, re.M)) for what, pattern in PATTERNS.items()}
        for name, text in texts.items()
    }
    for name, what in (("values", "by value"), ("born", "inserts"), ("born", "deletes"), ("refused", "out of range")):
        most = max(shares, key=lambda other: shares[other][what])
        tally.note(most == name, f"made: {most} has more {what} than {name}: {shares}")
    tally.note(shares["waits"]["ends"] < shares["mixed"]["ends"], f"made: waits has as many ends as mixed: {shares}")
    with tempfile.TemporaryDirectory() as room:
        once, again = (run([MADE, "3", "--seed", "8", *words]).stdout for words in NO_KINDS_AND_ALL)
        run([MADE, "3", "--seed", "8", "--into", room])
        names = sorted(os.listdir(room))
        with open(f"{room}/9.txt", "rb") as file:
            tally.note(
                once == again and names == ["10.txt", "8.txt", "9.txt"] and file.read() in once, f"made: {names}, {once!r}"
            )
    for words in ["0"], ["1", "--kinds", "chaos"], ["1", "--seed", "x"]:
        ended = run([MADE, *words])
        tally.note(
            ended.returncode == 2 and ended.stderr.count(b"\n") == 1, f"made {words}: {ended.returncode}, {ended.stderr!r}"
        )


NO_KINDS_AND_ALL: tuple[list[str], list[str]] = [], ["--kinds", ",".join(KINDS)]
PATTERNS = {
    "by value": r"^(?:update|delete) .*where .*value",
    "inserts": r"^insert",
    "deletes": r"^delete",
    "out of range": r"1000000000",
    "ends": r"^(?:commit|abort)",
}
