"""Plays scripts with a recorder, some at the same time in one process, so that they share its JVM.

usage: playing_at_once.py RECORDER THREADS

Each line of standard input is a list of options and a script, as JSON. In an option, {n} is replaced by the number of the
thread, so that each has a database of its own. Each line of standard output, in the same order, is the history, or null, and
the lines of the log; without a history, the last line says why.
"""
from __future__ import annotations

import json
import os
import sys
import threading
from concurrent.futures import ThreadPoolExecutor
from typing import Any

sys.dont_write_bytecode = True
PATH, THREADS = sys.argv[1:]
sys.path.insert(0, os.path.dirname(PATH))
import command_line  # noqa: E402
import recording  # noqa: E402
import script  # noqa: E402

RECORDER = command_line.parser_of(PATH)
LOCAL = threading.local()
NUMBERS = iter(range(int(THREADS)))


def number() -> None:
    LOCAL.number = next(NUMBERS)


def words(options: list[str]) -> Any:
    return RECORDER.parse_args([*(option.replace("{n}", str(LOCAL.number)) for option in options), "--log"])


def played(line: str) -> str:
    options, text = json.loads(line)
    log: list[str] = []
    return json.dumps([recorded(words(options), script.read(text.encode()), log), log])


def recorded(given: Any, read: script.Script, log: list[str]) -> str | None:
    """The history of a script, or None; signals are for the main thread, so command_line.recorded isn't called."""
    database = given.make(given, read)
    try:
        database.make_tables()
        history: str = recording.record(read, database, given.log, given.patience, log.append)
        return history
    except (recording.Untold, recording.Unreachable) as why:
        log.append(str(why))
        return None
    finally:
        database.close()


with ThreadPoolExecutor(int(THREADS), initializer=number) as pool:
    for result in pool.map(played, sys.stdin):
        print(result, flush=True)
