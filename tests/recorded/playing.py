"""Plays scripts with a recorder, one after another in one process, to avoid starting Python for each.

usage: playing.py RECORDER LEVEL

Each line of standard input is a script as JSON. Each line of standard output is the history, or null, and the lines of the
log; without a history, the last line says why.
"""
import json
import os
import sys

sys.dont_write_bytecode = True
PATH, LEVEL = sys.argv[1:]
sys.path.insert(0, os.path.dirname(PATH))
import command_line  # noqa: E402
import recording  # noqa: E402

RECORDER = command_line.parser_of(PATH)
WORDS = RECORDER.parse_args(["--level", LEVEL, "--log"])

for line in sys.stdin:
    log, text = [], None
    try:
        text = command_line.recorded(WORDS, json.loads(line).encode(), log.append)
    except (recording.Untold, recording.Unreachable, *WORDS.make.ERRORS) as why:
        log.append(str(why))
    print(json.dumps([text, log]), flush=True)
