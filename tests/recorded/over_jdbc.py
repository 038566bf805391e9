"""Runs of recorders/jdbc and of the second recorder: played by one JVM for each database product."""
from __future__ import annotations

import json
import os
import re
import subprocess
import sys
import tempfile
import time
from typing import NamedTuple

from harness import TOP, run
from recorded.models import Model, jars

SECONDS, THREADS = 400, "6"
JDBC = f"{TOP}/recorders/jdbc"
REFUSED = re.compile(r"line (\d+): T\d .*: refused")
REMARK = re.compile(r"line \d+: (?:row|T\d finds row) ")


class Played(NamedTuple):
    """A script that was played at a level: its history, None if it was left out, and the lines of the log."""

    model: Model
    level: str
    text: str
    history: str | None
    log: list[str]

    def refused(self) -> list[int]:
        return [int(found[1]) for found in map(REFUSED.match, self.log) if found]

    def is_remarked(self) -> bool:
        return any(map(REMARK.match, self.log))

    def __str__(self) -> str:
        return f"{self.model.title}, {self.level}"


def played(asked: list[tuple[Model, str, str]], path: str = JDBC) -> list[Played]:
    """Plays scripts, each at a level of a model, by the recorder at this path."""
    lines = [[["--url", model.url, "--level", level], text] for model, level, text in asked]
    words = [sys.executable, "-S", f"{TOP}/tests/recorded/playing_at_once.py", path, THREADS]
    ended = run(words, "".join(f"{json.dumps(line)}\n" for line in lines).encode(), SECONDS)
    if ended.returncode:
        raise RuntimeError(f"{path}: status {ended.returncode}: {ended.stderr.decode()[-2000:]}")
    return [Played(*one, *json.loads(line)) for one, line in zip(asked, ended.stdout.splitlines())]


class Second:
    """The second recorder, compiled, and its histories by database, level and script."""

    def __init__(self, room: str) -> None:
        self.room, self.classes = room, f"{room}/classes"
        ended = run(["javac", "--release", "17", "-d", self.classes, f"{TOP}/tests/recorded/Rec.java"], seconds=SECONDS)
        if ended.returncode:
            raise RuntimeError(f"Rec.java isn't compiled: {ended.stderr.decode()[:1000]}")

    def histories(self, product: str, scripts: dict[str, str]) -> dict[tuple[str, str, str], str]:
        """The history of each script at each level of a product's databases."""
        with tempfile.TemporaryDirectory(dir=self.room) as room:
            os.mkdir(f"{room}/scripts")
            os.mkdir(f"{room}/histories")
            for name, text in scripts.items():
                with open(f"{room}/scripts/{name}.txt", "w", encoding="utf-8") as file:
                    file.write(text)
            path = f"{self.classes}{os.pathsep}{jars()}"
            words = ["java", "-XX:TieredStopAtLevel=1", "-cp", path, "Rec", product, f"{room}/scripts", f"{room}/histories"]
            ended = run(words, seconds=SECONDS)
            if ended.returncode:
                raise RuntimeError(f"Rec {product}: status {ended.returncode}: {ended.stderr.decode()[-1000:]}")
            return {
                key_of(name): text_of(f"{room}/histories/{name}")
                for name in sorted(os.listdir(f"{room}/histories"))
                if name.endswith(".json")
            }


def key_of(name: str) -> tuple[str, str, str]:
    database, level, script = name.removesuffix(".json").split(".")
    return database, level.replace("_", " "), script


def text_of(path: str) -> str:
    with open(path, encoding="utf-8") as file:
        return file.read()


class Cases:
    """recorders/cases on a model: the table, and the histories by level and case."""

    def __init__(self, program: str, model: Model) -> None:
        with tempfile.TemporaryDirectory() as room:
            words = [sys.executable, "-S", f"{TOP}/recorders/cases", "jdbc", "--url", model.one_url(), "--markdown"]
            self.ended = run([*words, "--keep", room, "--program", program], seconds=SECONDS)
            self.table = self.ended.stdout.decode()
            self.histories = {
                (folder.replace("_", " "), name.removesuffix(".json")): text_of(f"{room}/{folder}/{name}")
                for folder in os.listdir(room)
                for name in os.listdir(f"{room}/{folder}")
            }

    def cells(self) -> list[list[str]]:
        """The lines of the table, without its title and its head."""
        return [line[2:-2].split(" | ") for line in self.table.splitlines()[4:]]


def ended_with_parent() -> bool:
    """Whether the JVM ends when the process that started it is killed."""
    code = (
        f"import sys, time; sys.path.insert(0, {f'{TOP}/recorders'!r}); import bridge;"
        " made = bridge.running((), {}); print(made.process.pid, flush=True); time.sleep(600)"
    )
    with subprocess.Popen([sys.executable, "-S", "-c", code], stdout=subprocess.PIPE) as parent:
        assert parent.stdout is not None
        child = int(parent.stdout.readline())
        is_there = os.path.exists(f"/proc/{child}")
        parent.kill()
    return is_there and wait_for_end(child)


def wait_for_end(child: int) -> bool:
    until = time.monotonic() + 60
    while time.monotonic() < until:
        try:
            with open(f"/proc/{child}/stat", encoding="utf-8") as file:
                if file.read().rpartition(")")[2].split()[0] == "Z":
                    return True
        except OSError:
            return True
        time.sleep(0.05)
    return False
