"""A Dask cluster for the tests: a scheduler and workers on 127.0.0.1, in a temporary folder."""
import os
import re
import shutil
import subprocess
import sys
import tempfile
import time
from functools import partial
from typing import Any

PATIENCE, ENDING = 60, 10
ASIDE = "\nIt says:\n"


def has_dask(python: str) -> bool:
    """Whether this Python has Dask."""
    look = "import importlib.util, sys; sys.exit(importlib.util.find_spec('distributed') is None)"
    return os.path.exists(python) and not subprocess.run([python, "-c", look], check=False).returncode


# This Python, or Debian's, for which Debian's packages are.
PYTHON = next(filter(has_dask, [sys.executable, "/usr/bin/python3"]), "")


class Process:
    """A scheduler or a worker. Its output goes to a file."""

    def __init__(self, room: str, what: str, words: list[str], processors: set[int] | None) -> None:
        self.folder = tempfile.mkdtemp(dir=room)
        self.log = f"{self.folder}/log"
        command = [PYTHON, "-B", "-m", f"distributed.cli.dask_{what}", "--host", "127.0.0.1", "--no-dashboard", *words]
        bound: dict[str, Any] = {"preexec_fn": partial(os.sched_setaffinity, 0, processors)} if processors else {}
        with open(self.log, "wb") as log:
            self.process = subprocess.Popen(
                command, cwd=self.folder, stdin=subprocess.DEVNULL, stdout=log, stderr=log, **bound
            )

    def said(self) -> str:
        with open(self.log, encoding="utf-8", errors="replace") as log:
            return log.read()

    def wait_for(self, pattern: str) -> re.Match[str]:
        """Waits until it prints a text."""
        until = time.monotonic() + PATIENCE
        while not (found := re.search(pattern, self.said())):
            if self.process.poll() is not None or time.monotonic() > until:
                raise RuntimeError("a part of the cluster isn't there." + ASIDE + self.said())
            time.sleep(0.05)
        return found

    def end(self) -> None:
        if self.process.poll() is None:
            self.process.terminate()

    def see_it_end(self) -> None:
        try:
            self.process.wait(ENDING)
        except subprocess.TimeoutExpired:
            self.process.kill()
            self.process.wait()


class Cluster:
    """A scheduler and workers of one thread each, as a context, in a new folder below the given one. With `is_bound`,
    each worker and its child processes have one processor, the first worker the second one."""

    def __init__(self, workers: int, is_bound: bool = False, below: str | None = None) -> None:
        self.room, self.count, self.is_bound = tempfile.mkdtemp(prefix="lab", dir=below), workers, is_bound
        self.started: list[Process] = []
        self.workers: list[Process] = []

    def __enter__(self) -> "Cluster":
        try:
            self.scheduler = self.start("scheduler", ["--port", "0"])
            self.address = self.scheduler.wait_for(r"Scheduler at: +(tcp://[\d.:]+)")[1]
            self.add(self.count)
        except BaseException:
            self.__exit__()
            raise
        return self

    def start(self, what: str, words: list[str]) -> Process:
        there = sorted(os.sched_getaffinity(0))
        processors = {there[len(self.started)]} if self.is_bound and what == "worker" else None
        process = Process(self.room, what, words, processors)
        self.started.append(process)
        return process

    def add(self, count: int = 1, *more: str) -> None:
        """Starts some workers, with further arguments, and waits until the scheduler has them."""
        words = [self.address, "--nthreads", "1", "--local-directory", self.room, *more]
        added = [self.start("worker", words) for _ in range(count)]
        for worker in added:
            worker.wait_for("Registered to:")
        self.workers += added

    def __exit__(self, *_: object) -> None:
        """Ends each process, workers first, and waits for their end."""
        for process in reversed(self.started):
            process.end()
        for process in reversed(self.started):
            process.see_it_end()
        shutil.rmtree(self.room, ignore_errors=True)
