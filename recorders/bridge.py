"""A JVM that holds databases for a recorder, and JDBC connections to them.

The JVM runs `Bridge.java` with the jars of the drivers. One JVM serves all connections of a process with the same jars and
properties, so `recorders/cases` starts one for all its cases. It is compiled at first use, into the folder
`hermitage_lab` below $XDG_CACHE_HOME or ~/.cache, or below the temporary folder if that can't be written. The JVM ends with
the process that started it: when it ends, and also if it is killed.
"""
from __future__ import annotations

import atexit
import hashlib
import os
import shutil
import socket
import subprocess
import tempfile
import threading
from typing import IO

from client import Values
from recording import Refused, Unreachable

SOURCE = os.path.join(os.path.dirname(os.path.abspath(__file__)), "Bridge.java")
OLDEST = "17"  # the oldest Java that runs it
PACKAGE = "Debian: package default-jdk-headless"
COMPILING, ENDING = 120, 10  # seconds
LOST = "08"  # the class of SQL states of a lost connection
# The C1 compiler alone: most recordings end before the other one pays.
OPTIONS = "-XX:TieredStopAtLevel=1", "-XX:+UseSerialGC", "-Xshare:auto"
RUNNING: dict[tuple[object, ...], Bridge] = {}
STARTING = threading.Lock()


def running(jars: tuple[str, ...], properties: dict[str, str]) -> Bridge:
    """The JVM with these jars and properties, which is started if it isn't running."""
    key = jars, tuple(sorted(properties.items()))
    with STARTING:
        if key not in RUNNING or RUNNING[key].has_ended():
            RUNNING[key] = Bridge(jars, properties)
        return RUNNING[key]


class Bridge:
    """A running JVM, in its own process session, so that an interrupt of the recorder doesn't end it first."""

    def __init__(self, jars: tuple[str, ...], properties: dict[str, str]) -> None:
        path = os.pathsep.join([classes(), *jars])
        self.room = tempfile.mkdtemp(prefix="hermitage_lab")
        self.path, self.log = f"{self.room}/socket", f"{self.room}/log"
        given = {"derby.stream.error.file": f"{self.room}/derby.log", **properties}
        words = [*OPTIONS, *(f"-D{name}={value}" for name, value in given.items())]
        atexit.register(self.end)
        with open(self.log, "wb") as log:
            streams: dict[str, int | IO[bytes]] = {"stdin": subprocess.PIPE, "stdout": subprocess.PIPE, "stderr": log}
            command = ["java", *words, "-cp", path, "Bridge", self.path]
            self.process = started(command, start_new_session=True, **streams)
        assert self.process.stdout is not None
        if not self.process.stdout.readline():
            raise Unreachable(f"java has ended: {self.last_said()}")

    def has_ended(self) -> bool:
        return self.process.poll() is not None

    def last_said(self) -> str:
        """The last line on the JVM's standard error, without the frames of a stack."""
        with open(self.log, encoding="utf-8", errors="replace") as log:
            lines = [line.strip() for line in log if line[:1].strip()]
        return lines[-1] if lines else f"status {self.process.wait(ENDING)}"

    def end(self) -> None:
        """Ends the JVM: by the end of its input, or by its id if it doesn't end then."""
        process = getattr(self, "process", None)
        if process:
            process.stdin.close()
            try:
                process.wait(ENDING)
            except subprocess.TimeoutExpired:
                process.kill()
                process.wait()
            process.stdout.close()
        shutil.rmtree(self.room, ignore_errors=True)


def started(command: list[str], **how: object) -> subprocess.Popen[bytes]:
    try:
        return subprocess.Popen(command, **how)  # type: ignore[call-overload, no-any-return]
    except OSError as error:
        raise Unreachable(f"{command[0]} can't be run: {error.strerror} ({PACKAGE})") from None


def classes() -> str:
    """The folder with the compiled bridge."""
    with open(SOURCE, "rb") as source:
        digest = hashlib.sha256(source.read()).hexdigest()[:16]
    cache = os.environ.get("XDG_CACHE_HOME") or os.path.expanduser("~/.cache")
    place = f"{cache}/hermitage_lab/bridge-{digest}"
    if is_there(place) or is_compiled(place):
        return place
    room = tempfile.mkdtemp(prefix="hermitage_lab")
    atexit.register(shutil.rmtree, room, ignore_errors=True)
    if is_compiled(f"{room}/bridge"):
        return f"{room}/bridge"
    raise Unreachable(f"{room} can't be written")


def is_there(place: str) -> bool:
    return os.path.exists(f"{place}/Bridge.class")


def is_compiled(place: str) -> bool:
    """Compiles the bridge into this folder; returns whether it could be stored. Two processes may do so at once."""
    folder = os.path.dirname(place)
    try:
        os.makedirs(folder, exist_ok=True)
        made = tempfile.mkdtemp(dir=folder)
    except OSError:
        return False
    try:
        command = ["javac", "--release", OLDEST, "-d", made, SOURCE]
        with started(command, stdout=subprocess.PIPE, stderr=subprocess.STDOUT) as compiler:
            try:
                said, _ = compiler.communicate(timeout=COMPILING)
            except subprocess.TimeoutExpired:
                compiler.kill()
                raise Unreachable(f"javac doesn't end within {COMPILING} s") from None
        if compiler.returncode:
            raise Unreachable(f"javac has failed: {said.decode(errors='replace').splitlines()[:1]}")
        os.chmod(made, 0o755)
        os.rename(made, place)
    except OSError:
        pass  # (another process was first)
    finally:
        shutil.rmtree(made, ignore_errors=True)
    return is_there(place)


class Connection:
    """A JDBC connection of a bridge. Threads that use it at the same time wait for each other."""

    def __init__(self, bridge: Bridge, url: str, user: str, password: str, commits: bool) -> None:
        self.bridge, self.lock, self.values = bridge, threading.Lock(), Values({"\\N": None})
        self.socket = socket.socket(socket.AF_UNIX)
        try:
            self.socket.connect(bridge.path)
        except OSError:
            raise Unreachable(f"java has ended: {bridge.last_said()}") from None
        self.stream = self.socket.makefile("rwb")
        try:
            ((self.number,),) = self.request("open", url, user, password, "commits" if commits else "")
        except Refused as why:
            raise Unreachable(f"{url}: {why}") from None

    def request(self, *fields: object) -> list[list[int | str | None]]:
        """The rows of an answer, each of numbers, texts and None; raises Refused."""
        line = "\t".join(str(field).translate(ONE_LINE) for field in fields)
        with self.lock:
            try:
                self.stream.write(f"{line}\n".encode())
                self.stream.flush()
                answer = self.answer()
            except (OSError, ValueError):
                answer = []
        if not answer:
            has_ended = self.bridge.has_ended()
            raise Unreachable(f"java has ended: {self.bridge.last_said()}" if has_ended else "the connection is lost")
        *rows, end = answer
        if end.startswith("!"):
            raise (Unreachable if end[1:].startswith(LOST) else Refused)(end[1:])
        return [list(map(self.values.__getitem__, row[1:].split("\t"))) for row in rows]

    def answer(self) -> list[str]:
        """The lines of an answer; none if the bridge has ended."""
        lines: list[str] = []
        for line in self.stream:
            lines.append(line.decode(errors="replace").rstrip("\n"))
            if not line.startswith(b"+"):
                return lines
        return []

    def ask(self, question: str) -> list[list[int | str | None]]:
        """The rows of a result, or one row with the number of changed rows."""
        return self.request("ask", question)

    def close(self) -> None:
        """Closes the socket, also while another thread waits for an answer."""
        try:
            self.socket.shutdown(socket.SHUT_RDWR)
        except OSError:
            pass
        self.socket.close()


ONE_LINE = str.maketrans("\t\n\r", "   ")
