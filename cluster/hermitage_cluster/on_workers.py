"""What runs on the workers. Dask sends this code to them (`send`), so they don't need this package."""
import asyncio
import contextlib
import errno
import functools
import hashlib
import json
import os
import pickle
import subprocess
import sys
import tempfile
import time
import zlib
from collections.abc import Callable, Iterator
from typing import Any

import cloudpickle
from distributed import WorkerPlugin, get_worker

UNMET = 1  # the exit status if a level that is required isn't met
SECONDS, OF_VERSION, SOON = 300, 30, 0.05  # limits for a bundle and for `--version`; the pause before a retry

Ended = subprocess.CompletedProcess[bytes]
# The exit status, standard output and standard error for a bundle, and with --parts the line for `--join`.
Answer = tuple[int, bytes, bytes, bytes | None]


def send() -> None:
    """Makes Dask send the code of this module instead of its name."""
    cloudpickle.register_pickle_by_value(sys.modules[__name__])


class Program(WorkerPlugin):  # type: ignore[misc]  # (Dask's class isn't typed)
    """Gives a worker the program, once, and marks the worker as a judge if the program runs there. The scheduler keeps
    the plugin, so workers that join late or restart have it, too.

    A judge has a resource named after the program's checksum and version, which tasks require. So a worker with another
    version gets no task, nor does one without the program, which would fail fast, look idle, and attract all tasks."""

    def __init__(self, text: bytes | None, path: str | None) -> None:
        self.text, self.path = text, path
        self.name = "hermitage-" + hashlib.sha256(text or os.fsencode(path or "")).hexdigest()[:16]

    async def setup(self, worker: Any) -> None:
        """Writes the program, and sets the resource."""
        path = place_of(self.name, self.path, worker)
        with contextlib.suppress(OSError, subprocess.SubprocessError):
            if self.text and not os.path.exists(path):
                with open(f"{path}.new", "wb") as file:
                    file.write(self.text)
                os.chmod(f"{path}.new", 0o755)
                os.rename(f"{path}.new", path)
            resource = f"{self.name} {await version_there(path)}"
            if resource not in worker.state.total_resources:
                await worker.set_resources(**{resource: worker.state.nthreads})


def version_of(path: str) -> str:
    """The version of the program, the first line that it prints."""
    ended = subprocess.run([path, "--version"], capture_output=True, timeout=OF_VERSION, check=True)
    return ended.stdout.decode(errors="replace").partition("\n")[0].strip()


async def version_there(path: str) -> str:
    """The version of the program on a worker. A file that was just written is busy as long as a child process, forked
    meanwhile by another thread of the worker, has it open."""
    until = time.monotonic() + OF_VERSION
    while True:
        try:
            return await asyncio.to_thread(version_of, path)
        except OSError as why:
            if why.errno != errno.ETXTBSY or time.monotonic() > until:
                raise
        await asyncio.sleep(SOON)


def place_of(name: str, path: str | None, worker: Any) -> str:
    """The program's path on a worker: the given path, or where it was written."""
    return os.path.abspath(path or os.path.join(worker.local_directory, name))


def ran(program: str, room: str, *words: str) -> Ended:
    """Runs the program. An exit status that isn't about the files is a failure of the worker, so the task is retried."""
    ended = subprocess.run(
        [program, *words], cwd=room, stdin=subprocess.DEVNULL, capture_output=True, timeout=SECONDS, check=False
    )
    if ended.returncode not in range(4):
        raise RuntimeError(f"the program ended with {ended.returncode}: {ended.stderr[-200:].decode(errors='replace')}")
    return ended


def put(file: bytes | str | None, path: str) -> None:
    """Writes or links a file of a bundle. A file that couldn't be read is left out."""
    if isinstance(file, str):
        with contextlib.suppress(OSError, ValueError):
            os.symlink(file, path)
    elif file is not None:
        with open(path, "wb") as out:
            out.write(file)


@contextlib.contextmanager
def opened(name: str, path: str | None, bundle: bytes) -> Iterator[tuple[Callable[..., Ended], list[str]]]:
    """Unpacks a bundle into a temporary folder, with numbers as file names; yields the program and these numbers."""
    worker, files = get_worker(), pickle.loads(zlib.decompress(bundle))
    with tempfile.TemporaryDirectory(dir=worker.local_directory) as room:
        for number, file in enumerate(files):
            put(file, f"{room}/{number}")
        yield functools.partial(ran, place_of(name, path, worker), room), list(map(str, range(len(files))))


def check(is_whole: bool) -> None:
    """Fails if the program's output doesn't have a result for each file of a bundle."""
    if not is_whole:
        raise RuntimeError("the program's output doesn't have a result for each file")


def files_of(out: bytes, is_json: bool) -> list[str]:
    """The files whose results an output of `batch` has."""
    if is_json:
        return [json.loads(line)["file"] for line in out.splitlines()]
    return [line[3:].decode() for line in out.split(b"\n") if line.startswith(b"== ")]


def judged(name: str, path: str | None, words: list[str], bundle: bytes) -> Answer:
    """The result of `batch` for a bundle."""
    with opened(name, path, bundle) as (program, numbers):
        ended = program("batch", *words, *numbers)
        check(files_of(ended.stdout, "--json" in words) == numbers)
        return ended.returncode, ended.stdout, ended.stderr, None


def chained(name: str, path: str | None, words: list[str], asked: list[str], bundle: bytes) -> Answer:
    """The result of `chain` for a bundle. Refused parts are in JSON; if text is wanted, `batch` prints them again. A level
    is required of the whole run alone, so the bundle's own line and status about it are left out, but not those about its
    seams."""
    with opened(name, path, bundle) as (program, numbers):
        ended = program("chain", "--json", *asked, *numbers)
        *refused, answer = ended.stdout.splitlines(keepends=True) or [b"{}"]
        check(json.loads(answer).get("parts") == len(numbers))
        out = b"".join(refused)
        if refused and not words:
            out = program("batch", *(json.loads(line)["file"] for line in refused)).stdout
        status = 0 if ended.returncode == UNMET else ended.returncode
        return status, out, without_run(ended.stderr), answer


def about_run(told: bytes) -> bytes:
    """The line about the run in `chain`'s standard error."""
    return b"".join(line for line in told.splitlines(keepends=True) if line.startswith(b"chain: "))


def without_run(told: bytes) -> bytes:
    """The lines of `chain`'s standard error, without the line about the run."""
    return b"".join(line for line in told.splitlines(keepends=True) if not line.startswith(b"chain: "))
