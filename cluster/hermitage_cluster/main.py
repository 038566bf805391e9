"""What cluster/judge does: connects, judges all files, and prints the results in order."""
import logging
import os
import signal
import subprocess
import sys
import tempfile
import time
import warnings
from typing import Any, NoReturn

from hermitage_cluster.arguments import FAILED, INTERRUPTED, NAME, UNJUDGED, Arguments, Stop, arguments
from hermitage_cluster.bundles import bundles, by_path, by_text, shares
from hermitage_cluster.streams import Streams, parted

try:
    from distributed import Client
except ImportError as missing:
    print(f"{NAME}: {sys.executable}: {missing} (Debian: package python3-distributed)", file=sys.stderr)
    sys.exit(FAILED)
from hermitage_cluster.joining import Joining
from hermitage_cluster.judging import NOBODY, Judging
from hermitage_cluster.on_workers import UNMET, Answer, Program, about_run, chained, judged, send, version_of, without_run
from hermitage_cluster.results import Results

LOOK = 0.5  # seconds between two looks at the workers


def unjudged(why: str, given: Arguments, joining: Joining | None) -> Answer:
    """The result for a single file without a verdict."""
    out = b'{"file":"0","unjudged":true}\n' if given.json else b"== 0\nfile: unjudged\n"
    return UNJUDGED, out, f"0: {why}\n".encode(errors="replace"), joining.unread() if joining else None


def version_here(given: Arguments) -> str | None:
    """The version of the program on this machine, or None if there is none here."""
    if not given.program:
        return None
    try:
        found = version_of(given.program)
    except subprocess.SubprocessError as why:
        raise Stop(f"{given.program} doesn't print its version: {why}") from None
    if not found.startswith("hermitage_lab "):
        raise Stop(f"{given.program} is not hermitage_lab: its version is {found[:80]!r}")
    return found


def versions(client: Client, plugin: Program) -> dict[str, str | None]:
    """The version of the program on each worker, or None where it doesn't run."""
    found: dict[str, str | None] = {}
    for worker, about in client.scheduler_info()["workers"].items():
        named = [name.partition(" ")[2] for name in about["resources"] if name.partition(" ")[0] == plugin.name]
        found[worker] = named[0] if named else None
    return found


def version_of_workers(client: Client, plugin: Program, patience: float) -> str:
    """The version of the program on the workers, which has to be the same on all of them."""
    until = time.monotonic() + patience
    while True:
        found = {worker: version for worker, version in versions(client, plugin).items() if version}
        if len(set(found.values())) > 1:
            there = "; ".join(f"{worker} has {version}" for worker, version in sorted(found.items()))
            raise Stop(f"the workers' programs have different versions: {there}")
        if found:
            return next(iter(found.values()))
        if time.monotonic() > until:
            raise Stop(NOBODY.format(patience))
        time.sleep(LOOK)


def connected(given: Arguments) -> tuple[Client, Program]:
    """A client of the scheduler, and the program's plugin, registered with each worker."""
    plugin = Program(None if given.program_there else contents(given.program or ""), given.program_there)
    send()
    try:
        client = Client(given.scheduler, timeout=given.patience, set_as_default=False)
    except (TypeError, ValueError, RuntimeError) as why:
        # (The address is invalid, or TLS is requested but not set up.)
        raise Stop(f"{given.scheduler}: {why}") from None
    client.register_worker_plugin(plugin, name=plugin.name)
    return client, plugin


def contents(path: str) -> bytes:
    """The bytes of a file."""
    with open(path, "rb") as file:
        return file.read()


def task_of(plugin: Program, given: Arguments) -> tuple[Any, ...]:
    """The function that workers call for a bundle, and its arguments before the bundle."""
    if given.parts:
        return chained, plugin.name, plugin.path, given.as_json(), given.required()
    return judged, plugin.name, plugin.path, [*given.as_json(), *given.required()]


def lacking(given: Arguments) -> tuple[int, bytes]:
    """The exit status and the line of `batch` if a level is required, and there is no file."""
    if given.files or given.parts or not given.require:
        return 0, b""
    return UNMET, f"batch: {given.require} asked, no file given\n".encode()


def run(given: Arguments, streams: Streams, room: str) -> int:
    """Judges all files; returns the highest exit status."""
    version = version_here(given)
    client, plugin = connected(given)
    tell_without(streams, versions(client, plugin), version)
    version = version or version_of_workers(client, plugin, given.patience)
    resource, task = f"{plugin.name} {version}", task_of(plugin, given)
    results = Results(given.resume, [version, str(given.parts), *given.as_json(), *given.required()])
    joining = Joining(given.program, room) if given.parts and given.program else None
    judging = Judging(client, resource, task, results, given.patience)
    greatest, asked = 0, []
    files = shares(given.files, results.least(judging.least()))
    for bundle, answer in judging.answers(bundles(files, by_path if given.shared else by_text)):
        status, out, told, line = unjudged(answer, given, joining) if isinstance(answer, str) else answer
        greatest = max(greatest, status)
        hints, more = (told, b"") if joining else parted(told)
        asked.append(bundle.told(more))
        seam = b""
        if joining and line is not None:
            line = bundle.named(line)
            seam = without_run(joining.seam(line, given.required()))
            joining.add(line)
        streams.write(bundle.named(out), seam + bundle.told(hints))
        streams.tell(len(bundle.names))
    if joining:
        ended = joining.joined([*given.as_json(), *given.required()])
        streams.write(ended.stdout, about_run(ended.stderr))
        greatest = max(greatest, ended.returncode)
    status, last = lacking(given)
    streams.write(told=b"".join([*asked, last]))
    return max(greatest, status)


def tell_without(streams: Streams, found: dict[str, str | None], version: str | None) -> None:
    """Names the workers on which nothing is judged."""
    for worker, there in found.items():
        if there is None:
            streams.write(told=f"{worker}: the program doesn't run there, so nothing is judged there\n".encode())
        elif version and there != version:
            line = f"{worker}: the program there is {there}, and here {version}, so nothing is judged there\n"
            streams.write(told=line.encode())


def end(*_: object) -> NoReturn:
    """Ends the call at SIGTERM."""
    raise KeyboardInterrupt


def main() -> NoReturn:
    """Judges the files of the command line."""
    given = arguments()
    signal.signal(signal.SIGTERM, end)
    # (Dask's loggers have levels and handlers of their own.)
    logging.disable(logging.CRITICAL)
    warnings.simplefilter("ignore")
    streams = Streams(len(given.files), given.progress or sys.stderr.isatty())
    status, told = FAILED, ""
    try:
        with tempfile.TemporaryDirectory() as room:
            status = run(given, streams, room)
    except Stop as why:
        told = f"{NAME}: {why}\n"
    except OSError as why:
        where = f"{why.filename}: " if why.filename else ""
        told = f"{NAME}: {where}{why.strerror or why}\n"
    except KeyboardInterrupt:
        status, told = INTERRUPTED, f"{NAME}: interrupted\n"
    streams.write(told=told.encode())
    # (At a normal exit, a client that has lost its scheduler would wait for it.)
    os._exit(status)
