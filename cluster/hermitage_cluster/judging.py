"""The submitted tasks: a bounded window of bundles, whose results are taken in order."""
import queue
import time
from collections.abc import Iterable, Iterator
from concurrent.futures import CancelledError
from typing import Any

from distributed import Client
from distributed.comm import CommClosedError
from distributed.scheduler import KilledWorker

from hermitage_cluster.arguments import Stop
from hermitage_cluster.bundles import Bundle
from hermitage_cluster.on_workers import Answer
from hermitage_cluster.results import Results

PER_THREAD = 4  # bundles for each thread of the cluster, at least
WAITING = 16  # times as many as there are threads may be submitted, or done and waiting for an earlier one
ALONE = -1  # the place of a file that is judged alone
LOOK = 1  # seconds between two looks at the cluster
NOBODY = "for {:.0f} s no worker was there that can run the program"


class Judging:
    """Judges bundles on the cluster, by tasks that require a resource. Each thread has one task at a time, so no worker is
    idle while another has two. Neither this process nor the scheduler holds more files at once than there are threads, and
    those that wait for an earlier one."""

    def __init__(self, client: Client, resource: str, task: tuple[Any, ...], results: Results, patience: float) -> None:
        """A task is the function that workers call, and its arguments before the bundle."""
        self.client, self.resource, self.task, self.results, self.patience = client, resource, task, results, patience
        self.out: dict[Any, tuple[int, Bundle]] = {}
        self.finished: queue.SimpleQueue[Any] = queue.SimpleQueue()
        self.done: dict[int, tuple[Bundle, Answer | str]] = {}

    def threads(self) -> int:
        """The number of threads that can judge now, as the scheduler reports it."""
        try:
            found = self.client.sync(self.client.scheduler.identity, callback_timeout=self.patience)
        except Exception as why:  # (A broken connection raises exceptions of many types.)
            raise Stop("the scheduler is gone") from why
        return int(sum(worker["resources"].get(self.resource, 0) for worker in found["workers"].values()))

    def least(self) -> int:
        """The number of bundles that there should be."""
        return PER_THREAD * max(self.threads(), 1)

    def submit(self, place: int, bundle: Bundle) -> None:
        """Has a bundle judged, if there is no result for it yet."""
        kept = self.results.kept(bundle)
        if kept is not None:
            self.done[place] = bundle, kept
            return
        how = {"pure": False, "retries": 2, "resources": {self.resource: 1}}
        future = self.client.submit(*self.task, bundle.packed, **how)
        self.out[future] = place, bundle
        # (`as_completed` would wait forever if the cluster has lost all its workers.)
        future.add_done_callback(self.finished.put)

    def next_finished(self) -> Any:
        """Waits for a finished task, as long as a worker can judge."""
        since = time.monotonic()
        while True:
            try:
                return self.finished.get(timeout=LOOK)
            except queue.Empty:
                if self.threads():
                    since = time.monotonic()
                elif time.monotonic() - since > self.patience:
                    raise Stop(NOBODY.format(self.patience)) from None

    def collect(self) -> None:
        """Takes one result, or the reason why there is none."""
        future = self.next_finished()
        place, bundle = self.out.pop(future)
        answer: Answer | str
        try:
            answer = future.result(timeout=self.patience)
        except (CancelledError, CommClosedError):
            raise Stop("the scheduler is gone") from None
        except KilledWorker:
            answer = "each worker that has it dies"
        except Exception as why:  # whatever the workers raised, after all retries
            answer = f"{type(why).__name__}: {why}"
        if not isinstance(answer, str):
            self.results.keep(bundle, answer)
            bundle.packed = b""
        self.done[place] = bundle, answer

    def answers(self, bundles: Iterable[Bundle]) -> Iterator[tuple[Bundle, Answer | str]]:
        """Yields each bundle with its result, in order. If a bundle has no result, because its workers died or the program
        failed, its files are judged one by one; a file without a result has the reason, a string, instead."""
        coming, place, threads, looked = enumerate(bundles), 0, 0, -float(LOOK)
        following = next(coming, None)
        while following or self.out or self.done:
            if time.monotonic() - looked > LOOK:
                threads, looked = max(self.threads(), 1), time.monotonic()
            while following and len(self.out) < threads and len(self.out) + len(self.done) < WAITING * threads:
                self.submit(*following)
                following = next(coming, None)
            if self.out:
                self.collect()
            while place in self.done:
                bundle, answer = self.done.pop(place)
                yield from self.alone(bundle) if isinstance(answer, str) else [(bundle, answer)]
                place += 1

    def alone(self, bundle: Bundle) -> Iterator[tuple[Bundle, Answer | str]]:
        """Judges files one by one, with no other task submitted: Dask blames a worker's death on all of its tasks."""
        while self.out:
            self.collect()
        for single in bundle.singles():
            self.submit(ALONE, single)
            if self.out:
                self.collect()
            yield self.done.pop(ALONE)
