"""Shards on workers of Dask's distributed scheduler.

What waits on the scheduler is a few shards for each worker, so that neither it nor this process grows with the fleet.
"""

import contextlib
import logging
import queue
import secrets
import signal
import tempfile
import time
import urllib.request
import warnings
from collections.abc import Iterator
from concurrent.futures import CancelledError
from types import TracebackType
from typing import Any

import cloudpickle
import dask
from distributed import Client, Future, LocalCluster, Security
from distributed.scheduler import KilledWorker

from kulavemia import fleet_handed
from kulavemia.command import FAILED as READING_FAILED
from kulavemia.command import Fault
from kulavemia.fleet_handed import Handed, judge
from kulavemia.fleet_plan import travelling
from kulavemia.fleet_work import FAILED, UNFIT, Answer, Job, settled

# Seconds to reach a scheduler, and to release it if it is gone; seconds to wait for a worker if there is none.
CONNECTION = 5.0
PATIENCE = 60.0
TICK = 1.0
# Seconds for which a shard waits for another worker where each that is known had it in vain.
PAUSE = 5.0
WAITING = 4
GOES_ON = "what is done stands, and the same command goes on"
PAGE = "info/main/workers.html"

cloudpickle.register_pickle_by_value(fleet_handed)


@contextlib.contextmanager
def local(workers: int, retries: int) -> Iterator[Client]:
    """Yields a client of a cluster of processes here, whose connections are encrypted and closed to others."""
    settings = {
        "distributed.scheduler.allowed-failures": retries,
        "distributed.scheduler.work-stealing": False,
        "distributed.comm.timeouts.connect": "60s",
    }
    with tempfile.TemporaryDirectory(prefix="fleet-") as folder, dask.config.set(settings):
        with _uninterrupted():
            cluster = LocalCluster(
                n_workers=workers,
                threads_per_worker=1,
                processes=True,
                security=Security.temporary(),
                dashboard_address="127.0.0.1:0",
                local_directory=folder,
                silence_logs="CRITICAL",
            )
        with cluster, Client(cluster) as client:
            yield client


@contextlib.contextmanager
def _uninterrupted() -> Iterator[None]:
    """Leaves an interrupt from the terminal to this process: those that are started meanwhile do not heed it."""
    before = signal.signal(signal.SIGINT, signal.SIG_IGN)
    try:
        yield
    finally:
        signal.signal(signal.SIGINT, before)


@contextlib.contextmanager
def at(address: str) -> Iterator[Client]:
    """Yields a client of a scheduler that is there. Raises `Fault` if it does not answer, or has no worker."""
    try:
        _want_certificates(address)
        client = Client(address, timeout=CONNECTION)
    except (OSError, ValueError) as error:
        raise Fault(f"{address}: {error}", READING_FAILED) from None
    with client:
        try:
            client.wait_for_workers(1, timeout=PATIENCE)
        except TimeoutError:
            raise Fault(f"{address}: the scheduler has no worker", READING_FAILED) from None
        yield client


def _want_certificates(address: str) -> None:
    """Raises `Fault` if a scheduler is reached by TLS and Dask's configuration has no certificates."""
    if address.startswith("tls://") and Security().get_connection_args("client").get("ssl_context") is None:
        raise Fault(f"{address}: Dask's configuration names no certificates for TLS", READING_FAILED)


def page_of(client: Client) -> str:
    """Returns the address of the scheduler's page of workers, empty if it has none."""
    try:
        link = f"{client.dashboard_link.rpartition('/')[0]}/{PAGE}"
        with urllib.request.urlopen(link, timeout=CONNECTION):
            return link
    except (OSError, ValueError, AttributeError):
        return ""


class _Shard:
    """A shard that is with the scheduler: its tries, the workers that had it in vain, and those that may have it."""

    def __init__(self, job: Job) -> None:
        self.job = job
        self.tries = 0
        self.unfit: set[str] = set()
        self.wanted: set[str] = set()
        self.alone = False
        self.waits_until = 0.0


class Runner:
    """Has shards judged by the workers of a scheduler."""

    def __init__(self, client: Client, handed: Handed, retries: int) -> None:
        self.client = client
        # Each run hands over for itself, so that none takes away what another still wants.
        self.handed = f"{handed.name}-{secrets.token_hex(4)}"
        self.retries = retries
        self.ended: queue.SimpleQueue[Future] = queue.SimpleQueue()
        self.running: dict[str, tuple[Future, _Shard]] = {}
        self.suspects: list[_Shard] = []
        self.waiting: list[_Shard] = []
        self.workers: dict[str, Any] = {}
        self.asked = -TICK
        self.seen = time.monotonic()
        warnings.filterwarnings("ignore", message="Large object of size")
        # A lost connection is reported here.
        logging.disable()
        try:
            client.register_worker_plugin(Handed(self.handed, handed.files), name=self.handed)
        except Exception as error:
            said = f"{type(error).__name__}: {error}"
            raise Fault(f"the workers do not take the program: {said}", READING_FAILED) from None

    def __enter__(self) -> "Runner":
        return self

    def __exit__(self, kind: type | None, error: BaseException | None, trace: TracebackType | None) -> None:
        if error is None:
            self.client.unregister_worker_plugin(self.handed)

    def run(self, jobs: Iterator[Job]) -> Iterator[tuple[Job, Answer]]:
        """Yields the result of each shard, in any order. Raises `Fault` if the scheduler goes away."""
        try:
            yield from self._run(jobs)
        except CancelledError:
            raise self._gone() from None
        except OSError as error:
            # Dask's errors of a connection have no number, and those of a file have one.
            if error.errno is None:
                raise self._gone() from None
            raise
        except (AttributeError, LookupError, TypeError, ValueError):
            # A client whose connection is lost answers in these ways too.
            self._want_scheduler()
            raise

    def _run(self, jobs: Iterator[Job]) -> Iterator[tuple[Job, Answer]]:
        more = True
        while True:
            while more and len(self.running) + len(self.waiting) < self._room():
                job = next(jobs, None)
                if job is None:
                    more = False
                else:
                    self._submit(_Shard(travelling(job)))
            self._try_waiting()
            if not (self.running or self.suspects or self.waiting):
                return
            if self.suspects and not (self.running or self.waiting):
                shard = self.suspects.pop()
                shard.alone = True
                self._submit(shard)
            yield from self._next()

    def _workers(self) -> dict[str, Any]:
        """Returns the workers, as the scheduler reported them some moments ago."""
        if time.monotonic() > self.asked + TICK:
            self.workers = self.client.scheduler_info()["workers"]
            self.asked = time.monotonic()
        return self.workers

    def _room(self) -> int:
        """Returns how many shards may wait on the scheduler."""
        return WAITING * max(1, sum(int(worker["nthreads"]) for worker in self._workers().values()))

    def _submit(self, shard: _Shard) -> None:
        """Hands a shard to the scheduler: for the workers on which it was not tried, if there are any."""
        shard.tries += 1
        shard.wanted = set(self._workers()) - shard.unfit if shard.unfit else set()
        key = f"{shard.job.name}-{shard.job.digest[:16]}-{secrets.token_hex(4)}"
        job = tuple(shard.job)
        future = self.client.submit(judge, job, self.handed, key=key, pure=False, workers=sorted(shard.wanted) or None)
        self.running[key] = future, shard
        future.add_done_callback(self.ended.put)

    def _try_waiting(self) -> None:
        """Hands unfit shards over again: to other workers at once, and to the same ones if no other came meanwhile.

        A scheduler's workers come one by one, and the first of them must not use up the tries of all shards.
        """
        waiting, self.waiting = self.waiting, []
        for shard in waiting:
            if set(self._workers()) - shard.unfit or time.monotonic() > shard.waits_until:
                self._submit(shard)
            else:
                self.waiting.append(shard)

    def _free(self) -> None:
        """Hands shards over again that wait for workers which are all gone."""
        for key, (future, shard) in list(self.running.items()):
            if shard.wanted and shard.wanted.isdisjoint(self._workers()):
                del self.running[key]
                future.cancel()
                shard.tries -= 1
                self._submit(shard)

    def _next(self) -> Iterator[tuple[Job, Answer]]:
        """Yields the results of the next shards that ended, except those that are tried again."""
        for future, found in self._ended():
            _, shard = self.running.pop(future.key)
            answer = self._answer(future, found, shard)
            if answer is None:
                self.suspects.append(shard)
            elif answer.status == UNFIT and shard.tries <= self.retries:
                shard.waits_until = time.monotonic() + PAUSE
                self.waiting.append(shard)
            else:
                yield shard.job, settled(answer)

    def _ended(self) -> list[tuple[Future, Any]]:
        """Returns the shards that ended since the last call, with what the workers answered: none after a while."""
        try:
            futures = [self.ended.get(timeout=TICK)]
        except queue.Empty:
            self._want_scheduler()
            self._want_workers()
            self._free()
            return []
        while not self.ended.empty():
            futures.append(self.ended.get())
        futures = [future for future in futures if future.key in self.running]
        finished = [future for future in futures if future.status == "finished"]
        found = dict(zip((future.key for future in finished), self.client.gather(finished)))
        return [(future, found.get(future.key)) for future in futures]

    def _answer(self, future: Future, found: Any, shard: _Shard) -> Answer | None:
        """Returns what came of a shard that ended, or `None` if the workers that had it died.

        Dask suspects each shard that was with a worker when it died; one that was alone with it is the cause.
        """
        if found is not None:
            worker, answer = found
            shard.unfit.add(worker)
            return Answer(*answer)
        if future.status == "cancelled":
            raise self._gone()
        error = future.exception()
        if isinstance(error, KilledWorker):
            return Answer(FAILED, "each worker that had it died") if shard.alone else None
        return Answer(UNFIT, f"{type(error).__name__}: {error}")

    def _want_scheduler(self) -> None:
        if self.client.status != "running":
            raise self._gone() from None

    def _want_workers(self) -> None:
        """Raises `Fault` if there has been no worker for a while."""
        if self._workers():
            self.seen = time.monotonic()
        elif time.monotonic() > self.seen + PATIENCE:
            raise Fault(f"the scheduler has no worker any more; {GOES_ON}", READING_FAILED)

    def _gone(self) -> Fault:
        return Fault(f"the scheduler has gone; {GOES_ON}", READING_FAILED)
