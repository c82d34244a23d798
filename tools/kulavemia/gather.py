"""What tools/collect gathers of many hosts: a folder for each, out of tars as they come or at hand, and its status."""

import functools
import os
import re
import shlex
import shutil
import threading
import time
from collections import Counter
from collections.abc import Callable, Sequence
from concurrent.futures import ThreadPoolExecutor, as_completed
from typing import NamedTuple

from kulavemia import foreign, outputs
from kulavemia.command import FAILED as READING_FAILED
from kulavemia.command import REFUSED as INPUT_REFUSED
from kulavemia.command import WORDS, Fault
from kulavemia.directory import GATHERED
from kulavemia.rows import open_write
from kulavemia.shown import Form
from kulavemia.tar import EndsEarly, Limits, Tar, Unpacked, Unpacking, top_of
from kulavemia.transport import MISSING, Transport, words_for

STATUS_HEADER = ("host", "status", "fault", "bytes", "members", "seconds")
DONE = "done"
SKIPPED = "skipped"
REFUSED = "refused"
FAILED = "failed"
STATUSES = (DONE, SKIPPED, REFUSED, FAILED)

# What tools/collect puts into a host's folder.
_NAMES = frozenset(("tree", "policy", "passwd", "group", "addr.json", "hostname", "netgroup", "domain", "logs", "missing"))
# Names that mean something else beside the folders of hosts, for a directory or a fleet.
_TAKEN = _NAMES | {GATHERED, "users.csv", "hosts.csv", "netgroups.csv"}
_NAME_LIMIT = 200
_HOST = re.compile(r"(?:[^@\s-][^@\s]*@)?([A-Za-z0-9][A-Za-z0-9._:%-]*)")


class Asked(NamedTuple):
    """How hosts are reached, with which options of tools/collect, within which limits, and how many at a time."""

    command: Sequence[str]
    options: Sequence[str]
    limits: Limits
    seconds: float
    jobs: int


class Row(NamedTuple):
    """The row of a host in the table of statuses."""

    host: str
    status: str
    fault: str = ""
    bytes: int = 0
    members: int = 0
    seconds: float = 0.0

    def fields(self) -> tuple[str, ...]:
        """Returns the fields of the row."""
        return self.host, self.status, self.fault, str(self.bytes), str(self.members), f"{self.seconds:.1f}"


class Job(NamedTuple):
    """What is to be done: a host, the name of its folder, and its tar if that is at hand, or why it cannot be done."""

    host: str
    folder: str
    tar: str = ""
    fault: str = ""


def command_of(text: str) -> list[str]:
    """Returns the words of a command that reaches hosts. Raises `Fault` if it is not there."""
    try:
        words = shlex.split(text)
    except ValueError as error:
        raise Fault(f"--command {text}: {error}", WORDS) from None
    if not words or shutil.which(words[0]) is None:
        raise Fault(f"--command {text}: there is no such command", WORDS)
    return words


def jobs_of(hosts: Sequence[str], tars: Sequence[str], limits: Limits) -> list[Job]:
    """Returns what is to be done for hosts and tars. Raises `Fault` at a word that is no host, and at one twice."""
    found: dict[str, Job] = {}
    for host in hosts:
        match = _HOST.fullmatch(host)
        if match is None or not host.isprintable() or not _fits(match[1]):
            raise Fault(f"{host}: expected a host's name, which begins with a letter or a digit", WORDS)
        if match[1] in found:
            raise Fault(f"{found[match[1]].host} and {host} have one folder", WORDS)
        found[match[1]] = Job(host, match[1])
    jobs = list(found.values())
    for tar in tars:
        job = _job_of_tar(tar, limits)
        first = found.setdefault(job.folder, job) if job.folder else job
        same = f"its folder {job.folder} is that of {first.tar or first.host}"
        jobs.append(job if first is job else job._replace(fault=same))
    return jobs


def _fits(name: str) -> bool:
    return len(os.fsencode(name)) <= _NAME_LIMIT and not name.startswith(".") and name not in _TAKEN


def _job_of_tar(tar: str, limits: Limits) -> Job:
    """Returns what is to be done for a tar, whose folder has the name of the one in the tar."""
    try:
        with foreign.opened(tar, limits.host) as file:
            top = top_of(file.read, limits)
    except (Fault, OSError) as fault:
        return Job(tar, "", tar, said(fault))
    return Job(top, top, tar, "" if _fits(top) else f"{top}: not the name of a host's folder")


def said(fault: Exception) -> str:
    """Returns the line of a fault."""
    return (fault.strerror or str(fault)) if isinstance(fault, OSError) else str(fault)


class Gathering:
    """Gathers hosts into a folder, several at a time."""

    def __init__(self, out: str, asked: Asked) -> None:
        self.out = out
        self.asked = asked
        self.lock = threading.Lock()
        self.running: set[Transport] = set()
        self.is_over = False

    def run(self, jobs: Sequence[Job], at: Callable[[Row], None]) -> list[Row]:
        """Does all jobs, reports each as it ends, and returns the rows in the order of the jobs."""
        found: dict[Job, Row] = {}
        with ThreadPoolExecutor(self.asked.jobs) as pool:
            futures = {pool.submit(self._done, job): job for job in jobs}
            try:
                for future in as_completed(futures):
                    found[futures[future]] = future.result()
                    at(future.result())
            except BaseException:
                pool.shutdown(wait=False, cancel_futures=True)
                self._stop()
                raise
        return [found[job] for job in jobs]

    def _stop(self) -> None:
        """Ends what still runs."""
        with self.lock:
            self.is_over = True
            running = list(self.running)
        for transport in running:
            transport.kill()

    def _done(self, job: Job) -> Row:
        """Returns the row of a job that is done."""
        start = time.monotonic()
        try:
            row = self._gathered(job)
        except Fault as fault:
            named = str(fault) if str(fault).startswith(job.tar) else f"{job.tar}: {fault}"
            row = Row(job.host, REFUSED if fault.status == INPUT_REFUSED else FAILED, named)
        return row._replace(seconds=time.monotonic() - start)

    def _gathered(self, job: Job) -> Row:
        """Gathers a host that has no folder yet. Raises `Fault` if that fails, and `OSError` if writing does."""
        if job.fault:
            raise Fault(job.fault)
        path = os.path.join(self.out, job.folder)
        kind = foreign.kind_of(path, self.out)
        if kind == foreign.FOLDER:
            return Row(job.host, SKIPPED)
        if kind is not None:
            raise Fault(f"{path}: expected {foreign.FOLDER}, found {kind}")
        with outputs.new_folder(path) as folder:
            found, status = self._of_tar(job, folder) if job.tar else self._of_host(job, folder)
        note = f"something is missing: {os.path.join(path, 'missing')} names it" if status == MISSING else ""
        return Row(job.host, DONE, note, found.bytes, found.members)

    def _of_tar(self, job: Job, folder: str) -> tuple[Unpacked, int]:
        """Unpacks a tar at hand."""
        end = time.monotonic() + self.asked.seconds
        with foreign.opened(job.tar, self.asked.limits.host) as file:
            return self._unpacked(functools.partial(_until, end, self.asked.seconds, file.read), folder), 0

    def _of_host(self, job: Job, folder: str) -> tuple[Unpacked, int]:
        """Unpacks the tar of a host as it comes."""
        transport = self._started(job.host)
        try:
            found = self._unpacked(transport.read, folder)
            return found, transport.want_done()
        except EndsEarly:
            transport.want_done()
            raise
        finally:
            with self.lock:
                self.running.discard(transport)
            transport.stop()

    def _unpacked(self, read: Callable[[int], bytes], folder: str) -> Unpacked:
        return Unpacking(Tar(read, self.asked.limits), folder, _NAMES).run()

    def _started(self, host: str) -> Transport:
        """Starts the command that reaches a host. Raises `Fault` if the run is over."""
        with self.lock:
            if self.is_over:
                raise Fault("the run is over")
            transport = Transport(words_for(self.asked.command, host, self.asked.options), self.asked.seconds)
            self.running.add(transport)
        return transport


def _until(end: float, seconds: float, read: Callable[[int], bytes], size: int) -> bytes:
    """Returns what a stream yields. Raises `Fault` after a moment."""
    if time.monotonic() > end:
        raise Fault(f"took more than {seconds:g} s", READING_FAILED)
    return read(size)


def write_status(out: str, rows: Sequence[Row], form: Form) -> None:
    """Writes the table of statuses."""
    with open_write(os.path.join(out, GATHERED)) as file:
        file.write(form.head(STATUS_HEADER))
        file.writelines(form.row(row.fields()) for row in rows)


def told(rows: Sequence[Row]) -> str:
    """Returns how many hosts have each status."""
    counts = Counter(row.status for row in rows)
    return ", ".join(f"{counts[status]} {status}" for status in STATUSES)
