"""The audit of one shard of a fleet, by a worker or in place."""

import os
import signal
import subprocess
import tempfile
from collections.abc import Mapping, Sequence
from typing import IO, NamedTuple

from kulavemia.command import Fault
from kulavemia.fleet_handed import PROGRAM_FILE, packed, write_below
from kulavemia.netgroups import NETGROUPS
from kulavemia.program import NAME, Judge, Policy, Rows, with_hint
from kulavemia.requests import Source
from kulavemia.shown import Form

# The program runs in the folder of the policy's tree, and reads it by this path: so nothing that it is asked of the
# policy, and nothing that it answers, shows where a worker keeps the files.
ROOT = "/proc/self/cwd"
TREE = "tree"
USERS = "users.csv"
HOSTS = "hosts.csv"
REQUESTS = "requests"

DONE = "done"
REFUSED = "refused"
FAILED = "failed"
UNFIT = "unfit"

_REFUSING = (1, 2, 3)


class Job(NamedTuple):
    """A shard with all that its audit reads: its own files, and the names of those that are shared.

    The judge is the name of the program that is handed over. The host's name is empty where its policy has no `%h`.
    """

    name: str
    digest: str
    main: str
    files: Mapping[str, bytes]
    shared: Sequence[str]
    sources: Sequence[tuple[str, str]]
    threads: int
    limit: float
    judge: str = NAME
    hostname: str = ""


class Answer(NamedTuple):
    """The result of a shard: a status, the line of a fault, how many rows, and the packed rows of its report."""

    status: str
    fault: str = ""
    rows: int = 0
    report: bytes = b""


def settled(answer: Answer) -> Answer:
    """Returns an answer that is not tried elsewhere: it failed where the machine was unfit."""
    return answer._replace(status=FAILED) if answer.status == UNFIT else answer


def host_of(shard: str) -> str:
    """Returns the host of a shard, by its name."""
    return shard.rpartition("/")[0]


def judged(job: Job, shared: str, scratch: str) -> Answer:
    """Returns the result of a shard whose files are packed; a folder has the program and what hosts share.

    The status is unfit where that lies with this machine, and not with the shard.
    """
    try:
        with tempfile.TemporaryDirectory(dir=scratch, prefix="shard-") as folder:
            write_below(folder, job.files)
            with open(os.path.join(folder, "report"), "w+b") as report:
                return _asked(job, shared, folder, report)
    except OSError as error:
        return Answer(UNFIT, f"{scratch}: {error.strerror or error}")


def _asked(job: Job, shared: str, folder: str, report: IO[bytes]) -> Answer:
    """Returns what the program answers."""

    def place(name: str) -> str:
        return os.path.join(shared if name in job.shared else folder, name)

    judge = Judge(os.path.join(shared, PROGRAM_FILE), job.judge)
    netgroups = place(NETGROUPS) if NETGROUPS in {*job.files, *job.shared} else ""
    policy = Policy(ROOT + job.main, place(USERS), place(HOSTS), netgroups=netgroups, hostname=job.hostname)
    sources = [Source(sender, sender, 0, os.path.join(folder, file), None) for sender, file in job.sources]
    words = judge.words(policy, sources, job.threads)
    running = subprocess.Popen(
        words, stdin=subprocess.DEVNULL, stdout=report, stderr=subprocess.PIPE, cwd=place(TREE), start_new_session=True
    )
    try:
        said = os.fsdecode(running.communicate(timeout=job.limit or None)[1])
    except subprocess.TimeoutExpired:
        return Answer(FAILED, f"took more than {job.limit:g} s")
    finally:
        _end(running)
    report.seek(0)
    if running.returncode == 0:
        return _report_of(report, folder, f"{host_of(job.name)}/", judge)
    status = REFUSED if running.returncode in _REFUSING else UNFIT
    said = said or _first_error(os.fsdecode(report.read()))
    ended = f"the program ended with status {running.returncode}"
    return Answer(status, with_hint(said.strip().replace(ROOT, "")) or ended)


def _end(running: subprocess.Popen[bytes]) -> None:
    """Ends a program that still runs, with what it has started."""
    if running.poll() is None:
        os.killpg(running.pid, signal.SIGKILL)
        running.communicate()


def _first_error(text: str) -> str:
    """Returns the first error of what the program printed of a policy, and how many more there are."""
    errors = [line for line in text.splitlines() if ": error: " in line]
    if len(errors) < 2:
        return errors[0] if errors else text
    return f"{errors[0]} (and {len(errors) - 1} more)"


def _report_of(report: IO[bytes], folder: str, before: str, judge: Judge) -> Answer:
    """Returns the answer of a report, its senders behind a text."""
    with open(os.path.join(folder, "rows"), "w+b") as rows:
        try:
            Rows(rows, Form(), ROOT, before, judge.header()).copy(report, judge.name)
        except Fault as fault:
            return Answer(FAILED, str(fault))
        rows.seek(0)
        data = rows.read()
    return Answer(DONE, "", data.count(b"\n"), packed(data))
