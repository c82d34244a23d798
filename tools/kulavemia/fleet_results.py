"""Results of shards, each a file of its own, and the report that they are joined to.

The first line of a result is a JSON object, and the rows of the shard's report are the rest.
"""

import hashlib
import json
import os
from collections.abc import Collection, Iterator
from typing import BinaryIO, NamedTuple

from kulavemia import foreign, outputs
from kulavemia.answers import SHOWN_HEADER
from kulavemia.command import Fault, line_of, tell
from kulavemia.fleet_foreign import FOREIGN_HEADER, Foreigners
from kulavemia.fleet_handed import unpacked
from kulavemia.fleet_plan import Fleet
from kulavemia.fleet_work import DONE, FAILED, HOSTS, REFUSED, Answer, Job, host_of
from kulavemia.outputs import Fresh as _Fresh
from kulavemia.shown import Form, in_form

SHARDS = "shards"
REPORT = "report.csv"
STATUS = "status.csv"
FOREIGN = "foreign.csv"
STATUS_HEADER = ("host", "shard", "status", "rows", "fault")
SUFFIX = ".shard"
SHOWN = 20
STATUSES = (DONE, REFUSED, FAILED)

_LINE_LIMIT = 1 << 20
_FIELDS = {"shard": str, "digest": str, "status": str, "fault": str, "rows": int, "size": int, "sum": str}


class Result(NamedTuple):
    """The first line of a result."""

    shard: str
    digest: str
    status: str
    fault: str
    rows: int
    size: int
    sum: str


def file_of(shard: str) -> str:
    """Returns the name of the file that has the result of a shard."""
    return shard.replace("/", ".") + SUFFIX


class Results:
    """The results in a folder. Each is written beside its place, and then renamed."""

    def __init__(self, out: str) -> None:
        self.out = out
        self.folder = os.path.join(out, SHARDS)
        outputs.folder(self.folder)

    def put(self, job: Job, answer: Answer) -> None:
        """Writes the result of a shard, in place of an earlier one."""
        data = unpacked(answer.report) if answer.report else b""
        found = Result(
            job.name,
            job.digest,
            answer.status,
            answer.fault,
            answer.rows,
            len(data),
            hashlib.sha256(data).hexdigest(),
        )
        with _Fresh(self.folder) as file:
            file.write(json.dumps(found._asdict()).encode() + b"\n")
            file.write(data)
            file.keep(os.path.join(self.folder, file_of(job.name)))

    def stands(self, job: Job) -> bool:
        """Returns whether the result of a shard with these inputs exists and need not be made again."""
        path = os.path.join(self.folder, file_of(job.name))
        try:
            if not foreign.exists(path, self.folder):
                return False
            found = read_result(path)
            rows_of(path, found)
        except Fault:
            return False
        return (found.shard, found.digest) == (job.name, job.digest) and found.status in (DONE, REFUSED)

    def all(self) -> Iterator[tuple[str, Result | Fault]]:
        """Yields the path of each file of the folder with its first line, or with what is wrong with it."""
        for entry in foreign.entries(self.folder):
            if entry.name.startswith("."):
                continue
            path = os.path.join(self.folder, entry.name)
            try:
                yield path, read_result(path)
            except Fault as fault:
                yield path, fault

    def forget(self) -> None:
        """Removes what an earlier run joined."""
        for name in (REPORT, STATUS, FOREIGN):
            if os.path.exists(os.path.join(self.out, name)):
                os.unlink(os.path.join(self.out, name))


def _opened(path: str) -> BinaryIO:
    return foreign.opened(path, foreign.TABLE_CAP, os.path.dirname(path))


def read_result(path: str) -> Result:
    """Returns the first line of a result. Raises `Fault` if the file is no whole result."""
    with _opened(path) as file:
        line = file.readline(_LINE_LIMIT)
        size = os.fstat(file.fileno()).st_size - len(line)
    try:
        fields = json.loads(line)
        found = Result(**fields)
        sound = all(isinstance(fields[name], kind) for name, kind in _FIELDS.items()) and found.status in STATUSES
    except (ValueError, TypeError, RecursionError):
        sound = False
    if not sound or found.size != size:
        raise Fault(f"{path}: no whole result")
    return found


def rows_of(path: str, found: Result) -> bytes:
    """Returns the rows of a result. Raises `Fault` if they are not those that were written."""
    with _opened(path) as file:
        file.readline()
        data = file.read()
    if hashlib.sha256(data).hexdigest() != found.sum:
        raise Fault(f"{path}: no whole result")
    return data


class Joined(NamedTuple):
    """The content of a fleet's report: rows, shards by their status, and requests that name another host."""

    rows: int
    done: int
    refused: int
    failed: int
    foreign: int


class _Join:
    """Puts the results of a fleet together, and gathers what is wrong with them."""

    def __init__(self, fleet: Fleet, results: Results, form: Form) -> None:
        self.fleet = fleet
        self.results = results
        self.form = form
        self.foreigners = Foreigners(fleet.shared.get(HOSTS, b""))
        self.wrong: list[str] = []
        self.places: dict[str, tuple[str, Result]] = {}
        self.used: set[str] = set()
        self.counts = dict.fromkeys(STATUSES, 0)
        self.rows = 0
        self.foreign = 0

    def read(self) -> None:
        """Reads the first lines of all results."""
        for path, found in self.results.all():
            if isinstance(found, Fault):
                self.wrong.append(str(found))
            elif found.shard in self.places:
                self.wrong.append(f"{found.shard}: twice, in {self.places[found.shard][0]} and {path}")
            else:
                self.places[found.shard] = path, found

    def write(self, report: _Fresh, status: _Fresh, others: _Fresh) -> None:
        """Writes the rows of all hosts, in order."""
        report.write(self.form.head(SHOWN_HEADER).encode())
        status.write(self.form.head(STATUS_HEADER).encode())
        others.write(self.form.head(FOREIGN_HEADER).encode())
        names = self.fleet.names()
        for name in names:
            try:
                for number, job in enumerate(self.fleet.jobs(name), 1):
                    found = self._copy(job, report)
                    if found is not None:
                        status.write(self._row((name, str(number), found.status, str(found.rows), found.fault)))
                        self._list_foreign(job, found, others)
            except (Fault, OSError) as fault:
                self.counts[REFUSED] += 1
                status.write(self._row((name, "", REFUSED, "0", line_of(fault))))
        self._want_known(frozenset(names))

    def _want_known(self, names: Collection[str]) -> None:
        """Notes results of hosts that the fleet does not have.

        A host may have fewer shards than before, or none since it is refused: what is left of them stops no other host.
        """
        for shard, (path, _) in self.places.items():
            if shard not in self.used and host_of(shard) not in names:
                self.wrong.append(f"{shard}: a stranger, in {path}: the fleet has no such shard")

    def want_whole(self) -> None:
        """Raises `Fault` with the first problems, if there are any."""
        for line in self.wrong[:SHOWN]:
            tell(line)
        if self.wrong:
            raise Fault(f"the results are not joined, for {len(self.wrong)} reasons")

    def _copy(self, job: Job, report: _Fresh) -> Result | None:
        """Copies the rows of a shard."""
        self.used.add(job.name)
        path, found = self.places.get(job.name, ("", None))
        if found is None:
            self.wrong.append(f"{job.name}: missing")
            return None
        if found.digest != job.digest:
            self.wrong.append(f"{job.name}: its inputs, or the program, changed after its audit")
            return None
        try:
            report.write(in_form(rows_of(path, found), self.form))
        except Fault as fault:
            self.wrong.append(str(fault))
            return None
        self.counts[found.status] += 1
        self.rows += found.rows
        return found

    def _list_foreign(self, job: Job, found: Result, others: _Fresh) -> None:
        """Writes which requests of a shard that was judged name another host."""
        if found.status != DONE:
            return
        for other in self.foreigners.of(host_of(job.name), job):
            self.foreign += other.requests
            others.write(self._row(other.fields()))

    def _row(self, fields: tuple[str, ...]) -> bytes:
        return self.form.row(fields).encode()


def join(fleet: Fleet, results: Results, form: Form = Form()) -> Joined:
    """Writes the joined report, the status of shards and the list of requests that name another host.

    Raises `Fault` if a result is missing, twice or unknown.
    """
    results.forget()
    joining = _Join(fleet, results, form)
    joining.read()
    with _Fresh(results.out) as report, _Fresh(results.out) as status, _Fresh(results.out) as others:
        joining.write(report, status, others)
        joining.want_whole()
        others.keep(os.path.join(results.out, FOREIGN))
        status.keep(os.path.join(results.out, STATUS))
        report.keep(os.path.join(results.out, REPORT))
    done, refused, failed = (joining.counts[status] for status in STATUSES)
    return Joined(joining.rows, done, refused, failed, joining.foreign)
