"""What the second program says of each host of a fleet by its own policy, and all of it as one table of users by hosts.

OUT/roots/HOST has the tables of a host, with the users and hosts that they are about and what they were made of, and
OUT/reviewed.csv a row for each host.
"""

import os
import shutil
import tempfile
from collections.abc import Iterable, Iterator, Mapping, Sequence
from concurrent.futures import ThreadPoolExecutor
from typing import NamedTuple

from kulavemia import fleet_evidence, foreign, missing, outputs, program
from kulavemia.command import FAILED as FAILED_HERE
from kulavemia.command import Fault, line_of
from kulavemia.directory import users_in
from kulavemia.fleet_evidence import Input
from kulavemia.fleet_foreign import Foreigners
from kulavemia.fleet_plan import Fleet, Given, ToReview
from kulavemia.fleet_work import DONE, FAILED, HOSTS, REFUSED, TREE, USERS
from kulavemia.hostname import words_of_hostname
from kulavemia.netgroups import NETGROUPS
from kulavemia.program import Policy
from kulavemia.requests import number_of
from kulavemia.review import Asked
from kulavemia.rows import open_write, read_rows, row
from kulavemia.shown import Form, shown_records
from kulavemia.sums import File, digest_of, file_of_text
from kulavemia.tree import write_copies
from kulavemia.unknown import folded

ROOTS = "roots"
REVIEWED = "reviewed.csv"
REVIEWED_HEADER = ("host", "status", "users", "gathered", "digest", "fault")
DIGEST = "digest"
_DIGEST_CAP = 100


class Reviewed(NamedTuple):
    """A host of a fleet: whether its tables were made, how many users it has, when it was gathered, and of which inputs.

    The fault says why there are no tables.
    """

    host: str
    status: str
    users: int = 0
    gathered: int = 0
    digest: str = ""
    fault: str = ""

    def fields(self) -> tuple[str, ...]:
        """Returns the fields of a row."""
        return self.host, self.status, str(self.users), str(self.gathered), self.digest, self.fault


class _Made(NamedTuple):
    """What the tables of a host are made of: texts of files by their names, inputs, and what could not be gathered."""

    texts: Mapping[str, bytes]
    inputs: Sequence[Input]
    missing: Sequence[str]


class Reviewing:
    """Has the second program say who can become root on the hosts of a fleet, each by its own policy."""

    def __init__(self, fleet: Fleet, second: str, out: str, form: Form) -> None:
        self.fleet = fleet
        self.second = second
        self.second_file = File(program.version_of(second), os.path.getsize(second), program.sum_of(second))
        self.out = out
        self.form = form
        self.foreigners = Foreigners(fleet.shared.get(HOSTS, b""))
        outputs.folder(os.path.join(out, ROOTS))

    def all(self, workers: int) -> Iterator[Reviewed]:
        """Yields the hosts in the order of their names' bytes, several of them at a time."""
        with ThreadPoolExecutor(workers) as pool:
            yield from pool.map(self.one, self.fleet.names())

    def one(self, name: str) -> Reviewed:
        """Returns a host, whose tables are made where that is still to do, or why it has none."""
        try:
            with tempfile.TemporaryDirectory(prefix="fleet-") as scratch:
                return self._reviewed(name, scratch)
        except (Fault, OSError) as fault:
            shutil.rmtree(self._place(name), ignore_errors=True)
            is_refused = isinstance(fault, Fault) and fault.status != FAILED_HERE
            said = "\n".join((line_of(fault), *(fault.further if isinstance(fault, Fault) else ())))
            return Reviewed(name, REFUSED if is_refused else FAILED, fault=program.with_hint(said))

    def _reviewed(self, name: str, scratch: str) -> Reviewed:
        """Returns a host whose tables are made. Raises `Fault` or `OSError` if there are none."""
        root = os.path.join(scratch, TREE)
        found = self.fleet.to_review(name, root)
        made = self._made_of(name, found)
        place = self._place(name)
        if digest_in(place, self.out) != made.texts[DIGEST]:
            shutil.rmtree(place, ignore_errors=True)
            write_copies(root, found.policy.files)
            with outputs.new_folder(place) as part:
                self._write(part, Policy(root + found.main, "", "", root, hostname=found.hostname), made)
        users = len(users_in(os.path.join(place, USERS)))
        return Reviewed(name, DONE, users, self.fleet.gathered(name), made.texts[DIGEST].decode())

    def _made_of(self, name: str, found: ToReview) -> _Made:
        """Returns what the tables of a host are made of."""
        hosts = self._own_hosts(name, found.hosts) if found.hosts.is_shared else found.hosts.text
        inputs = [
            Input(fleet_evidence.PROGRAM, self.second_file),
            *(Input(fleet_evidence.POLICY, file) for file in found.policy.originals),
            Input(fleet_evidence.USERS, file_of_text(found.users.path, found.users.text)),
            Input(fleet_evidence.HOSTS, file_of_text(found.hosts.path, found.hosts.text)),
        ]
        texts = {USERS: found.users.text, HOSTS: hosts}
        if found.netgroups is not None:
            inputs.append(Input(fleet_evidence.NETGROUPS, file_of_text(found.netgroups.path, found.netgroups.text)))
            texts[NETGROUPS] = found.netgroups.text
        lacks = missing.lines_of(os.path.join(self.fleet.folder, name), self.fleet.folder)
        parts = [part for role, file in inputs for part in (role, file.path, file.sum)]
        words = ["roots 2", *words_of_hostname(found.hostname), str(self.form), found.main, *parts, *lacks]
        digest = digest_of([hosts, *map(os.fsencode, words)])
        return _Made({**texts, DIGEST: digest.encode()}, inputs, lacks)

    def _write(self, part: str, policy: Policy, made: _Made) -> None:
        """Writes the tables of a host, what they are about, and what they are made of, into a folder."""
        for name, text in made.texts.items():
            with outputs.new(os.path.join(part, name)) as file:
                file.write(text)
        fleet_evidence.write_inputs(part, made.inputs, made.missing, self.form)
        users, hosts, netgroups = (os.path.join(part, name) if name in made.texts else "" for name in (USERS, HOSTS, NETGROUPS))
        try:
            Asked(self.second, policy._replace(users=users, hosts=hosts, netgroups=netgroups), self.form).write(part)
        except Fault as fault:
            # Which folder by chance a file stood in says nothing.
            raise Fault(str(fault).replace(os.path.join(part, ""), ""), fault.status, fault.further) from None

    def _own_hosts(self, name: str, given: Given) -> bytes:
        """Returns the rows of the fleet's hosts file that are a host's own. Raises `Fault` if there are none."""
        named = self.foreigners.called(folded(name))
        header, *rows = read_rows(given.text)
        own = [fields for fields in rows if fields and folded(fields[0]) in named]
        if not own:
            raise Fault(f"{HOSTS} has no host of this name")
        return "".join(map(row, [header, *own])).encode("utf-8", "surrogateescape")

    def _place(self, name: str) -> str:
        return os.path.join(self.out, ROOTS, name)


def digest_in(place: str, out: str) -> bytes:
    """Returns the digest of what the tables of a host were made of, empty if there is none."""
    path = os.path.join(place, DIGEST)
    return foreign.read(path, _DIGEST_CAP, out) if foreign.exists(path, out) else b""


def write_reviewed(out: str, found: Iterable[Reviewed], form: Form) -> list[Reviewed]:
    """Writes the table of hosts, and returns them."""
    hosts = list(found)
    with open_write(os.path.join(out, REVIEWED)) as file:
        file.write(form.head(REVIEWED_HEADER))
        file.writelines(form.row(host.fields()) for host in hosts)
    return hosts


def reviewed_in(out: str) -> list[Reviewed]:
    """Returns the hosts of a table that `write_reviewed` wrote."""
    path = os.path.join(out, REVIEWED)
    found = []
    for line, (host, status, users, gathered, digest, fault) in shown_records(path, REVIEWED_HEADER):
        counts = number_of(path, line, users), int(gathered) if gathered.isdecimal() else 0
        found.append(Reviewed(host, status, *counts, digest, fault))
    return found
