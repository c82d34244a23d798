"""All that the second program said of the hosts of a fleet, as one table of users by hosts; users are matched by name."""

import os
from collections.abc import Mapping, Sequence
from typing import NamedTuple

from kulavemia import fleet_evidence, missing, review
from kulavemia.command import Fault
from kulavemia.directory import hosts_in, users_in
from kulavemia.effects import Effect, effect_of, is_doubtful
from kulavemia.fleet_evidence import Input, Shared
from kulavemia.fleet_review import REVIEWED, ROOTS, Reviewed, digest_in, reviewed_in
from kulavemia.fleet_work import DONE, HOSTS, USERS
from kulavemia.grants import Grants
from kulavemia.review import Caution
from kulavemia.roots import Cell, Roots, Table


class Noted(NamedTuple):
    """What is said of several hosts alike: its kind and text, what it means for the page, and on which hosts it stands.

    Of a caution also which answers of the page it is about.
    """

    kind: str
    text: str
    meaning: str
    answers: str
    hosts: Sequence[str]


def first_alike(notes: Sequence[Noted]) -> list[int]:
    """Returns for each note the number of the first one that stands on the same hosts."""
    first: dict[Sequence[str], int] = {}
    return [first.setdefault(tuple(note.hosts), number) for number, note in enumerate(notes)]


class FleetTable(NamedTuple):
    """The table of a fleet, what was reviewed, what is to be noted, and of each host what its tables were made of."""

    table: Table
    reviewed: Sequence[Reviewed]
    cautions: Sequence[Noted]
    subjects: Sequence[Noted]
    ids: Mapping[str, Sequence[str]]
    inputs: Mapping[str, Sequence[Input]]
    missing: Mapping[str, Sequence[str]]

    def policies(self) -> list[Shared]:
        """Returns the files of the policies, each once with the hosts that have it."""
        return fleet_evidence.shared_by(self.inputs.items(), fleet_evidence.POLICY)

    def programs(self) -> list[Shared]:
        """Returns the programs that the hosts' tables are of."""
        return fleet_evidence.shared_by(self.inputs.items(), fleet_evidence.PROGRAM)

    def sums(self, host: str) -> list[Input]:
        """Returns the files of users, hosts and netgroups of a host."""
        roles = (fleet_evidence.USERS, fleet_evidence.HOSTS, fleet_evidence.NETGROUPS)
        return [read for read in self.inputs.get(host, ()) if read.role in roles]


class _Host(NamedTuple):
    """A host's tables: its name and their folder, the host's names in the table, and its users with their IDs."""

    name: str
    folder: str
    names: Sequence[str]
    hosts: Sequence[str]
    users: Mapping[str, str]


class _Notes:
    """Gathers what is said of several hosts alike."""

    def __init__(self) -> None:
        self.found: dict[tuple[str, str, str, str], dict[str, None]] = {}

    def add(self, kind: str, text: str, effect: Effect, hosts: Sequence[str]) -> None:
        """Adds what is said of hosts, once."""
        key = kind, text, effect.meaning, effect.answers
        self.found.setdefault(key, {}).update(dict.fromkeys(hosts))

    def list(self) -> list[Noted]:
        """Returns what is said, that of the most hosts first."""
        notes = [Noted(*key, list(hosts)) for key, hosts in self.found.items()]
        return sorted(notes, key=lambda note: -len(note.hosts))


def table_of(out: str) -> FleetTable:
    """Returns the table of a fleet that `Reviewing` reviewed."""
    reviewed = reviewed_in(out)
    hosts = [_host(out, found) for found in reviewed if found.status == DONE]
    ids: dict[str, dict[str, None]] = {}
    for host in hosts:
        for user, uid in host.users.items():
            ids.setdefault(user, {})[uid] = None
    users = sorted(ids)
    table = Table(users, [name for host in hosts for name in host.names])
    cautions, subjects = _Notes(), _Notes()
    numbers = {user: number for number, user in enumerate(users)}
    table.fill(Cell(is_absent=True))
    column = 0
    lacks = {host.name: found for host in hosts if (found := fleet_evidence.missing_in(host.folder))}
    for host in hosts:
        doubtful = _cautions_of(host, cautions) or missing.may_hide_rules(lacks.get(host.name, ()))
        _put(host, table, numbers, column, doubtful)
        _note_subjects(host, subjects)
        column += len(host.names)
    several = {user: list(found) for user, found in ids.items() if len(found) > 1}
    inputs = {host.name: fleet_evidence.inputs_in(host.folder) for host in hosts}
    return FleetTable(table, reviewed, cautions.list(), subjects.list(), several, inputs, lacks)


def _host(out: str, found: Reviewed) -> _Host:
    """Returns the tables of a host. Raises `Fault` if they are not those of the table of hosts."""
    name, folder = found.host, os.path.join(out, ROOTS, found.host)
    if digest_in(folder, out) != found.digest.encode():
        raise Fault(f"{folder} has other tables than those that {REVIEWED} is about: run the review of the fleet again")
    hosts = hosts_in(os.path.join(folder, HOSTS))
    names = [name] if len(hosts) == 1 else [f"{name}/{host}" for host in hosts]
    return _Host(name, folder, names, hosts, users_in(os.path.join(folder, USERS)))


def _cautions_of(host: _Host, notes: _Notes) -> bool:
    """Notes the cautions of a host, and returns whether sudo may tell otherwise who can become root there."""
    effects: list[Effect] = []
    for fields in review.rows_of(host.folder, review.CAUTIONS):
        caution = Caution(*fields)
        effects.append(effect_of(caution))
        notes.add(caution.kind, caution.text, effects[-1], host.names)
    return is_doubtful(effects)


def _note_subjects(host: _Host, notes: _Notes) -> None:
    for _, kind, named, what in review.rows_of(host.folder, review.SUBJECTS):
        notes.add(kind, named, Effect("", what), host.names)


def _put(host: _Host, table: Table, numbers: Mapping[str, int], column: int, doubtful: bool) -> None:
    """Puts the cells of a host into the table of the fleet, without the grants."""
    users = list(host.users)
    roots = Roots(users, host.hosts, Grants(review.rows_of(host.folder, review.GRANTS), users, host.hosts), doubtful)
    roots.take_all(review.rows_of(host.folder, review.ROOTS))
    cells = [table.cells.of(cell._replace(grants=())) for cell in roots.cells.list()]
    for user, row in zip(users, roots.rows):
        into = table.rows[numbers[user]]
        for at, cell in enumerate(row, column):
            into[at] = cells[cell]
