"""Requests of a fleet's host that name another host, as the log of a relay has them. They are judged, and listed."""

import bisect
import itertools
import re
from collections.abc import Collection, Iterator
from typing import NamedTuple

from kulavemia.fleet_work import HOSTS, Job
from kulavemia.rows import read_rows
from kulavemia.unknown import folded

FOREIGN_HEADER = ("host", "sender", "named", "requests", "first")
_HOST = 2
_FEW = 16
_PLAIN = re.compile(rb'[^",\r\n]+')


class Foreign(NamedTuple):
    """Requests of a host's sender that name one other host: how many there are, and the number of the first."""

    host: str
    sender: str
    named: str
    requests: int
    first: str

    def fields(self) -> tuple[str, ...]:
        """Returns the fields of a row."""
        return self.host, self.sender, self.named, str(self.requests), self.first


class Foreigners:
    """Finds the requests that name another host.

    A host's own names are those of the hosts file of its own folder; where that has none, those of the fleet's hosts
    file that are the folder's name, with or without a domain.
    """

    def __init__(self, shared_hosts: bytes) -> None:
        self.shared = sorted(_listed(shared_hosts))

    def of(self, host: str, job: Job) -> Iterator[Foreign]:
        """Yields what a shard of a host has, by sender and named host."""
        own = _listed(job.files[HOSTS]) if HOSTS in job.files else self.called(folded(host))
        for (sender, named), (count, first) in _named(job, own).items():
            if folded(named) not in own:
                yield Foreign(host, sender, named, count, first)

    def called(self, short: bytes) -> frozenset[bytes]:
        """Returns the shared names that are a short one, with or without a domain."""
        # What follows `web1.` in any name sorts before `web1/`.
        ends = (short, short + b"\0", short + b".", short + b"/")
        first, end, first_long, end_long = (bisect.bisect_left(self.shared, name) for name in ends)
        return frozenset(self.shared[first:end] + self.shared[first_long:end_long])


def _listed(hosts: bytes) -> frozenset[bytes]:
    return frozenset(folded(fields[0]) for fields in _rows(hosts) if fields)


def _named(job: Job, own: Collection[bytes]) -> dict[tuple[str, str], tuple[int, str]]:
    """Returns how often the requests of each sender name a host, and the number of the first request that does so.

    Most requests that name an own host are left out.
    """
    found: dict[tuple[str, str], tuple[int, str]] = {}
    for sender, file in job.sources:
        for fields in _rows(_without(own, job.files[file])):
            if len(fields) > _HOST and fields[0] != "close":
                key = sender, fields[_HOST]
                count, first = found.get(key, (0, fields[0]))
                found[key] = count + 1, first
    return found


def _without(own: Collection[bytes], text: bytes) -> bytes:
    """Returns a requests file without the lines that have no quotes and name an own host, where these are few.

    That takes a third of the time that it takes to read their fields.
    """
    names = [re.escape(name) for name in own if _PLAIN.fullmatch(name)]
    if not 0 < len(names) <= _FEW:
        return text
    line = rb'^[0-9]++,[^",\r\n]*+,(?:%b),[^"\r\n]*+\n' % b"|".join(names)
    return re.sub(line, b"", text, flags=re.MULTILINE | re.IGNORECASE)


def _rows(text: bytes) -> Iterator[list[str]]:
    """Yields the rows behind the header of a file that the program has read. Raises `Fault` at what is no CSV."""
    return itertools.islice(read_rows(text), 1, None)
