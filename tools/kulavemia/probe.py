"""Requests that ask who can become root."""

import os
from collections.abc import Iterator, Sequence
from typing import NamedTuple

from kulavemia import limits
from kulavemia.progress import Progress
from kulavemia.requests import PROBE_KEY, Request, Writer, fault_of
from kulavemia.command import Fault
from kulavemia.rows import records

PROGRAMS = os.path.join(os.path.dirname(__file__), "data", "programs.csv")
PROGRAMS_HEADER = ("kind", "command", "arguments")


class Program(NamedTuple):
    """A program that gives a shell, and of which kind it is."""

    kind: str
    command: str
    arguments: str


def programs_of(path: str) -> list[Program]:
    """Returns the programs of a file."""
    found = []
    for line, fields in records(path, PROGRAMS_HEADER):
        program = Program(*fields)
        reason = fault_of(Request("-", "-", "", "", program.command, program.arguments))
        if reason:
            raise Fault(f"{path}:{line}: {reason}: {program.command}")
        found.append(program)
    if not found:
        raise Fault(f"{path}: no programs")
    return found


def _requests(users: Sequence[str], hosts: Sequence[str], programs: Sequence[Program]) -> Iterator[tuple[Request, str]]:
    """Yields the requests, those of a user together, and of a host together within them."""
    for user in users:
        for host in hosts:
            for program in programs:
                yield Request(user, host, "root", "", program.command, program.arguments), program.kind


def write(folder: str, users: Sequence[str], hosts: Sequence[str], programs: Sequence[Program]) -> int:
    """Writes a folder of the requests, as many lists as the limits want, and returns how many requests there are."""
    writer = Writer(folder, PROBE_KEY)
    total = len(users) * len(hosts) * len(programs)
    with Progress("writing", total) as progress:
        for at, (request, kind) in enumerate(_requests(users, hosts, programs)):
            writer.add(f"probe_{at // limits.REQUESTS + 1}", request, (kind,))
            if at % 4096 == 0:
                progress.at(at)
        return writer.finish()
