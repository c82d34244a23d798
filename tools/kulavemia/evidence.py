"""The evidence of a page: who made it, when and where, out of which files, by which programs, and about which hosts."""

import datetime
import os
import pwd
import socket
import time
from collections.abc import Iterable, Mapping, Sequence
from typing import NamedTuple

from kulavemia.command import version
from kulavemia.sorting import Tally
from kulavemia.sums import File
from kulavemia.unknown import folded

_UNITS = (("day", 86_400), ("hour", 3600), ("minute", 60))


class Made(NamedTuple):
    """When a page was made, with the zone, by whom, on which machine, and by which version of the tools."""

    at: str
    zone: str
    by: str
    machine: str
    tools: str


class Program(NamedTuple):
    """A program that was asked: its name, what it says of its version, and the SHA-256 of its file."""

    name: str
    version: str
    sum: str


class Log(NamedTuple):
    """A log: its file, and what its lines were."""

    file: File
    tally: Tally


class Host(NamedTuple):
    """A host: whether it is known, when its files were gathered, and its requests in the logs."""

    name: str
    is_known: bool
    gathered: str
    age: str
    requests: int
    first: str
    last: str


class Evidence(NamedTuple):
    """All that a page was made of."""

    made: Made
    programs: Sequence[Program] = ()
    policy: Sequence[File] = ()
    old_policy: Sequence[File] = ()
    directory: Sequence[File] = ()
    probed: Sequence[File] = ()
    logs: Sequence[Log] = ()
    hosts: Sequence[Host] = ()
    missing: Sequence[str] = ()


def made_now() -> Made:
    """Returns who makes a page now."""
    now = datetime.datetime.now().astimezone().replace(microsecond=0)
    return Made(now.isoformat(), now.tzname() or "", _by(), _machine(), version())


def _by() -> str:
    """Returns the user of this process, and who asked sudo for it."""
    try:
        name = pwd.getpwuid(os.getuid()).pw_name
    except KeyError:
        name = f"#{os.getuid()}"
    asked = os.environ.get("SUDO_USER", "")
    return f"{name}, by sudo of {asked}" if asked and asked != name else name


def _machine() -> str:
    """Returns this machine's name, with its domain where it has one."""
    name, whole = socket.gethostname(), socket.getfqdn()
    return whole if whole.startswith(f"{name}.") else name


def at(nanoseconds: int) -> str:
    """Returns a time as text, in this machine's zone; empty where it is not known."""
    if not nanoseconds:
        return ""
    return datetime.datetime.fromtimestamp(nanoseconds // 10**9).astimezone().isoformat()


def age(nanoseconds: int, now: float) -> str:
    """Returns how long ago a time was, in words; empty where it is not known."""
    seconds = int(now - nanoseconds / 10**9)
    if not nanoseconds:
        return ""
    for unit, length in _UNITS:
        if seconds >= length:
            count = seconds // length
            return f"{count:,} {unit}{'s' if count > 1 else ''} before"
    return "in the minute before" if seconds >= 0 else "after, by its own clock"


def hosts_of(known: Iterable[str], gathered: Mapping[str, int], tallies: Mapping[str, Tally]) -> list[Host]:
    """Returns the known hosts, and those that logs alone name. Files of a host were gathered at a time, where that is known."""
    now, found = time.time(), []
    named: dict[bytes, list[Tally]] = {}
    for host, tally in tallies.items():
        named.setdefault(folded(host), []).append(tally)
    names = dict.fromkeys(known)
    for name in names:
        moment = gathered.get(name, 0)
        found.append(_host(name, True, at(moment), age(moment, now), named.pop(folded(name), [])))
    for name in tallies:
        found += [_host(name, False, "", "", tallies_left) for tallies_left in [named.pop(folded(name), [])] if tallies_left]
    return found


def _host(name: str, is_known: bool, gathered: str, old: str, tallies: Sequence[Tally]) -> Host:
    firsts = [tally.first for tally in tallies if tally.first]
    lasts = [tally.last for tally in tallies if tally.last]
    count = sum(tally.taken for tally in tallies)
    return Host(name, is_known, gathered, old, count, min(firsts, default=""), max(lasts, default=""))
