"""Requests of an audit out of logs: whose list each belongs to, and how its names are written."""

import argparse
import functools
import os
from collections import Counter
from collections.abc import Sequence
from typing import IO, NamedTuple

from kulavemia.command import Fault
from kulavemia.directory import hosts_in, users_in
from kulavemia.journal import SUDO_PATHS
from kulavemia.logs import SYSLOG_LENGTHS, Found, Log, Options, size_of
from kulavemia.messages import (
    ASKED_TO_LIST,
    EDITORS,
    FORGED,
    MAY_BE_EDIT,
    OTHER,
    UNREAD,
    Event,
    Skipped,
    may_be_edit,
    noted,
    with_editor,
)
from kulavemia.progress import Progress
from kulavemia.requests import LOG_KEY, Request, Writer, fault_of
from kulavemia.rows import open_write, records
from kulavemia.shown import Form
from kulavemia.shown import add_option as add_spreadsheet_option

LISTS_HEADER = (
    "log",
    "line",
    "time",
    "user",
    "host",
    "runas_user",
    "runas_group",
    "asked",
    "arguments",
    "outcome",
    "reason",
)
SKIPPED_HEADER = ("log", "line", "time", "reason")
MAP_HEADER = ("from", "to")


class Sorting(NamedTuple):
    """The options that say how logs are read and names are written. Without hosts.csv a line without a host has none."""

    by: str
    host: str
    host_map: str | None
    domain: str | None
    link: Sequence[tuple[str, str]]
    users: str | None
    year: int | None
    quoting: str
    editor: Sequence[str]
    plain_editors: bool
    syslog_length: int | None
    sudo_path: Sequence[str]
    spreadsheet: bool
    hosts: str | None = None

    def reading(self, below: str | None) -> Options:
        """Returns how logs are read. No link to one is followed below a folder, where one is named."""
        lengths = SYSLOG_LENGTHS if self.syslog_length is None else (self.syslog_length,)
        return Options(self.host, self.year, self.quoting, lengths, self.sudo_path or SUDO_PATHS, below)


def sorting_of(given: argparse.Namespace) -> Sorting:
    """Returns the options that `add_options` adds, out of all of a command line."""
    return Sorting(**{name: value for name, value in vars(given).items() if name in Sorting._fields})


def add_options(words: argparse.ArgumentParser) -> None:
    """Adds the options that say how logs are read and names are written."""
    _add_naming_options(words)
    _add_reading_options(words)
    add_spreadsheet_option(words)


def _add_naming_options(words: argparse.ArgumentParser) -> None:
    words.add_argument(
        "--by", choices=("host", "user", "all"), default="host", help="one list of requests for each (default host)"
    )
    words.add_argument("--host", default="", metavar="NAME", help="the host of logs that name none")
    words.add_argument(
        "--host-map",
        metavar="FILE",
        help="a CSV file with the header from,to: hosts of logs, and their names in hosts.csv",
    )
    words.add_argument("--domain", metavar="NAME", help="put behind hosts that have no dot and are not in the host map")
    words.add_argument(
        "--link",
        action="append",
        default=[],
        metavar="FROM=TO",
        type=_link,
        help=(
            "a command under the folder FROM is written under TO, as the rules write it; may be given again, the first"
            " that fits counts"
        ),
    )
    words.add_argument("--users", metavar="FILE", help="users.csv: a target #UID is then written by its name")


def _add_reading_options(words: argparse.ArgumentParser) -> None:
    words.add_argument("--year", type=int, help="the year of lines that have none (default: by the time of the file)")
    words.add_argument(
        "--quoting",
        choices=("auto", "sudo", "literal"),
        default="auto",
        help=(
            "how arguments are written: sudo from 1.9.13 on quotes those with blanks; literal reads them as they stand"
            " (default auto)"
        ),
    )
    words.add_argument(
        "--editor",
        action="append",
        default=[],
        metavar="NAME",
        help="a further editor whose name, with -- behind it, is what sudo 1.9 logs for sudoedit",
    )
    words.add_argument("--plain-editors", action="store_true", help="no editor with -- is taken for sudoedit")
    words.add_argument(
        "--syslog-length",
        type=int,
        metavar="N",
        help=f"sudo's syslog_maxlen (default: {' and '.join(map(str, SYSLOG_LENGTHS))}, either)",
    )
    words.add_argument(
        "--sudo-path",
        action="append",
        default=[],
        metavar="PATH",
        help=(
            "the path of sudo's program: entries of the journal that another program wrote count as forged; may be"
            f" given again (default {' and '.join(SUDO_PATHS)})"
        ),
    )


def _link(word: str) -> tuple[str, str]:
    start, _, end = word.partition("=")
    if not start.startswith("/") or not end.startswith("/"):
        raise argparse.ArgumentTypeError(f"{word}: expected FROM=TO, two absolute folders")
    return start.rstrip("/") + "/", end.rstrip("/") + "/"


class Names:
    """Writes hosts, targets and commands as the directory and the rules write them."""

    def __init__(self, given: Sorting) -> None:
        self.links = given.link
        self.domain = f".{given.domain}" if given.domain else ""
        self.hosts = (
            {fields[0]: fields[1] for _, fields in records(given.host_map, MAP_HEADER)} if given.host_map else {}
        )
        users = users_in(given.users) if given.users else {}
        self.uids = {f"#{uid}": user for user, uid in reversed(users.items())}

    def host(self, name: str) -> str:
        """Returns the name of a host."""
        mapped = self.hosts.get(name)
        if mapped is not None:
            return mapped
        return name + self.domain if name and "." not in name else name

    def command(self, path: str) -> str:
        """Returns the path of a command, with the first link that fits taken."""
        for start, end in self.links:
            if path.startswith(start):
                return end + path[len(start) :]
        return path

    def named(self, request: Request) -> Request:
        """Returns the request with its names so written."""
        user, host, runas_user, runas_group, command, arguments = request
        return Request(
            user, self.host(host), self.uids.get(runas_user, runas_user), runas_group, self.command(command), arguments
        )


class Tally(NamedTuple):
    """How many lines of a log, or of a host in logs, were taken, passed over and forged, and their first and last time."""

    taken: int = 0
    passed_over: int = 0
    forged: int = 0
    first: str = ""
    last: str = ""

    def with_line(self, kind: str, time: str) -> "Tally":
        """Returns the tally with a further line."""
        is_taken = kind not in (OTHER, UNREAD, FORGED)
        taken, passed_over, forged, first, last = self
        first, last = min(first or time, time or first), max(last, time)
        return Tally(taken + is_taken, passed_over + (kind in (OTHER, UNREAD)), forged + (kind == FORGED), first, last)


class Sorted(NamedTuple):
    """How much of each kind there was, how many requests name each host, and the tallies of logs and of hosts."""

    counts: Counter[str]
    hosts: Counter[str]
    logs: dict[str, Tally] = {}
    times: dict[str, Tally] = {}


class Sorter:
    """Sorts the content of logs into the files of a folder."""

    def __init__(self, given: Sorting, writer: Writer, lists: IO[str], skipped: IO[str]) -> None:
        self.names = Names(given)
        self.by = given.by
        self.editors = frozenset() if given.plain_editors else EDITORS.union(given.editor)
        self.writer = writer
        self.form = writer.form
        self.lists = lists
        self.skipped = skipped
        self.counts: Counter[str] = Counter()
        self.hosts: Counter[str] = Counter()
        self.logs: dict[str, Tally] = {}
        self.times: dict[str, Tally] = {}
        self.hosts_file = given.hosts
        self.known_hosts = hosts_in(given.hosts) if given.hosts else []

    def take(self, log: str, found: Found) -> None:
        """Takes the content of a line. Raises `Fault` if it has no host, and several hosts are known."""
        line, time, event = found
        if isinstance(event, Skipped):
            self._skip(log, line, time, event)
            return
        event = self._placed(log, line, with_editor(event, self.editors))
        request = event.request
        if request.command in ASKED_TO_LIST:
            self._count("lists", log, time)
            self.lists.write(self.form.row((log, str(line), time, *request, event.outcome, event.reason)))
            return
        reason = fault_of(request)
        if reason:
            said = f": {event.reason}" if event.reason else ""
            kind = OTHER if request.user and request.host else UNREAD
            self._skip(log, line, time, Skipped(f"{reason} ({request.command[:80]}){said}", kind))
            return
        self._count(event.outcome, log, time)
        self.hosts[request.host] += 1
        self.times[request.host] = self.times.get(request.host, Tally()).with_line(event.outcome, time)
        edit = may_be_edit(event) if self.editors else None
        self._add(log, line, time, noted(event, MAY_BE_EDIT) if edit else event)
        if edit:
            self._add(log, line, time, edit)

    def _add(self, log: str, line: int, time: str, event: Event) -> None:
        request = event.request
        name = request.host if self.by == "host" else request.user if self.by == "user" else "log"
        self.writer.add(name, request, (log, str(line), time, event.outcome, event.reason, event.note))

    def _placed(self, log: str, line: int, event: Event) -> Event:
        """Returns the event with its names as the directory writes them; without a host it is of the only one known."""
        event = event._replace(request=self.names.named(event.request))
        if event.request.host or not self.known_hosts:
            return event
        if len(self.known_hosts) > 1:
            raise Fault(
                f"{log}:{line}: the line has no host, and {self.hosts_file} has {len(self.known_hosts)} hosts: name the"
                " log's by --host"
            )
        return noted(event._replace(request=event.request._replace(host=self.known_hosts[0])), "no host logged")

    def _count(self, kind: str, log: str, time: str) -> None:
        self.counts[kind] += 1
        self.logs[log] = self.logs.get(log, Tally()).with_line(kind, time)

    def _skip(self, log: str, line: int, time: str, skipped: Skipped) -> None:
        self._count(skipped.kind, log, time)
        self.skipped.write(self.form.row((log, str(line), time, skipped.reason)))


def sort(logs: Sequence[str], folder: str, given: Sorting, below: str | None = None) -> Sorted:
    """Sorts the content of logs into a folder, and returns how much there was.

    No link to a log is followed below another folder, where one is named.
    """
    how = given.reading(below)
    total = sum(size_of(path, below) for path in logs)
    form = Form(given.spreadsheet)
    writer = Writer(folder, LOG_KEY, form)
    with (
        open_write(os.path.join(folder, "lists.csv")) as lists,
        open_write(os.path.join(folder, "skipped.csv")) as skipped,
        Progress("reading", total) as progress,
    ):
        lists.write(form.head(LISTS_HEADER))
        skipped.write(form.head(SKIPPED_HEADER))
        sorter = Sorter(given, writer, lists, skipped)
        before = 0
        for path in logs:
            for found in Log(path, how, functools.partial(_show, progress, before)):
                sorter.take(path, found)
            before += size_of(path, below)
        sorter.writer.finish()
        sorter.counts["senders"] = len(sorter.writer.senders)
    return Sorted(sorter.counts, sorter.hosts, sorter.logs, sorter.times)


def _show(progress: Progress, before: int, done: int) -> None:
    progress.at(before + done)


def told(counts: Counter[str]) -> str:
    """Returns what was found, in a line."""
    forged = f", {counts[FORGED]} forged" if counts[FORGED] else ""
    return (
        f"{counts['accepted']} accepted, {counts['refused']} refused and {counts['failed']} failed requests of "
        f"{counts['senders']} senders; {counts['lists']} to list, {counts[OTHER] + counts[UNREAD]} other lines{forged}"
    )
