"""Folders of requests files, within what one run of the program takes.

FOLDER/requests has the requests files, FOLDER/keys beside each a file of the same name that says of each request
where it comes from, and FOLDER/senders.csv a row for each file. Requests files have foreign text byte for byte, since
an audit reads them; the others have it as it is shown.
"""

import os
import re
from collections.abc import Iterable, Iterator, Sequence
from typing import NamedTuple

from kulavemia import foreign, limits, outputs
from kulavemia.command import WORDS, Fault, warn
from kulavemia.rows import open_write, row
from kulavemia.shown import Form, shown_records

NAME_LIMIT = 64

HEADER = ("number", "user", "host", "runas_user", "runas_group", "command", "arguments")
SENDERS_HEADER = ("sender", "name", "requests", "file", "key")
LOG_KEY = ("number", "log", "line", "time", "outcome", "reason", "note")
PROBE_KEY = ("number", "kind")

_BUFFERED = 4 << 20
_CLOSE_ROOM = 64
# The room for what tells names apart that begin alike.
_NUMBER_ROOM = 8
_SENDER = re.compile(rf"[A-Za-z0-9_-]{{1,{NAME_LIMIT}}}")
_NOT_PLAIN = re.compile("[^A-Za-z0-9_]")


class Request(NamedTuple):
    """The request of a user."""

    user: str
    host: str
    runas_user: str
    runas_group: str
    command: str
    arguments: str


class Source(NamedTuple):
    """A requests file of a sender, and its key if there is one."""

    sender: str
    name: str
    requests: int
    file: str
    key: str | None


def fault_of(request: Request) -> str | None:
    """Returns why the program would not take the request, or `None`."""
    if not request.user:
        return "no user"
    if not request.host:
        return "no host"
    if not request.command.startswith("/") and request.command != "sudoedit":
        return "the command is no path"
    return None


class Appender:
    """Appends to many files; keeps little of it in memory and none of them open."""

    def __init__(self) -> None:
        self.waiting: dict[str, list[str]] = {}
        self.size = 0

    def append(self, path: str, text: str) -> None:
        """Appends a text to a file."""
        self.waiting.setdefault(path, []).append(text)
        self.size += len(text)
        if self.size >= _BUFFERED:
            self.flush()

    def flush(self) -> None:
        """Writes out all texts that wait."""
        for path, texts in self.waiting.items():
            with open_write(path, "a") as file:
                file.writelines(texts)
        self.waiting.clear()
        self.size = 0


def _plain(name: str) -> str:
    """Returns a name of ASCII letters, digits and `_`, a letter first, so that no program takes it for an option."""
    plain = _NOT_PLAIN.sub("_", name)
    return (plain if plain[:1].isalpha() else f"sender_{plain}")[: NAME_LIMIT - _NUMBER_ROOM]


def _stem(sender: str, part: int) -> str:
    return sender if part == 1 else f"{sender}.{part}"


class _Sender:
    """How far a sender's files are written."""

    def __init__(self, sender: str, name: str) -> None:
        self.sender = sender
        self.name = name
        self.number = 0
        self.parts: list[int] = []
        self.bytes = 0
        self.requests = ""
        self.keys = ""

    def start(self, folder: str) -> None:
        """Begins a further part."""
        self.parts.append(0)
        stem = _stem(self.sender, len(self.parts))
        self.requests = f"{folder}/requests/{stem}.csv"
        self.keys = f"{folder}/keys/{stem}.csv"


class Writer:
    """Writes a folder of requests, a list for each sender, as long files in parts."""

    def __init__(self, folder: str, key_header: Sequence[str], form: Form = Form()) -> None:
        self.folder = folder
        self.key_header = key_header
        self.form = form
        self.senders: dict[str, _Sender] = {}
        self.taken: set[str] = set()
        self.last: dict[str, int] = {}
        self.files = Appender()
        for below in ("requests", "keys"):
            path = outputs.folder(os.path.join(folder, below))
            if foreign.entries(path):
                raise Fault(f"{path} is not empty; remove it, or name another folder", WORDS)

    def add(self, name: str, request: Request, key: Sequence[str]) -> int:
        """Adds a request to the list that has this name, and returns its number."""
        sender = self.senders.get(name) or self._new(name)
        text = row((str(sender.number + 1), *request))
        size = len(text) if text.isascii() else len(text.encode("utf-8", "surrogateescape"))
        if sender.parts[-1] >= limits.REQUESTS or sender.bytes + size + _CLOSE_ROOM > limits.CSV_BYTES:
            self._start(sender)
        sender.number += 1
        sender.parts[-1] += 1
        sender.bytes += size
        self.files.append(sender.requests, text)
        self.files.append(sender.keys, self.form.row((str(sender.number), *key)))
        return sender.number

    def finish(self) -> int:
        """Closes each sender's list, writes the table of senders, and returns how many requests there are.

        Warns where there is no sender: the program audits nothing then, and says nothing of it.
        """
        for sender in self.senders.values():
            self.files.append(sender.requests, f"close,{sender.number},,,,,\n")
        self.files.flush()
        if not self.senders:
            warn(f"{self.folder} has no requests: an audit of it has no source")
        with open_write(os.path.join(self.folder, "senders.csv")) as file:
            file.write(self.form.head(SENDERS_HEADER))
            file.writelines(map(self.form.row, self._rows()))
        return sum(sender.number for sender in self.senders.values())

    def _new(self, name: str) -> _Sender:
        sender = _Sender(self._sender_name(name), name)
        self.senders[name] = sender
        self._start(sender)
        return sender

    def _start(self, sender: _Sender) -> None:
        sender.start(self.folder)
        sender.bytes = len(row(HEADER))
        self.files.append(sender.requests, row(HEADER))
        self.files.append(sender.keys, self.form.head(self.key_header))

    def _sender_name(self, name: str) -> str:
        plain = _plain(name)
        sender, more = plain, self.last.get(plain.lower(), 1)
        while sender.lower() in self.taken:
            more += 1
            sender = f"{plain}_{more}"
        self.taken.add(sender.lower())
        self.last[plain.lower()] = more
        return sender

    def _rows(self) -> Iterator[Sequence[str]]:
        for sender in self.senders.values():
            for part, requests in enumerate(sender.parts, 1):
                stem = _stem(sender.sender, part)
                yield sender.sender, sender.name, str(requests), f"requests/{stem}.csv", f"keys/{stem}.csv"


def number_of(path: str, line: int, text: str) -> int:
    """Returns the number that a field of a file spells. Raises `Fault` if it is none, or is longer than any count."""
    if not text.isascii() or not text.isdecimal() or len(text) > 18:
        raise Fault(f"{path}:{line}: {text[:40]} is no number")
    return int(text)


def sources_of(folder: str) -> list[Source]:
    """Returns the requests files of a folder that a `Writer` wrote. Raises `Fault` at a sender that is none."""
    path = os.path.join(folder, "senders.csv")
    found = []
    for line, (sender, name, requests, file, key) in shown_records(path, SENDERS_HEADER):
        if not _SENDER.fullmatch(sender):
            raise Fault(f"{path}:{line}: {sender[:80]} is no name of a sender")
        count = number_of(path, line, requests)
        found.append(Source(sender, name, count, os.path.join(folder, file), os.path.join(folder, key)))
    return found


def named_sources(words: Iterable[str]) -> list[Source]:
    """Returns the requests files that words `NAME=PATH` name."""
    sources = []
    for word in words:
        # `plain_words` has put `./` before a name that begins with `-`.
        sender, equals, path = word.removeprefix("./").partition("=")
        if not equals or not _SENDER.fullmatch(sender):
            raise Fault(f"{word}: expected NAME=PATH with a NAME of 1 to {NAME_LIMIT} letters, digits, _ or -", WORDS)
        sources.append(Source(sender, sender, 0, path, None))
    return sources


def by_sender(sources: Iterable[Source]) -> dict[str, list[Source]]:
    """Returns the files of each sender, the senders in the order in which they first appear."""
    found: dict[str, list[Source]] = {}
    for source in sources:
        found.setdefault(source.sender, []).append(source)
    return found


def batches(sources: Iterable[Source]) -> Iterator[list[Source]]:
    """Yields the sources as lists that one run takes, in order; a sender's files stay together."""
    batch: list[Source] = []
    senders = requests = 0
    for files in by_sender(sources).values():
        count = sum(source.requests for source in files)
        full = senders == limits.SENDERS or len(batch) + len(files) > limits.SOURCES
        if batch and (full or requests + count > limits.REQUESTS):
            yield batch
            batch, senders, requests = [], 0, 0
        batch = batch + files
        senders += 1
        requests += count
    if batch:
        yield batch
