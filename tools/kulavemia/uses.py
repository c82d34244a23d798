"""The answers of an audit to the requests of logs: which changed since, and which rules decided."""

import itertools
from collections import Counter
from collections.abc import Iterable, Iterator
from dataclasses import dataclass, field
from typing import IO, NamedTuple

from kulavemia.answers import ALLOW, DEPENDS, Answer, Verdict
from kulavemia.command import Fault
from kulavemia.logs import FOLD, LINE_LIMIT, UNREADABLE, opened
from kulavemia.messages import ACCEPTED, AS_EDIT, FAILED, MAY_BE_EDIT, REFUSED
from kulavemia.requests import Request

GROUPS_LIMIT = 100_000
LINES_SHOWN = 3
TEXT_LIMIT = 2000


class LogLine(NamedTuple):
    """The place of a request in a log."""

    log: str
    line: int
    time: str


@dataclass
class Asked:
    """A request with its verdict, how often it was made, and some of its log lines."""

    request: Request
    verdict: Verdict
    reason: str
    count: int = 0
    lines: list[LogLine] = field(default_factory=list)
    notes: set[str] = field(default_factory=set)

    def add(self, line: LogLine, note: str) -> None:
        """Adds one time that it was made."""
        self.count += 1
        if len(self.lines) < LINES_SHOWN:
            self.lines.append(line)
        if note:
            self.notes.add(note)


class Kind:
    """Requests of one kind, the same ones together."""

    def __init__(self) -> None:
        self.found: dict[tuple[Request, Verdict, str], Asked] = {}
        self.count = 0
        self.left_out = 0

    def add(self, answer: Answer, reason: str, line: LogLine, note: str) -> None:
        """Adds a request."""
        self.count += 1
        key = answer.request, answer.verdict, reason
        if key not in self.found:
            if len(self.found) == GROUPS_LIMIT:
                self.left_out += 1
                return
            self.found[key] = Asked(answer.request, answer.verdict, reason)
        self.found[key].add(line, note)

    def list(self) -> list[Asked]:
        """Returns the requests, those that were made most often first."""
        return sorted(self.found.values(), key=lambda asked: -asked.count)


class Uses:
    """Sorts the answers to the requests of logs, and counts those that depend on what is not judged as `noted`."""

    def __init__(self) -> None:
        self.denied = Kind()
        self.allowed = Kind()
        self.unknown = Kind()
        self.same = 0
        self.failed = 0
        self.count = 0
        self.noted = 0
        self.places: Counter[str] = Counter()
        # The verdicts, with their places, on the other way in which a request may have been made.
        self.dropped: Counter[tuple[str, str]] = Counter()

    def take_all(self, answers: Iterable[Answer]) -> None:
        """Takes all answers, with the keys that tools/requests wrote.

        A request that may have been one to edit files stands there both ways, and is answered as then if either way is.
        """
        waiting: Answer | None = None
        for answer in answers:
            if waiting is not None and answer.key[-1].endswith(AS_EDIT):
                self._take_either(waiting, answer)
                waiting = None
                continue
            if waiting is not None:
                self._take(waiting)
            waiting = answer if answer.key[-1].endswith(MAY_BE_EDIT) else None
            if waiting is None:
                self._take(answer)
        if waiting is not None:
            self._take(waiting)

    def _take_either(self, plain: Answer, edit: Answer) -> None:
        """Takes of the same request, in two ways, the one that is allowed, or else may be, or else the first."""
        is_edit = _ease(edit) > _ease(plain)
        taken, dropped = (edit, plain) if is_edit else (plain, edit)
        self._take(taken)
        self.dropped[dropped.verdict.verdict, dropped.verdict.place] += 1

    def _take(self, answer: Answer) -> None:
        log, line, time, outcome, reason, note = answer.key
        self.count += 1
        self.noted += answer.verdict.verdict == DEPENDS
        self.places[answer.verdict.place] += 1
        kind = self._kind(answer.verdict.verdict, outcome)
        if kind is not None:
            kind.add(answer, reason, LogLine(log, int(line), time), note)
        elif outcome == FAILED:
            self.failed += 1
        else:
            self.same += 1

    def _kind(self, verdict: str, outcome: str) -> Kind | None:
        if verdict.startswith("unknown") or verdict == DEPENDS:
            return self.unknown
        if outcome == ACCEPTED and verdict != ALLOW:
            return self.denied
        if outcome == REFUSED and verdict == ALLOW:
            return self.allowed
        return None


def _ease(answer: Answer) -> int:
    """Returns how sure it is that an answer allows."""
    return {ALLOW: 2, DEPENDS: 1}.get(answer.verdict.verdict, 0)


def texts_of(asked: Iterable[Asked], below: str | None = None) -> dict[tuple[str, int], str]:
    """Returns the text of each log line that is shown, where its log can be read; see `logs.opened` for `below`."""
    wanted: dict[str, set[int]] = {}
    for line in itertools.chain.from_iterable(request.lines for request in asked):
        wanted.setdefault(line.log, set()).add(line.line)
    found = {}
    for log, numbers in wanted.items():
        for number, text in _lines(log, numbers, below):
            found[log, number] = text
    return found


def _lines(log: str, numbers: set[int], below: str | None) -> Iterable[tuple[int, str]]:
    """Yields these lines of a log; what is folded behind one belongs to it."""
    if log == "-":
        return
    try:
        raw, file = opened(log, below)
    except (OSError, Fault):
        return
    with raw, file:
        try:
            yield from _unfolded(_numbered(file), numbers)
        except (*UNREADABLE, Fault):
            return


def _numbered(file: IO[bytes]) -> Iterator[tuple[int, bytes]]:
    """Yields the lines of a log with their numbers, of a line that is too long its start."""
    number, begins = 0, True
    while piece := file.readline(LINE_LIMIT):
        number += begins
        if begins:
            yield number, piece
        begins = piece.endswith(b"\n")


def _unfolded(lines: Iterable[tuple[int, bytes]], numbers: set[int]) -> Iterable[tuple[int, str]]:
    open_line, text, left = 0, "", len(numbers)
    for number, line in lines:
        if open_line and line.startswith(FOLD.encode()):
            if len(text) < TEXT_LIMIT:
                text += " " + line.decode("utf-8", "surrogateescape").strip()
            continue
        if open_line:
            yield open_line, text
            open_line = 0
        if not left:
            break
        if number in numbers:
            open_line, text, left = number, line.decode("utf-8", "surrogateescape").rstrip("\r\n"), left - 1
    if open_line:
        yield open_line, text
