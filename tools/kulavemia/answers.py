"""Answers: each row of a report beside its request, and the fields of its key."""

import heapq
from collections.abc import Iterator, Sequence
from typing import NamedTuple

from kulavemia.command import Fault
from kulavemia.requests import HEADER, Request, Source, by_sender, number_of
from kulavemia.rows import header_of, records
from kulavemia.shown import shown_records

# The header of a report as the program prints it, and as these tools write it, with foreign text as it is shown.
REPORT_HEADER = ("sender", "number", "verdict", "line", "tags")
SHOWN_HEADER = ("sender", "number", "verdict", "place", "tags")
# The header of a report of the second program, which has the requests too.
REVIEWED_HEADER = ("sender", "number", *HEADER[1:], "verdict", "place", "tags", "depends")
ALLOW = "allow"
DENY = "deny"
NO_MATCH = "nomatch"
# In place of a verdict that depends on what the program does not judge.
DEPENDS = "depends"

_Numbered = tuple[int, Sequence[str]]
_OfSender = tuple[Iterator[_Numbered], Iterator[_Numbered] | None]


class Verdict(NamedTuple):
    """The verdict of a report on a request."""

    verdict: str
    place: str
    tags: str


class Answer(NamedTuple):
    """A request with its answer, and the fields of its key after the number, none without a key."""

    sender: str
    number: int
    request: Request
    verdict: Verdict
    key: Sequence[str]


def numbered_requests(path: str) -> Iterator[_Numbered]:
    """Yields the number and the other fields of each request of a file."""
    for line, fields in records(path, HEADER):
        if fields[0] != "close":
            yield number_of(path, line, fields[0]), fields[1:]


def _keys(source: Source, header: Sequence[str]) -> Iterator[_Numbered]:
    assert source.key is not None
    for line, fields in shown_records(source.key, header):
        yield number_of(source.key, line, fields[0]), fields[1:]


def _in_order(parts: Sequence[Iterator[_Numbered]]) -> Iterator[_Numbered]:
    return parts[0] if len(parts) == 1 else iter(heapq.merge(*parts, key=lambda numbered: numbered[0]))


def verdicts(report: str) -> Iterator[tuple[int, str, int, Verdict]]:
    """Yields the line, sender, number and verdict of each row of a report, of the program or of these tools."""
    is_shown = header_of(report) == list(SHOWN_HEADER)
    found = shown_records(report, SHOWN_HEADER) if is_shown else records(report, REPORT_HEADER)
    for line, (sender, number, verdict, place, tags) in found:
        yield line, sender, number_of(report, line, number), Verdict(verdict, place, tags)


def answers(report: str, sources: Sequence[Source], key_header: Sequence[str] | None = None) -> Iterator[Answer]:
    """Yields the answers of a report in its order. Raises `Fault` if it is not of these requests."""
    files = by_sender(sources)
    senders: dict[str, _OfSender] = {}
    for line, sender, number, verdict in verdicts(report):
        if sender not in senders:
            if sender not in files:
                raise Fault(f"{report}:{line}: the sender {sender} has no requests file")
            requests = _in_order([numbered_requests(source.file) for source in files[sender]])
            keys = _in_order([_keys(source, key_header) for source in files[sender]]) if key_header else None
            senders[sender] = requests, keys
        requests, keys = senders[sender]
        asked = _taken(requests, number, f"{report}:{line}", "request")
        key = _taken(keys, number, f"{report}:{line}", "key") if keys is not None else ()
        yield Answer(sender, number, Request(*asked), verdict, key)
    _want_ends(report, files, senders)


def _taken(numbered: Iterator[_Numbered], number: int, place: str, what: str) -> Sequence[str]:
    found = next(numbered, None)
    if found is None or found[0] != number:
        raise Fault(f"{place}: there is no {what} of the number {number} at its place")
    return found[1]


def _want_ends(report: str, files: dict[str, list[Source]], senders: dict[str, _OfSender]) -> None:
    """Raises `Fault` if requests have no row in the report."""
    for sender, sources in files.items():
        left = (
            senders[sender][0]
            if sender in senders
            else _in_order([numbered_requests(source.file) for source in sources])
        )
        if next(left, None) is not None:
            raise Fault(f"{report}: requests of {sender} have no row")
