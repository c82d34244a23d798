"""A page of a fleet as evidence: its content as JSON, the sums of all that stands behind it, and a signature.

data/fleet.schema.json has the form of the JSON. The three files stand beside the page.
"""

import json
import os
from collections.abc import Iterator, Sequence
from typing import Any

from kulavemia import fleet_evidence, outputs, review, signing
from kulavemia.command import WORDS, Fault
from kulavemia.evidence import age, at
from kulavemia.fleet_evidence import Input
from kulavemia.fleet_review import DIGEST, REVIEWED, ROOTS, Reviewed
from kulavemia.fleet_table import FleetTable, Noted
from kulavemia.fleet_work import DONE, HOSTS, USERS
from kulavemia.netgroups import NETGROUPS
from kulavemia.page import Page
from kulavemia.page import write as write_page
from kulavemia.record import programs_of, roots_of, shown

FORMAT = "kulavemia-fleet/1"
RECORD = "review.json"
_BESIDE = (RECORD, signing.SUMS, signing.SIGNATURE)
_TABLES = (review.CAUTIONS, review.GRANTS, review.ROOTS, review.SUBJECTS)
_FILES = (DIGEST, fleet_evidence.FILES, fleet_evidence.MISSING, HOSTS, USERS, *(f"{name}.csv" for name in _TABLES))


def record_of(page: Page, fleet: FleetTable) -> dict[str, Any]:
    """Returns what a page of a fleet says. Text is as the page shows it."""
    found = {
        "format": FORMAT,
        "title": page.inputs.title,
        "made": page.evidence.made._asdict(),
        "programs": programs_of(page.evidence),
        "hosts": [_host(host, fleet, page.now) for host in fleet.reviewed],
        "sentences": page.sentences(),
        "cautions": [_caution(note) for note in fleet.cautions],
        "roots": roots_of(page),
        "subjects": [_subject(note) for note in fleet.subjects],
        "several_ids": [{"user": user, "ids": list(ids)} for user, ids in fleet.ids.items()],
    }
    record: dict[str, Any] = shown(found)
    return record


def _host(host: Reviewed, fleet: FleetTable, now: float) -> dict[str, Any]:
    """Returns a host: whether it is on the page, when its users were gathered, and of which files."""
    read = [one for one in fleet.inputs.get(host.host, ()) if one.role != fleet_evidence.PROGRAM]
    return {
        "name": host.host,
        "status": host.status,
        "fault": host.fault,
        "users": host.users,
        "gathered": at(host.gathered),
        "age": age(host.gathered, now),
        "files": list(map(_file, read)),
        "missing": list(fleet.missing.get(host.host, ())),
    }


def _file(read: Input) -> dict[str, Any]:
    return {"role": read.role, "path": read.file.path, "bytes": read.file.size, "sha256": read.file.sum}


def _caution(note: Noted) -> dict[str, Any]:
    return {
        "class": note.kind,
        "text": note.text,
        "answers": note.answers,
        "meaning": note.meaning,
        "hosts": list(note.hosts),
    }


def _subject(note: Noted) -> dict[str, Any]:
    return {"kind": note.kind, "name": note.text, "what": note.meaning, "hosts": list(note.hosts)}


def want_place(path: str, key: str | None) -> None:
    """Raises `Fault` if a page can't stand at a path beside its evidence, or can't be signed."""
    if os.path.basename(path) in _BESIDE:
        raise Fault(f"{path}: the page's evidence gets this name: name another file", WORDS)
    if key is not None and outputs.is_stream(path):
        raise Fault(f"{path}: a page that is signed is a file", WORDS)
    if key is not None:
        signing.want_keygen()


def write(page: Page, path: str, key: str | None) -> None:
    """Writes a page with its evidence beside it, in a folder that is locked."""
    assert page.fleet is not None
    folder = os.path.dirname(path) or "."
    write_page(page, path)
    with outputs.written(os.path.join(folder, RECORD)) as file:
        file.write(json.dumps(record_of(page, page.fleet), indent=1).encode() + b"\n")
    names = [os.path.basename(path), RECORD, *_tables(page.inputs.fleet, page.fleet.reviewed, folder)]
    signing.write_signature(folder, signing.write_sums(folder, names), key)


def _tables(out: str, reviewed: Sequence[Reviewed], folder: str) -> Iterator[str]:
    """Yields the files behind the page by their names below its folder, if that is the fleet's."""
    if not os.path.samefile(out, folder):
        return
    yield REVIEWED
    for host in reviewed:
        if host.status == DONE:
            yield from (f"{ROOTS}/{host.host}/{name}" for name in _FILES)
            if os.path.exists(os.path.join(out, ROOTS, host.host, NETGROUPS)):
                yield f"{ROOTS}/{host.host}/{NETGROUPS}"
