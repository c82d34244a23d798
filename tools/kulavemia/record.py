"""A page's content as JSON, for other programs. data/review.schema.json has its form."""

import json
from collections.abc import Iterable, Mapping, Sequence
from typing import Any

from kulavemia import outputs
from kulavemia.evidence import Evidence
from kulavemia.grants import Grant
from kulavemia.page import Caution, Page, Reached, Subject
from kulavemia.roots import LEVELS
from kulavemia.sums import File
from kulavemia.text import visible
from kulavemia.uses import Asked, Kind, Uses

FORMAT = "kulavemia-review/1"


def record_of(page: Page) -> dict[str, Any]:
    """Returns what a page says. Text is as the page shows it."""
    found = {
        "format": FORMAT,
        "title": page.inputs.title,
        **_evidence(page.evidence),
        "sentences": page.sentences(),
        "cautions": list(map(_caution, page.cautions)),
        "roots": roots_of(page),
        "subjects": list(map(_subject, page.subjects)),
        "changes": {changed.kind: changed.count for changed in page.changes} if page.changes is not None else None,
        "differences": _differences(page),
        "uncompared": page.inputs.uncompared or None,
        "requests": _uses(page.uses) if page.uses is not None else None,
        "rules": list(_rules(page)),
    }
    record: dict[str, Any] = shown(found)
    return record


def write(page: Page, path: str) -> None:
    """Writes what a page says."""
    with outputs.written(path) as file:
        file.write(json.dumps(record_of(page), indent=1).encode() + b"\n")


def shown(value: Any) -> Any:
    """Returns a value with each text in it as it is shown."""
    if isinstance(value, str):
        return visible(value)
    if isinstance(value, Mapping):
        return {visible(name): shown(inner) for name, inner in value.items()}
    if isinstance(value, (list, tuple)):
        return [shown(inner) for inner in value]
    return value


def programs_of(evidence: Evidence) -> list[dict[str, Any]]:
    """Returns the programs that were asked."""
    return [{"name": program.name, "version": program.version, "sha256": program.sum} for program in evidence.programs]


def _evidence(evidence: Evidence) -> dict[str, Any]:
    roles: Iterable[tuple[str, Sequence[File]]] = (
        ("policy", evidence.policy),
        ("policy before", evidence.old_policy),
        ("directory", evidence.directory),
        ("programs to probe", evidence.probed),
        ("log", [log.file for log in evidence.logs]),
    )
    return {
        "made": evidence.made._asdict(),
        "programs": programs_of(evidence),
        "files": [
            {"role": role, "path": file.path, "bytes": file.size, "sha256": file.sum or None}
            for role, files in roles
            for file in files
        ],
        "logs": [{"path": log.file.path, **log.tally._asdict()} for log in evidence.logs],
        "hosts": [host._asdict() for host in evidence.hosts],
        "missing": list(evidence.missing),
    }


def _differences(page: Page) -> dict[str, Any] | None:
    if page.differences is None:
        return None
    return {
        found.kind: {
            "count": found.count,
            "rows": [row._asdict() for row in found.rows],
            "left_out": found.count - len(found.rows),
        }
        for found in page.differences
    }


def _caution(caution: Caution) -> dict[str, Any]:
    return {
        "place": caution.place,
        "class": caution.kind,
        "text": caution.text,
        "line": caution.line,
        "answers": caution.effect.answers,
        "meaning": caution.effect.meaning,
    }


def _subject(subject: Subject) -> dict[str, Any]:
    return subject._asdict()


def roots_of(page: Page) -> dict[str, Any] | None:
    """Returns who can become root where, as a page says it, or nothing if it does not say."""
    if page.roots is None:
        return None
    return {
        "users": len(page.roots.users),
        "hosts": len(page.roots.hosts),
        "doubtful": page.roots.is_doubtful(),
        "depends": list(page.roots.depends()),
        "reached": list(map(_reached, page.reached())),
        "unreached": page.unreached(),
    }


def _reached(found: Reached) -> dict[str, Any]:
    return {
        "users": list(found.users),
        "hosts": list(found.hosts),
        "level": LEVELS[found.answer.level].name,
        "meaning": found.answer.meaning,
        "may_need_no_password": found.answer.is_unasked,
        "doubtful": found.answer.is_doubtful,
        "depends": list(found.answer.depends),
        "ways": [way._asdict() for way in found.cell.ways],
        "grants": list(map(_grant, found.grants)),
    }


def _grant(grant: Grant) -> dict[str, Any]:
    return {
        "place": grant.place,
        "runas": grant.runas,
        "denied": bool(grant.sign),
        "command": grant.command,
        "tags": grant.tags,
        "depends": grant.depends,
    }


def _uses(uses: Uses) -> dict[str, Any]:
    return {
        "count": uses.count,
        "same": uses.same,
        "failed": uses.failed,
        "denied": _kind(uses.denied),
        "allowed": _kind(uses.allowed),
        "unknown": _kind(uses.unknown),
    }


def _kind(kind: Kind) -> dict[str, Any]:
    return {"count": kind.count, "different": list(map(_asked, kind.list())), "left_out": kind.left_out}


def _asked(asked: Asked) -> dict[str, Any]:
    return {
        **asked.request._asdict(),
        "times": asked.count,
        "reason": asked.reason,
        **asked.verdict._asdict(),
        "lines": [line._asdict() for line in asked.lines],
        "notes": sorted(asked.notes),
    }


def _rules(page: Page) -> Iterable[dict[str, Any]]:
    for rule in page.rules.all() if page.rules is not None else ():
        counted = page.counts.get(rule.place)
        yield {
            "place": rule.place,
            "text": rule.text,
            "allowed": counted.allowed if counted else None,
            "denied": counted.denied if counted else None,
            "depends": page.depends.get(rule.place, ""),
        }
