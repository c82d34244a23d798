"""The changes between two audits of the same requests."""

import contextlib
from collections import Counter
from collections.abc import Iterator, Mapping, Sequence
from typing import IO, NamedTuple

from kulavemia import outputs
from kulavemia.answers import ALLOW, DEPENDS, Answer, Verdict, answers, verdicts
from kulavemia.command import Fault
from kulavemia.requests import HEADER, Source
from kulavemia.rows import as_text
from kulavemia.shown import Form

# It is not settled whether there is a change.
MAY = "may"
CHANGES = ("gained", "gained and lost", "lost", "other", MAY)
GAINS = ("gained", "gained and lost")
CHANGE_HEADER = (
    "change",
    "sender",
    "number",
    *HEADER[1:],
    "old_verdict",
    "new_verdict",
    "old_tags",
    "new_tags",
    "old_place",
    "new_place",
)

# The warning about a caution on one of the two policies alone.
UNLIKE = "only one of the policies has this, and no change that is listed shows what sudo makes of it"
UNLIKE_SHOWN = 20
# Tags that free a grant, and tags that bind it.
_FREEING = frozenset(("NOPASSWD", "SETENV", "FOLLOW"))
_BINDING = frozenset(("NOEXEC", "INTERCEPT"))


class Change(NamedTuple):
    """A request whose verdict or tags differ."""

    kind: str
    old: Answer
    new: Verdict


def _freedoms(tags: str) -> frozenset[str]:
    words = frozenset(tags.split())
    return (words & _FREEING) | frozenset(f"not {tag}" for tag in _BINDING - words)


def kind_of(old: Verdict, new: Verdict) -> str | None:
    """Returns which change there is, or `None` if verdict and tags are the same.

    An answer that depends may be to allow where it comes, and to deny where it was; where it was and is, either may be.
    """
    if old.verdict == new.verdict == DEPENDS:
        return MAY
    if (old.verdict, old.tags) == (new.verdict, new.tags):
        return None
    if DEPENDS in (old.verdict, new.verdict):
        # It may be a change for the worse.
        return "gained" if new.verdict == ALLOW or new.verdict == DEPENDS and old.verdict != ALLOW else "lost"
    if old.verdict != ALLOW and new.verdict != ALLOW:
        return "other"
    if old.verdict != ALLOW or new.verdict != ALLOW:
        return "gained" if new.verdict == ALLOW else "lost"
    before, after = _freedoms(old.tags), _freedoms(new.tags)
    if after - before:
        return "gained and lost" if before - after else "gained"
    return "lost" if before - after else "other"


def changes(old: str, new: str, sources: Sequence[Source]) -> Iterator[Change]:
    """Yields the changes between two reports of the same requests, in their order."""
    after = verdicts(new)
    for answer in answers(old, sources):
        found = next(after, None)
        if found is None:
            raise Fault(f"{new}: no row for request {answer.number} of {answer.sender}")
        line, sender, number, verdict = found
        if (sender, number) != (answer.sender, answer.number):
            raise Fault(
                f"{new}:{line}: request {number} of {sender}, and {old} has request {answer.number} of"
                f" {answer.sender} there"
            )
        kind = kind_of(answer.verdict, verdict)
        if kind is not None:
            yield Change(kind, answer, verdict)
    further = next(after, None)
    if further is not None:
        raise Fault(f"{new}:{further[0]}: request {further[2]} of {further[1]} has no row in {old}")


def _fields(change: Change) -> tuple[str, ...]:
    old, new = change.old.verdict, change.new
    return (
        change.kind,
        change.old.sender,
        str(change.old.number),
        *change.old.request,
        old.verdict,
        new.verdict,
        old.tags,
        new.tags,
        old.place,
        new.place,
    )


def told(counts: Mapping[str, int]) -> str:
    """Returns how many changes of each kind there are; what is not settled is told where there is some."""
    return ", ".join(f"{counts.get(kind, 0)} {kind}" for kind in CHANGES if kind != MAY or counts.get(kind, 0))


def warnings(unlike: Sequence[str]) -> list[str]:
    """Returns the warnings about cautions on one of the two policies alone: the first twenty, and the number of the others."""
    left = len(unlike) - UNLIKE_SHOWN
    more = [f"{left} more constructs are in one of the policies alone"] if left > 0 else []
    return [f"{line}: {UNLIKE}" for line in unlike[:UNLIKE_SHOWN]] + more


def write(found: Iterator[Change], out: IO[str], form: Form = Form()) -> Counter[str]:
    """Writes the changes, each kind apart in the order of `CHANGES`, and returns how many of each there are."""
    counts: Counter[str] = Counter()
    with contextlib.ExitStack() as stack:
        parts = {kind: as_text(stack.enter_context(outputs.scratch())) for kind in CHANGES}
        for change in found:
            counts[change.kind] += 1
            parts[change.kind].write(form.row(_fields(change)))
        out.write(form.head(CHANGE_HEADER))
        for part in parts.values():
            part.seek(0)
            out.writelines(part)
    return counts
