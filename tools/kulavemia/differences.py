"""What a change of a policy does to every command: rows of `sudo_review compare`, as people open them.

A row of the kind `may` is not settled: some command may be answered otherwise there, also where that depends on what is not
judged.
"""

import re
import subprocess
from collections import Counter
from collections.abc import Iterator
from dataclasses import dataclass, field
from typing import NamedTuple

from kulavemia import outputs
from kulavemia.answers import Verdict
from kulavemia.command import Fault
from kulavemia.compare import CHANGES, MAY, kind_of
from kulavemia.review import COMPARE, HEADERS, Asked, without
from kulavemia.rows import header_of
from kulavemia.shown import shown_records

KINDS = CHANGES
# More is allowed, or may be.
GAINS = ("gained", "gained and lost", MAY)
# Seconds after which a comparison is given up.
LIMIT = 600.0
_REFUSES = "sudo_review compare refuses a form of rules"
# So the program names a form that it does not read.
_UNREAD = re.compile(r":[0-9]+: unsupported (?:option|digest)$")


class Difference(NamedTuple):
    """What is answered otherwise to some users on some hosts: a command with both answers, or the rows that may differ."""

    users: str
    hosts: str
    runas_user: str
    runas_group: str
    answer: str
    command: str
    arguments: str
    old: str
    old_place: str
    old_tags: str
    new: str
    new_place: str
    new_tags: str
    depends: str = ""

    def kind(self) -> str:
        """Returns the kind of change: that of a request with these answers, or `may`."""
        if self.answer == MAY:
            return MAY
        before = Verdict(self.old, self.old_place, self.old_tags)
        found = kind_of(before, Verdict(self.new, self.new_place, self.new_tags))
        if found is None:
            raise Fault(f"the table of {COMPARE} has a row that changes nothing")
        return found


class Uncompared(Exception):
    """Says why what a policy changes was not judged for every command."""


def write(old: Asked, new: Asked, path: str, limit: float = LIMIT) -> Counter[str]:
    """Writes what a policy changes since another one, and returns how many rows of each kind there are.

    Raises `Uncompared`, and writes no table, if the program needs more seconds than the limit, or refuses what it does not
    judge. Raises `Fault` if it refuses otherwise.
    """
    counts: Counter[str] = Counter()
    try:
        with outputs.written(path) as file:
            file.write(new.form.head(HEADERS[COMPARE]).encode())
            for row in map(Difference._make, new.compared(old, limit)):
                counts[row.kind()] += 1
                file.write(new.form.row(_without_roots(row, old, new)).encode())
    except subprocess.TimeoutExpired:
        raise Uncompared(f"that takes more than {limit / 60:.0f} minutes") from None
    except Fault as fault:
        if _UNREAD.search(str(fault)) is None:
            raise
        raise Uncompared(f"{_REFUSES} ({_said(fault, old)})") from None
    return counts


def _said(fault: Fault, old: Asked) -> str:
    """Returns the program's line on one of the policies, with the path of the file as it is on its own machine."""
    if not old.policy.root or old.policy.root not in str(fault):
        return str(fault)
    return f"{without(old.policy.root, str(fault))}, in the policy before"


def _without_roots(row: Difference, old: Asked, new: Asked) -> Difference:
    return row._replace(
        old_place=row.old_place.removeprefix(old.policy.root), new_place=row.new_place.removeprefix(new.policy.root)
    )


def read(path: str) -> Iterator[Difference]:
    """Yields the rows of a table; earlier ones have no column `depends`."""
    *earlier, _ = HEADERS[COMPARE]
    for _, fields in shown_records(path, earlier if header_of(path) == earlier else HEADERS[COMPARE]):
        yield Difference(*fields)


@dataclass
class Differences:
    """The rows of one kind: how many there are, and the first of them."""

    kind: str
    count: int = 0
    rows: list[Difference] = field(default_factory=list)


def by_kind(path: str, shown: int) -> list[Differences]:
    """Returns the rows of a table by kind, of each kind so many."""
    found = {kind: Differences(kind) for kind in KINDS}
    for row in read(path):
        of_kind = found[row.kind()]
        of_kind.count += 1
        if len(of_kind.rows) < shown:
            of_kind.rows.append(row)
    return list(found.values())
