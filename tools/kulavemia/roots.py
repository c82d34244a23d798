"""Who can become root where, as the program `sudo_review` says for every command: a table of users by hosts."""

from array import array
from collections.abc import Iterable, Sequence
from typing import Any, NamedTuple

from kulavemia.command import Fault
from kulavemia.depends import all_of, kinds_of, told
from kulavemia.grants import Grant, Grants
from kulavemia.lesser import ASKED, Way, may_go_unasked
from kulavemia.numbering import Numbering, runs
from kulavemia.text import visible

NONE, UNSURE, LISTED, ALL_BUT, ALL, ALL_FREE, ROOT = range(7)


class Level(NamedTuple):
    """How far a user comes on a host: the name of its colour, its mark, and what it means."""

    name: str
    mark: str
    meaning: str


LEVELS = (
    Level("none", "·", "no way to root"),
    Level("unsure", "?", "no way to root as this page reads the policy; sudo may decide otherwise"),
    Level("listed", "L", "listed commands as root"),
    Level("all-but", "B", "any command as root but listed ones"),
    Level("all", "A", "any command as root"),
    Level("all-free", "A!", "any command as root, without a password"),
    Level("root", "R", "is root: the user has the ID 0"),
)
ABSENT = "no user of this name there"
DOUBT = "sudo may decide otherwise"
UNASKED = "some of the commands may need no password"
_OF_PROGRAM = {"listed": LISTED, "all-but": ALL_BUT, "all": ALL, "root": ROOT}
_FREE = "none"


class Cell(NamedTuple):
    """How a user becomes root on a host: the ways, and the numbers of the grants there.

    Beside these whether a lesser chain may need no password, whether sudo may decide otherwise, and whether the host has no
    such user.
    """

    ways: tuple[Way, ...] = ()
    grants: tuple[int, ...] = ()
    has_lesser: bool = False
    is_doubtful: bool = False
    is_absent: bool = False

    def best(self) -> tuple[int, Way] | None:
        """Returns the level of the best way, and that way: of several, one that depends on nothing."""
        if not self.ways:
            return None
        return max(((_level_of(way), way) for way in self.ways), key=lambda found: (found[0], not found[1].depends))

    def depends(self) -> tuple[str, ...]:
        """Returns what the best level depends on, empty if it is so whatever is noted."""
        best = self.best() if any(way.depends for way in self.ways) else None
        if best is None or not best[1].depends:
            return ()
        return all_of(way.depends for way in self.ways if _level_of(way) == best[0])

    def is_unasked(self) -> bool:
        """Returns whether some of the commands may need no password, where the level does not say so."""
        best = self.best()
        if best is None or best[0] >= ALL_FREE:
            return False
        return self.has_lesser or any(way.password not in ASKED for way in self.ways)


class Answer(NamedTuple):
    """What a page shows of a cell: the level, the mark and the meaning.

    Beside these whether sudo may decide otherwise, and what the level depends on: then it is the most that may be so.
    """

    level: int
    mark: str
    meaning: str
    is_unasked: bool = False
    is_doubtful: bool = False
    depends: tuple[str, ...] = ()


class Group(NamedTuple):
    """Users who reach the same on the same hosts."""

    users: list[str]
    row: "array[int]"


def _level_of(way: Way) -> int:
    if way.level not in _OF_PROGRAM:
        raise Fault(f"the table of roots has the level {way.level}")
    level = _OF_PROGRAM[way.level]
    return ALL_FREE if level == ALL and way.password == _FREE else level


def answer_of(cell: Cell) -> Answer:
    """Returns what is shown of a cell. Where sudo may decide otherwise, no cell but root's own is sure."""
    best = cell.best()
    if cell.is_absent:
        return Answer(NONE, "", ABSENT)
    if best is None:
        level = UNSURE if cell.is_doubtful else NONE
        return Answer(level, LEVELS[level].mark, LEVELS[level].meaning, is_doubtful=cell.is_doubtful)
    level, _ = best
    doubtful, depends = level != ROOT and cell.is_doubtful, cell.depends()
    mark = ("?" if doubtful or depends else "") + LEVELS[level].mark + ("?" if cell.is_unasked() else "")
    parts = [f"perhaps {LEVELS[level].meaning}" if depends else LEVELS[level].meaning]
    if cell.is_unasked():
        parts.append(UNASKED)
    if depends:
        parts.append(f"it depends on {told(depends)}")
    if doubtful:
        parts.append(DOUBT)
    return Answer(level, mark, "; ".join(parts), cell.is_unasked(), doubtful, depends)


class Table:
    """Users by hosts, with a cell for each."""

    def __init__(self, users: Sequence[str], hosts: Sequence[str]) -> None:
        self.users = users
        self.hosts = hosts
        self.cells: Numbering[Cell] = Numbering()
        self.rows: list[array[int]] = []
        self.grants: Sequence[Grant] = ()
        self.fill(Cell())

    def fill(self, cell: Cell) -> int:
        """Puts a cell into each place, and returns its number."""
        number = self.cells.of(cell)
        self.rows = [array("I", [number]) * len(self.hosts) for _ in self.users]
        return number

    def is_doubtful(self) -> bool:
        """Returns whether sudo may decide otherwise anywhere."""
        return any(cell.is_doubtful for cell in self.cells.list())

    def depends(self) -> tuple[str, ...]:
        """Returns what any shown level depends on."""
        return all_of(kind for cell in self.cells.list() for kind in cell.depends())

    def answers(self) -> list[Answer]:
        """Returns what is shown of each cell, by its number."""
        return list(map(answer_of, self.cells.list()))

    def unreached(self) -> list[str]:
        """Returns the users who have no way to root on any host."""
        levels = [answer.level for answer in self.answers()]
        return [user for user, row in zip(self.users, self.rows) if all(levels[cell] <= UNSURE for cell in set(row))]

    def groups(self) -> list[Group]:
        """Returns the users who reach the same together, those who reach most first."""
        answers = self.answers()
        found: dict[bytes, Group] = {}
        for user, row in zip(self.users, self.rows):
            found.setdefault(row.tobytes(), Group([], row)).users.append(user)

        def reach(group: Group) -> list[int]:
            levels = [answers[cell].level for cell in group.row]
            return [-levels.count(level) for level in range(ROOT, NONE, -1)]

        return sorted(found.values(), key=reach)

    def data(self, places: Numbering[str]) -> dict[str, Any]:
        """Returns the table as the page's script reads it."""
        different: Numbering[bytes] = Numbering()
        grants: Numbering[int] = Numbering()
        row_of = [different.of(row.tobytes()) for row in self.rows]
        cells = [
            [answer.level, answer.mark, answer.meaning, _ways(cell, places), [grants.of(number) for number in cell.grants]]
            for cell, answer in zip(self.cells.list(), self.answers())
        ]
        return {
            "users": [visible(user) for user in self.users],
            "hosts": [visible(host) for host in self.hosts],
            "cells": cells,
            "rows": [runs(array("I", row)) for row in different.list()],
            "rowOf": row_of,
            "grants": [_grant(self.grants[number], places) for number in grants.list()],
        }


class Roots(Table):
    """Takes the program's rows on one policy, those of a host together, for known users and hosts."""

    def __init__(self, users: Sequence[str], hosts: Sequence[str], grants: Grants, is_doubtful: bool) -> None:
        super().__init__(users, hosts)
        self.nobody = self.fill(Cell(is_doubtful=is_doubtful))
        self.grants = grants.list
        self.grants_of = grants.of
        self.doubtful = is_doubtful
        self.user_numbers = {user: number for number, user in enumerate(users)}
        self.host_numbers = {host: number for number, host in enumerate(hosts)}
        self.free = [grant.is_free() for grant in grants.list]

    def take_all(self, rows: Iterable[Sequence[str]]) -> None:
        """Takes all rows. Raises `Fault` at a name that is not known, and at a host whose rows stand apart."""
        host, here = "", dict[int, list[Way]]()
        for user, on, *rest in rows:
            if on != host:
                self._end(host, here)
                host, here = on, {}
            if user not in self.user_numbers or on not in self.host_numbers:
                raise Fault(f"the table of roots has {user} on {on}, and the directory has not")
            here.setdefault(self.user_numbers[user], []).append(Way(*rest))
        self._end(host, here)

    def _end(self, host: str, here: dict[int, list[Way]]) -> None:
        at = self.host_numbers.get(host, 0)
        grants = {user: self.grants_of(user, at) for user in here}
        lesser = self._lesser(here, grants)
        for user, ways in here.items():
            if self.rows[user][at] != self.nobody:
                raise Fault(f"the rows of {host} in the table of roots do not stand together")
            cell = Cell(tuple(ways), grants[user], self.users[user] in lesser, self.doubtful)
            self.rows[user][at] = self.cells.of(cell)

    def _lesser(self, here: dict[int, list[Way]], grants: dict[int, tuple[int, ...]]) -> set[str]:
        """Returns the users who may have a lesser chain without a password on a host."""
        free = {
            self.users[user]: [self.grants[number] for number in numbers if self.free[number]]
            for user, numbers in grants.items()
            if any(way.may_hide() for way in here[user])
        }
        return may_go_unasked({self.users[user]: ways for user, ways in here.items()}, free)


def _ways(cell: Cell, places: Numbering[str]) -> list[list[Any]]:
    found = []
    for way in cell.ways:
        place = places.of(way.place) if way.place else -1
        shown = [*map(visible, (way.target, way.level, way.password)), place, way.tags, visible(way.via)]
        found.append(shown + _depends(way.depends))
    return found


def _grant(grant: Grant, places: Numbering[str]) -> list[Any]:
    shown = [places.of(grant.place), visible(grant.runas), grant.sign, visible(grant.command), grant.tags]
    return shown + _depends(grant.depends)


def _depends(depends: str) -> list[str]:
    """Returns what something depends on as a further field, none where it depends on nothing: so most of a page's rows end."""
    return [visible(told(kinds_of(depends)))] if depends else []
