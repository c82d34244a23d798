"""Chains to root of a lesser level than the table of roots shows, on which no password may be asked.

The program says of the chains of the best level whether one asks for a password, and not of those of a lesser level. So what
is said here beside its answer is cautious: where a lesser chain cannot be excluded by the names of a grant, there may be one.
"""

from collections.abc import Iterable, Mapping, Sequence
from typing import NamedTuple

from kulavemia.grants import Grant

# The levels that have a lesser one, and the passwords that each command of each chain of the level asks for.
_UPPER = ("all", "all-but")
ASKED = ("own", "other")


class Way(NamedTuple):
    """A row of the program's table: how a user becomes a target."""

    target: str
    level: str
    password: str
    place: str
    tags: str
    via: str
    depends: str

    def may_hide(self) -> bool:
        """Returns whether there may be a lesser chain of which the row says nothing."""
        return self.level in _UPPER and self.password in ASKED


def may_go_unasked(ways: Mapping[str, Sequence[Way]], free: Mapping[str, Iterable[Grant]]) -> set[str]:
    """Returns the users who may have a lesser chain without a password, by the rows and the free grants of each on a host."""
    unasked = {user for user, found in ways.items() if any(way.password not in ASKED for way in found if way.level != "root")}
    hidden = {user: [way for way in found if way.may_hide()] for user, found in ways.items() if user not in unasked}
    waiting = {user for user, found in hidden.items() if found}
    lesser: set[str] = set()
    while found := {user for user in waiting if _begins(user, hidden[user], free.get(user, ()), unasked)}:
        lesser |= found
        unasked |= found
        waiting -= found
    return lesser


def _begins(user: str, ways: Iterable[Way], free: Iterable[Grant], unasked: set[str]) -> bool:
    """Returns whether one of a user's free grants may begin a chain on which nobody is asked."""
    # A row without a user between is about the step from the user to the target too, unless it is about that step at its most.
    ends = {way.target for way in ways if way.via or way.depends}
    return any(grant.has_group() or any(grant.may_be(name) for name in (ends | unasked) - {user}) for grant in free)
