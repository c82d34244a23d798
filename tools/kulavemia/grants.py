"""The grants of a policy, and which of them are for a user on a host."""

import re
from collections.abc import Iterable, Sequence
from typing import NamedTuple

from kulavemia.command import Fault
from kulavemia.numbering import Numbering

ALL = "ALL"
NO_PASSWORD = "NOPASSWD"
ROOT = "root"
# The targets of a command that runs as the user who asks.
OWN = "()"
# A name as it would stand in a policy: between quotes, or with escapes.
_NAME = re.compile(r'(?:"([^"]*)"|((?:\\.|[^\\",])+))(?:, |$)', re.DOTALL)
_ESCAPE = re.compile(r"\\(?:x([0-9a-f]{2})|(.))", re.DOTALL)
# Targets that are users by their names alone.
_USERS = re.compile(r"\(([A-Za-z0-9_][A-Za-z0-9_.-]*(?:, [A-Za-z0-9_][A-Za-z0-9_.-]*)*)\)")


class Grant(NamedTuple):
    """A row of the program's table, without the users and hosts that it is for."""

    place: str
    runas: str
    sign: str
    command: str
    tags: str
    depends: str

    def is_free(self) -> bool:
        """Returns whether the command is allowed without a password."""
        return not self.sign and NO_PASSWORD in self.tags.split()

    def has_group(self) -> bool:
        """Returns whether a group to run with may be asked for."""
        return ":" in self.runas

    def may_be(self, user: str) -> bool:
        """Returns whether the command may run as another user: yes where the targets are not listed by their names alone."""
        if not self.runas:
            return user == ROOT
        listed = _USERS.fullmatch(self.runas)
        names = listed[1].split(", ") if listed else [ALL]
        return self.runas != OWN and (user in names or ALL in names)


def names_of(text: str) -> list[str]:
    """Returns the names of a list, as a policy would have it."""
    found, at = [], 0
    while at < len(text):
        match = _NAME.match(text, at)
        if match is None:
            raise Fault(f"{text[:200]} is no list of names of a table of grants")
        found.append(match[1] if match[2] is None else _ESCAPE.sub(_character, match[2]))
        at = match.end()
    return found


def _character(match: re.Match[str]) -> str:
    return chr(int(match[1], 16)) if match[1] else match[2]


class _Listed:
    """Which lists of users, or of hosts, each known one is in. Those in the same lists are of one class."""

    def __init__(self, names: Sequence[str], lists: Iterable[str]) -> None:
        numbers = {name: number for number, name in enumerate(names)}
        of_name: list[list[int]] = [[] for _ in names]
        for at, text in enumerate(lists):
            for name in names if text == ALL else names_of(text):
                if name not in numbers:
                    raise Fault(f"the table of grants has the name {name}, and the directory has not")
                of_name[numbers[name]].append(at)
        self.classes: Numbering[tuple[int, ...]] = Numbering()
        self.class_of = [self.classes.of(tuple(found)) for found in of_name]
        self.lists_of = self.classes.list()


class Grants:
    """The grants of a policy in its order, for known users and hosts."""

    def __init__(self, rows: Iterable[Sequence[str]], users: Sequence[str], hosts: Sequence[str]) -> None:
        self.list: list[Grant] = []
        user_lists: Numbering[str] = Numbering()
        host_lists: Numbering[str] = Numbering()
        self.host_list_of: list[int] = []
        self.of_user_list: dict[int, list[int]] = {}
        for place, to, on, *rest in rows:
            self.of_user_list.setdefault(user_lists.of(to), []).append(len(self.list))
            self.host_list_of.append(host_lists.of(on))
            self.list.append(Grant(place, *rest))
        self.users = _Listed(users, user_lists.list())
        self.hosts = _Listed(hosts, host_lists.list())
        self.found: dict[tuple[int, int], tuple[int, ...]] = {}

    def of(self, user: int, host: int) -> tuple[int, ...]:
        """Returns the numbers of the grants for a user on a host, in the policy's order; both by their numbers."""
        key = self.users.class_of[user], self.hosts.class_of[host]
        if key not in self.found:
            here = set(self.hosts.lists_of[key[1]])
            numbers = [number for at in self.users.lists_of[key[0]] for number in self.of_user_list[at]]
            self.found[key] = tuple(number for number in sorted(numbers) if self.host_list_of[number] in here)
        return self.found[key]
