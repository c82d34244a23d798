"""Users, groups, hosts and commands that the program and the peer both see.

A text has a character for each byte. Commands are files below a case's folder, which is the peer's current one; no two
have the same last name, since testsudoers takes files of one last name for one file.
"""

import os
from typing import NamedTuple

from kulavemia.rows import row

ENCODING = "latin-1"
TOP = "/proc/self/cwd"
POLICY, USERS, HOSTS, REQUESTS, PASSWD, GROUP = "policy", "users.csv", "hosts.csv", "requests.csv", "passwd", "group"
REQUESTS_HEADER = ("number", "user", "host", "runas_user", "runas_group", "command", "arguments")


class User(NamedTuple):
    """A user, and the names of its groups, the primary one first."""

    name: str
    number: int
    groups: tuple[str, ...]


class Host(NamedTuple):
    """A host: its interfaces as the hosts file has them, and those that are not the loopback interface."""

    name: str
    interfaces: str
    addresses: str


class Request(NamedTuple):
    """Who asks, where, and for what."""

    user: str
    host: str
    runas_user: str
    runas_group: str
    command: str
    arguments: str


GROUP_NUMBERS = {
    "root": 0,
    "adm": 4,
    "postgres": 33,
    "operator": 37,
    "Staff": 50,
    "alice": 1000,
    "bob": 1001,
    "domain users": 5000,
    "EXAMPLEdomain admins": 6000,
    "EXAMPLE\\domain admins": 6001,
}
USERS_KNOWN = (
    User("root", 0, ("root",)),
    User("alice", 1000, ("alice", "adm", "domain users")),
    User("bob", 1001, ("bob", "EXAMPLEdomain admins")),
    User("operator", 11, ("operator",)),
    User("postgres", 33, ("postgres", "EXAMPLE\\domain admins")),
    User("Carol", 1006, ("Staff",)),
    User("al\\ice", 1003, ("adm",)),
    User("bo\\x62", 1004, ("operator", "adm")),
    User("a b", 1007, ("domain users",)),
    User("\xc3\xa9ric", 1005, ("Staff", "operator")),
)
HOSTS_KNOWN = (
    Host("web1.example.org", "10.1.2.3/16 127.0.0.1/8", "10.1.2.3/255.255.0.0"),
    Host("web2.example.org", "10.2.0.9/24 127.5.0.1/8", "10.2.0.9/255.255.255.0 127.5.0.1/255.0.0.0"),
    Host("Web3", "192.168.7.1/30", "192.168.7.1/255.255.255.252"),
    Host("db.example.org", "", ""),
    Host("web?", "10.1.9.9/16", "10.1.9.9/255.255.0.0"),
    Host("a\\b", "", ""),
)
FILES = (
    "b/ls",
    "b/cat",
    "b/l*",
    "b/a b",
    "b/l=s",
    "b/c,d",
    "b/x:y",
    "b/h#1",
    "b/\xc3\xa9d",
    "b/q[r",
    "b/.hid",
    "b/w]",
    "b/x/id",
    "b/x/su",
    "b/x/s^t",
    "s/sh",
    "s/l!m",
)
COMMANDS = tuple(f"{TOP}/{name}" for name in FILES)
GONE = f"{TOP}/b/gone"


def lower(name: str) -> str:
    """Returns a name with its ASCII letters in lower case."""
    return name.encode(ENCODING).lower().decode(ENCODING)


def users(is_lower: bool) -> list[User]:
    """Returns the users, with all names in lower case if that is wanted."""
    if not is_lower:
        return list(USERS_KNOWN)
    return [User(lower(name), number, tuple(map(lower, groups))) for name, number, groups in USERS_KNOWN]


def write(folder: str, is_lower: bool = False) -> None:
    """Writes all but the policy and the requests into a folder, with all names of users in lower case if that is wanted."""
    known = users(is_lower)
    numbers = {lower(group) if is_lower else group: number for group, number in GROUP_NUMBERS.items()}
    for name in FILES:
        path = os.path.join(folder, name).encode(ENCODING)
        os.makedirs(os.path.dirname(path), exist_ok=True)
        with open(path, "wb"):
            pass
    members: dict[str, list[str]] = {group: [] for group in numbers}
    for user in known:
        for group in user.groups[1:]:
            members[group].append(user.name)
    rows = [(user.name, str(user.number), str(numbers[group]), group) for user in known for group in user.groups]
    _write(folder, USERS, [row(fields) for fields in [("user", "uid", "gid", "group"), *rows]])
    _write(folder, HOSTS, [row(fields) for fields in [("host", "interfaces"), *(host[:2] for host in HOSTS_KNOWN)]])
    passwd = [f"{user.name}:x:{user.number}:{numbers[user.groups[0]]}::/:/bin/sh\n" for user in known]
    _write(folder, PASSWD, passwd)
    _write(folder, GROUP, [f"{group}:x:{numbers[group]}:{','.join(names)}\n" for group, names in members.items()])


def write_requests(folder: str, requests: list[Request]) -> None:
    """Writes the requests, numbered from 1."""
    rows = [row(REQUESTS_HEADER), *(row((str(number), *asked)) for number, asked in enumerate(requests, 1))]
    _write(folder, REQUESTS, [*rows, f"close,{len(requests)},,,,,\n"])


def _write(folder: str, name: str, lines: list[str]) -> None:
    with open(os.path.join(folder, name), "w", encoding=ENCODING, newline="") as file:
        file.writelines(lines)


def addresses_of(name: str) -> str:
    """Returns the addresses of a host, as the peer reads them."""
    return next(host.addresses for host in HOSTS_KNOWN if host.name == name)


def interfaces_of(name: str) -> str:
    """Returns the interfaces of a host, as the hosts file has them."""
    return next(host.interfaces for host in HOSTS_KNOWN if host.name == name)
