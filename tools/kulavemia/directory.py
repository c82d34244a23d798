"""Users with their groups, and hosts with their addresses."""

import contextlib
import grp
import ipaddress
import json
import os
import pwd
import shutil
import socket
import subprocess
from collections.abc import Iterable, Iterator, Mapping
from typing import Any, NamedTuple

from kulavemia import foreign, limits, netgroups, outputs
from kulavemia.command import Fault, line_of, warn
from kulavemia.hostname import NO_NAME, is_name
from kulavemia.netgroups import Triple
from kulavemia.rows import as_text, header_of, records, write_rows
from kulavemia.unknown import folded

USERS_HEADER = ("user", "uid", "groups")
HOSTS_HEADER = ("host", "interfaces")
MEMBERSHIPS_HEADER = ("user", "uid", "gid", "group")
# What tools/gather writes beside the folders of hosts.
GATHERED = "status.csv"
_ID_LIMIT = 1 << 32


class Group(NamedTuple):
    """A group; one without a name has its number behind a `#` for it."""

    name: str
    gid: int

    @property
    def word(self) -> str:
        """Returns the group as a list of groups has it."""
        return f"{self.name}:{self.gid}"

    @property
    def fits_a_list(self) -> bool:
        """Returns whether a list of groups can hold the group."""
        return " " not in self.name and ":" not in self.name


class Person(NamedTuple):
    """A user with groups, the primary group first."""

    name: str
    uid: int
    groups: tuple[Group, ...]


class Machine(NamedTuple):
    """A host with interfaces as `ADDRESS/BITS`."""

    name: str
    interfaces: tuple[str, ...]


class Host(NamedTuple):
    """The copied files of a host; there are no netgroups where none were copied."""

    folder: str
    people: list[Person]
    machine: Machine
    netgroups: list[Triple] | None


class _Place(NamedTuple):
    """Where the files of a host are: a folder, the one below which nothing is followed, and the host's own name."""

    folder: str
    below: str
    name: str


class Account(NamedTuple):
    """A line of a passwd file."""

    name: str
    uid: int
    gid: int


class Groups:
    """The groups of a machine, and who is in each."""

    def __init__(self) -> None:
        self.names: dict[int, str] = {}
        self.of_user: dict[str, list[int]] = {}

    def add(self, name: str, gid: int, members: Iterable[str]) -> None:
        """Adds a group; of several names of one ID the first counts."""
        self.names.setdefault(gid, name)
        for member in members:
            self.of_user.setdefault(member, []).append(gid)

    def person(self, account: Account, gids: Iterable[int] | None = None) -> Person:
        """Returns the user of an account, with these further groups or those that name him."""
        further = self.of_user.get(account.name, ()) if gids is None else gids
        found = dict.fromkeys((account.gid, *further))
        return Person(account.name, account.uid, tuple(Group(self.names.get(gid) or f"#{gid}", gid) for gid in found))


def _unique(accounts: Iterable[Account], place: str) -> list[Account]:
    """Returns the first account of each name."""
    found: dict[str, Account] = {}
    for account in accounts:
        if account.name not in found:
            found[account.name] = account
        elif found[account.name] != account:
            warn(f"{place}: user {account.name} stands twice; the first counts")
    return list(found.values())


def of_this_machine(names: Iterable[str]) -> tuple[list[Person], list[Machine]]:
    """Returns this machine's users, these among them, and its host."""
    entries = pwd.getpwall()
    listed = {entry.pw_name for entry in entries}
    further = [_looked_up(name) for name in names if name not in listed]
    groups = Groups()
    for group in grp.getgrall():
        groups.add(group.gr_name, group.gr_gid, group.gr_mem)
    accounts = _unique((Account(entry.pw_name, entry.pw_uid, entry.pw_gid) for entry in entries), "this machine")
    people = [groups.person(account) for account in accounts]
    for entry in further:
        gids = os.getgrouplist(entry.pw_name, entry.pw_gid)
        _name_groups(groups, gids)
        people.append(groups.person(Account(entry.pw_name, entry.pw_uid, entry.pw_gid), gids))
    return people, [Machine(_own_name(), _own_addresses())]


def _own_name() -> str:
    """Returns this machine's name with its domain, where it has one."""
    name = socket.gethostname()
    try:
        return socket.getaddrinfo(name, None, flags=socket.AI_CANONNAME)[0][3] or name
    except OSError:
        return name


def _looked_up(name: str) -> pwd.struct_passwd:
    try:
        return pwd.getpwnam(name)
    except KeyError:
        raise Fault(f"--user {name}: this machine knows no such user") from None


def _name_groups(groups: Groups, gids: Iterable[int]) -> None:
    """Looks up the names of groups that the machine does not list."""
    for gid in gids:
        if gid not in groups.names:
            try:
                groups.names[gid] = grp.getgrgid(gid).gr_name
            except KeyError:
                continue


def _own_addresses() -> tuple[str, ...]:
    if shutil.which("ip") is None:
        warn("this machine has no command ip: its host is written without addresses")
        return ()
    done = subprocess.run(["ip", "-j", "addr"], stdout=subprocess.PIPE, check=False)
    if done.returncode != 0:
        raise Fault(f"ip -j addr ended with status {done.returncode}")
    return _addresses(done.stdout.decode("utf-8", "surrogateescape"), "ip -j addr")


def _addresses(text: str, place: str) -> tuple[str, ...]:
    """Returns the IPv4 addresses of what `ip -j addr` writes."""
    try:
        links = json.loads(text) if text.strip() else []
        found = [_address(info) for link in links for info in link.get("addr_info", ()) if info.get("family") == "inet"]
    except (ValueError, AttributeError, KeyError, TypeError, OverflowError, RecursionError) as error:
        raise Fault(f"{place}: not what ip -j addr writes: {error}") from None
    return tuple(dict.fromkeys(found))


def _address(info: Mapping[str, Any]) -> str:
    address, bits = ipaddress.IPv4Address(info["local"]), int(info["prefixlen"])
    if not 0 <= bits <= 32:
        raise ValueError(f"{bits} bits")
    return f"{address}/{bits}"


def collected(source: str) -> list[Host]:
    """Returns the hosts whose files a folder has, in the order of their names. Raises `Fault` if two have one name."""
    hosts = [_host(*place) for place in _places(source)]
    for fault in _clashes_of_names(source, {host.folder: host.machine.name for host in hosts}).values():
        raise fault
    return hosts


def each(source: str) -> Iterator[Host | Fault]:
    """Yields the hosts whose files a folder has, one after the other, and for one that is refused why: the others go on."""
    places = _places(source)
    names: dict[str, str] = {}
    for place in places:
        with contextlib.suppress(Fault, OSError):
            names[place.name] = host_name(*place)
    faults = _clashes_of_names(source, names)
    for place in places:
        try:
            yield faults.get(place.name) or _host(*place)
        except (Fault, OSError) as error:
            yield Fault(line_of(error))


def _places(source: str) -> list[_Place]:
    """Returns where the files of hosts are, in the order of the folders' names. Raises `Fault` if there are none."""
    if foreign.exists(os.path.join(source, "passwd"), source):
        return [_Place(source, source, os.path.basename(os.path.abspath(source)))]
    found = [entry for entry in foreign.entries(source) if not _is_no_host(entry.name)]
    names = [entry.name for entry in found if _may_be_host(source, entry)]
    if not names:
        raise Fault(f"{source}: no passwd and no HOST/passwd is there")
    for entry in found:
        if entry.name not in names:
            warn(f"{os.path.join(source, entry.name)} has no passwd: passed over")
    return [_Place(os.path.join(source, name), source, name) for name in names]


def _is_no_host(name: str) -> bool:
    return name.startswith(".") or name == GATHERED


def _may_be_host(source: str, entry: foreign.Entry) -> bool:
    """Returns whether an entry is a folder that has a passwd, or neither a folder nor a file, as which it is refused."""
    if entry.kind != foreign.FOLDER:
        return entry.kind != foreign.FILE
    try:
        return foreign.exists(os.path.join(source, entry.name, "passwd"), source)
    except OSError:
        # What is wrong is said where the file is read.
        return True


def _clashes_of_names(source: str, names: Mapping[str, str]) -> dict[str, Fault]:
    """Returns why folders are refused whose hosts have one name, by folders with the names of their hosts.

    A folder stands if it alone is called so: a host can call itself what it likes, and is to stop no other.
    """
    folders: dict[bytes, list[str]] = {}
    for folder, host in names.items():
        folders.setdefault(folded(host), []).append(folder)
    faults: dict[str, Fault] = {}
    for name, found in folders.items():
        called = [folder for folder in found if name.partition(b".")[0] == folded(folder) or name == folded(folder)]
        for folder in found if len(found) > 1 else ():
            if called != [folder]:
                first, second = (found[0], folder) if folder != found[0] else found[:2]
                places = f"{os.path.join(source, first)} and {os.path.join(source, second)}"
                faults[folder] = Fault(f"{places} are both of the host {names[second]}")
    return faults


def _host(folder: str, below: str, name: str) -> Host:
    groups = Groups()
    for fields in _lines(os.path.join(folder, "group"), below, 4, slice(2, 3)):
        groups.add(fields[0], int(fields[2]), filter(None, fields[3].split(",")))
    found = (
        Account(fields[0], int(fields[2]), int(fields[3]))
        for fields in _lines(os.path.join(folder, "passwd"), below, 7, slice(2, 4))
    )
    people = [groups.person(account) for account in _unique(found, folder)]
    machine = Machine(host_name(folder, below, name), _copied_addresses(folder, below))
    return Host(name, people, machine, netgroups.collected(folder, below))


def _lines(path: str, below: str, count: int, numbers: slice) -> Iterator[list[str]]:
    """Yields the lines of a passwd or group file as their fields. Raises `Fault` at one of another form."""
    with foreign.opened(path, foreign.ACCOUNTS_CAP, below) as file:
        for line, text in enumerate(as_text(file), 1):
            text = text.rstrip("\r\n")
            if not text or text.startswith(("#", "+", "-")):
                if text.startswith(("+", "-")):
                    warn(f"{path}:{line}: {text[:40]}: what other databases hold is not followed")
                continue
            fields = text.split(":")
            if len(fields) != count or not fields[0] or not all(_is_id(number) for number in fields[numbers]):
                raise Fault(f"{path}:{line}: not a line of such a file")
            yield fields


def _is_id(text: str) -> bool:
    return text.isascii() and text.isdecimal() and len(text) < 20 and int(text) < _ID_LIMIT


def host_name(folder: str, below: str, name: str) -> str:
    """Returns the name of a host by its file `hostname`, or that of its folder where it has none."""
    path = os.path.join(folder, "hostname")
    if not foreign.exists(path, below):
        return name
    written = os.fsdecode(foreign.read(path, foreign.NAME_CAP, below)).partition("\n")[0].strip()
    if not written:
        raise Fault(f"{path}:1: no name")
    return written


def hostname_of(folder: str, below: str, name: str) -> str:
    """Returns the name of a host as `host_name` does, for `%h` in its policy. Raises `Fault` at one that is no such name."""
    found = host_name(folder, below, name)
    if not is_name(found):
        raise Fault(f"its policy has %h, and {found} {NO_NAME}")
    return found


def _copied_addresses(folder: str, below: str) -> tuple[str, ...]:
    path = os.path.join(folder, "addr.json")
    if not foreign.exists(path, below):
        warn(f"{path} is not there: the host is written without addresses")
        return ()
    return _addresses(os.fsdecode(foreign.read(path, foreign.ADDRESSES_CAP, below)), path)


def merged(hosts: Iterable[Host]) -> list[Person]:
    """Returns the users of all hosts. Raises `Fault` if hosts say different things of a user or a group."""
    found: dict[str, tuple[Person, str]] = {}
    names: dict[str, tuple[int, str]] = {}
    gids: dict[int, tuple[str, str]] = {}
    differences: list[str] = []
    for host in hosts:
        for person in host.people:
            first, place = found.setdefault(person.name, (person, host.folder))
            if (
                first.uid != person.uid
                or first.groups[:1] != person.groups[:1]
                or set(first.groups) != set(person.groups)
            ):
                differences.append(f"user {person.name} of {place} and of {host.folder} differ")
            for group in person.groups:
                differences.extend(_clashes(names, gids, group, host.folder))
    if differences:
        more = f" (and {len(differences) - 1} more)" if len(differences) > 1 else ""
        raise Fault(f"{differences[0]}{more}; --each writes the files of each host apart")
    return [person for person, _ in found.values()]


def _clashes(
    names: dict[str, tuple[int, str]], gids: dict[int, tuple[str, str]], group: Group, folder: str
) -> Iterator[str]:
    gid, of_name = names.setdefault(group.name, (group.gid, folder))
    name, of_gid = gids.setdefault(group.gid, (group.name, folder))
    for clashes, place in ((gid != group.gid, of_name), (name != group.name, of_gid)):
        if clashes:
            yield f"group {group.name} ({group.gid}) of {folder} is another one on {place}"


def users_in(path: str) -> dict[str, str]:
    """Returns the users of a users file with their IDs, whether it has a row for a user or for a membership."""
    by_membership = header_of(path) == list(MEMBERSHIPS_HEADER)
    found: dict[str, str] = {}
    for _, fields in records(path, MEMBERSHIPS_HEADER if by_membership else USERS_HEADER):
        found.setdefault(fields[0], fields[1])
    return found


def hosts_in(path: str) -> list[str]:
    """Returns the hosts of a hosts file."""
    return [fields[0] for _, fields in records(path, HOSTS_HEADER)]


def numbered(people: Iterable[Person]) -> list[Person]:
    """Returns the users with `#` and its number for the name of each group that a list of groups cannot hold."""
    told: dict[Group, Group] = {}

    def written(group: Group) -> Group:
        if group.fits_a_list:
            return group
        if group not in told:
            warn(f"group {group.name!r} ({group.gid}) is written #{group.gid}, and rules that name it do not find it")
            told[group] = Group(f"#{group.gid}", group.gid)
        return told[group]

    return [person._replace(groups=tuple(map(written, person.groups))) for person in people]


def write(folder: str, people: Iterable[Person], machines: Iterable[Machine]) -> None:
    """Writes users.csv and hosts.csv into a folder: a row for each user, or, where the name of a group has a blank or a
    colon, for each membership."""
    outputs.folder(folder)
    users = sorted(people)
    groups = {group: None for person in users for group in person.groups}
    _warn_of_clashes(folder, groups)
    if all(user.name != "root" for user in users):
        warn(f"{os.path.join(folder, 'users.csv')}: there is no user root, and an audit wants one")
    header: tuple[str, ...] = USERS_HEADER
    rows = [_user(person) for person in users]
    if not all(group.fits_a_list for group in groups):
        header, rows = MEMBERSHIPS_HEADER, [row for person in users for row in _memberships(person)]
    hosts: list[tuple[str, ...]] = [(machine.name, " ".join(machine.interfaces)) for machine in machines]
    kind = "users" if header == USERS_HEADER else "memberships"
    hint = "" if header == USERS_HEADER else "; directory --by-number writes a row for each user"
    for found, said in ((rows, f"{len(rows)} {kind}"), (hosts, f"{len(hosts)} hosts")):
        if len(found) > limits.ROWS:
            raise Fault(f"{said}, and an audit takes {limits.ROWS}{hint if found is rows else ''}")
    write_rows(os.path.join(folder, "users.csv"), header, rows)
    write_rows(os.path.join(folder, "hosts.csv"), HOSTS_HEADER, hosts)


def _user(person: Person) -> tuple[str, ...]:
    return person.name, str(person.uid), " ".join(group.word for group in person.groups)


def _memberships(person: Person) -> Iterator[tuple[str, ...]]:
    if not person.groups:
        yield person.name, str(person.uid), "", ""
    for group in person.groups:
        yield person.name, str(person.uid), str(group.gid), group.name


def _warn_of_clashes(folder: str, groups: Iterable[Group]) -> None:
    """Warns of a group name with two numbers, which an audit refuses."""
    gids: dict[str, int] = {}
    for group in groups:
        if gids.setdefault(group.name, group.gid) != group.gid:
            warn(
                f"{os.path.join(folder, 'users.csv')}: group {group.name} has the numbers {gids[group.name]} and"
                f" {group.gid}: an audit refuses that"
            )
