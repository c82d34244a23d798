"""The shards of a fleet: which there are, and what the audit of each reads.

A shard is one audit: of a host, at most so many senders and files as one run of the program takes.
"""

import os
import re
from collections.abc import Iterator, Sequence
from typing import NamedTuple

from kulavemia import foreign, limits
from kulavemia.command import Fault, line_of
from kulavemia.directory import hostname_of
from kulavemia.fleet_handed import CODE, PACKAGE, PROGRAM_FILE, Handed, packed
from kulavemia.fleet_work import HOSTS, REQUESTS, ROOT, TREE, USERS, Job
from kulavemia.hostname import words_of_hostname
from kulavemia.netgroups import NETGROUPS
from kulavemia.program import REVIEW, Judge
from kulavemia.sums import digest_of
from kulavemia.tree import POLICY, Tree, main_of, read_tree

MAIN = "/etc/sudoers"
SIZE_LIMIT = 64 << 20
NAME_LIMIT = 200

_REQUESTS_FILE = re.compile(r"([A-Za-z0-9_-]{1,64})(?:\.([1-9][0-9]{0,8}))?\.csv")


class Asked(NamedTuple):
    """How shards are cut and judged: the senders of each, the threads of the program, the seconds it may take."""

    senders: int = limits.SENDERS
    threads: int = 1
    limit: float = 0.0


class Requests(NamedTuple):
    """A requests file of a host: its sender, its name below the host's folder, and its size."""

    sender: str
    file: str
    size: int


class Host(NamedTuple):
    """A host of the fleet: its shards, as the senders of each, or why it has none."""

    name: str
    shards: Sequence[Sequence[str]]
    fault: str = ""


class Given(NamedTuple):
    """A file of users, hosts or netgroups as it was read: its path below the fleet's folder, its text, and whether it is the
    fleet's.
    """

    path: str
    text: bytes
    is_shared: bool


class ToReview(NamedTuple):
    """What a review of a host reads: the main file of its policy, the policy, the users and hosts files, and any netgroups.

    The host's name is empty where its policy has no `%h`.
    """

    main: str
    policy: Tree
    users: Given
    hosts: Given
    netgroups: Given | None
    hostname: str


class Read(NamedTuple):
    """What an audit of a host reads beside requests: its policy's path, files of its own, and the names of what it shares.

    The host's name is empty where its policy has no `%h`.
    """

    main: str
    own: dict[str, bytes]
    shared: list[str]
    hostname: str


def shard_name(host: str, number: int) -> str:
    """Returns the name of a host's shard."""
    return f"{host}/{number}"


def cut(files: Sequence[Requests], senders: int) -> list[list[Requests]]:
    """Returns the files of each shard. A sender's files stay together."""
    of_sender: dict[str, list[Requests]] = {}
    for file in files:
        of_sender.setdefault(file.sender, []).append(file)
    shards: list[list[Requests]] = []
    count = size = 0
    for group in of_sender.values():
        more = sum(file.size for file in group)
        full = count == senders or bool(shards) and len(shards[-1]) + len(group) > limits.SOURCES
        if not shards or full or size + more > SIZE_LIMIT:
            shards.append([])
            count = size = 0
        shards[-1].extend(group)
        count += 1
        size += more
    return shards


class Fleet:
    """A folder of hosts. What a host's folder lacks of policy, users, hosts and netgroups is the fleet's own."""

    def __init__(self, folder: str, judge: Judge, asked: Asked) -> None:
        self.folder = folder
        self.asked = asked
        self.judge = judge.name
        with open(judge.path, "rb") as file:
            self.program = file.read()
        self.program_sum = digest_of([self.program])
        self.shared: dict[str, bytes] = {}
        for name in (USERS, HOSTS, NETGROUPS):
            if self._exists(folder, name):
                self.shared[name] = self._read(folder, name)
        self.shared_main = self._main_of(folder)
        self.shared_names_host = False
        if self._exists(folder, TREE):
            tree = self._tree(folder, self.shared_main, ROOT)
            self.shared.update(_by_names(tree))
            self.shared_names_host = tree.names_host

    def handed(self) -> Handed:
        """Returns what every worker is handed."""
        files = {PROGRAM_FILE: self.program, **self.shared, **_code()}
        digest = digest_of([part for name in sorted(files) for part in (os.fsencode(name), files[name])])
        return Handed(f"kulavemia-{digest[:16]}", {name: packed(data) for name, data in files.items()})

    def names(self) -> list[str]:
        """Returns the names of the hosts, in the order of their bytes."""
        return [entry.name for entry in foreign.entries(self.folder) if self._is_host(entry)]

    def _is_host(self, entry: foreign.Entry) -> bool:
        """Returns whether an entry of the fleet's folder is a host: a folder, or a link to one, which is refused."""
        if entry.name == TREE or entry.name.startswith("."):
            return False
        if entry.kind == foreign.LINK:
            return os.path.isdir(os.path.join(self.folder, entry.name))
        return entry.kind == foreign.FOLDER

    def host(self, name: str) -> Host:
        """Returns a host with the senders of each of its shards."""
        try:
            shards = cut(self._requests(name), self.asked.senders)
        except (Fault, OSError) as fault:
            return Host(name, (), line_of(fault))
        return Host(name, [list(dict.fromkeys(file.sender for file in files)) for files in shards])

    def jobs(self, name: str) -> Iterator[Job]:
        """Yields the shards of a host. Raises `Fault` or `OSError` where it has none."""
        shards = cut(self._requests(name), self.asked.senders)
        folder = os.path.join(self.folder, name)
        read = self._policy(name)
        for number, files in enumerate(shards, 1):
            _want_fit(files)
            own = {**read.own, **{file.file: self._read(folder, file.file) for file in files}}
            sources = [(file.sender, file.file) for file in files]
            yield self._job(shard_name(name, number), read._replace(own=own), sources)

    def to_review(self, name: str, root: str) -> ToReview:
        """Returns what a review of a host reads, its policy's files as they read below a root folder.

        Raises `Fault` or `OSError` where it has none.
        """
        _want_name(name)
        folder = os.path.join(self.folder, name)
        place, main = (folder, self._main_of(folder)) if self._exists(folder, TREE) else (self.folder, self.shared_main)
        if not self._exists(place, TREE):
            raise Fault(f"there is no {TREE}")
        policy, hostname = self._tree_on(name, place, main, root)
        users, hosts = self._given(name, USERS), self._given(name, HOSTS)
        return ToReview(main, policy, users, hosts, self._found(name, NETGROUPS), hostname)

    def _given(self, name: str, table: str) -> Given:
        """Returns a table of a host, or the fleet's where the host has none. Raises `Fault` if there is neither."""
        found = self._found(name, table)
        if found is None:
            raise Fault(f"there is no {table}")
        return found

    def _found(self, name: str, table: str) -> Given | None:
        """Returns a table of a host, or the fleet's where the host has none, or `None` if there is neither."""
        folder = os.path.join(self.folder, name)
        if self._exists(folder, table):
            return Given(f"{name}/{table}", self._read(folder, table), False)
        return Given(table, self.shared[table], True) if table in self.shared else None

    def gathered(self, name: str) -> int:
        """Returns when the users of a host were gathered, in nanoseconds: by its passwd, or by its users file; 0 if by none."""
        folder = os.path.join(self.folder, name)
        for path in (os.path.join(folder, file) for file in ("passwd", USERS)):
            if foreign.exists(path, self.folder):
                return foreign.changed(path, self.folder)
        return 0

    def _requests(self, name: str) -> list[Requests]:
        """Returns the requests files of a host, by sender and part."""
        _want_name(name)
        found = []
        for entry in foreign.entries(os.path.join(self.folder, name, REQUESTS), self.folder):
            match = _REQUESTS_FILE.fullmatch(entry.name)
            if match is None:
                raise Fault(f"{REQUESTS}/{entry.name}: expected NAME.csv or NAME.PART.csv")
            part = int(match[2] or 1)
            found.append(((match[1], part), Requests(match[1], f"{REQUESTS}/{entry.name}", entry.size)))
        if not found:
            raise Fault(f"{REQUESTS} has no files")
        return [file for _, file in sorted(found)]

    def _policy(self, name: str) -> Read:
        """Returns what an audit of a host reads beside requests. Raises `Fault` if something is not there."""
        own: dict[str, bytes] = {}
        shared = []
        folder = os.path.join(self.folder, name)
        main, hostname = self._main_of(folder), ""
        if self._exists(folder, TREE):
            tree, hostname = self._tree_on(name, folder, main, ROOT)
            own.update(_by_names(tree))
        elif self.shared_names_host and self.judge == REVIEW:
            main = self.shared_main
            tree, hostname = self._tree_on(name, self.folder, main, ROOT)
            own.update(_by_names(tree))
        elif self._exists(self.folder, TREE):
            main = self.shared_main
            shared.append(TREE)
        else:
            raise Fault(f"there is no {TREE}")
        for table in (USERS, HOSTS, *self._further()):
            if self._exists(folder, table):
                own[table] = self._read(folder, table)
            elif table in self.shared:
                shared.append(table)
            elif table != NETGROUPS:
                raise Fault(f"there is no {table}")
        return Read(main, own, shared, hostname)

    def _further(self) -> tuple[str, ...]:
        """Returns the tables beside users and hosts that the program takes, if they are there."""
        return (NETGROUPS,) if self.judge == REVIEW else ()

    def _main_of(self, folder: str) -> str:
        """Returns the path of the policy's main file, as tools/collect notes it."""
        return main_of(folder, self.folder) if self._exists(folder, POLICY) else MAIN

    def _tree(self, folder: str, main: str, root: str, hostname: str = "") -> Tree:
        """Returns the policy of a folder, as a host of this name reads it below a root folder."""
        return read_tree(os.path.join(folder, TREE), main, os.fsencode(root), self.folder, hostname)

    def _tree_on(self, name: str, folder: str, main: str, root: str) -> tuple[Tree, str]:
        """Returns the policy of a folder as a host of the fleet reads it, and the host's name if that stands in it.

        Only the second program reads such a policy: for the first one there is no name.
        """
        tree = self._tree(folder, main, root)
        if not tree.names_host or self.judge != REVIEW:
            return tree, ""
        hostname = hostname_of(os.path.join(self.folder, name), self.folder, name)
        return self._tree(folder, main, root, hostname), hostname

    def _exists(self, folder: str, name: str) -> bool:
        """Returns whether a folder has a name."""
        return foreign.exists(os.path.join(folder, name), self.folder)

    def _read(self, folder: str, name: str) -> bytes:
        """Returns the bytes of a file below a folder."""
        return foreign.read(os.path.join(folder, name), foreign.REQUESTS_CAP, self.folder)

    def _job(self, name: str, found: Read, sources: list[tuple[str, str]]) -> Job:
        read = dict(found.own)
        read.update((file, text) for file, text in self.shared.items() if file.split("/")[0] in found.shared)
        named = [*words_of_hostname(found.hostname), name, found.main, self.judge]
        words = [*named, *(word for source in sources for word in source)]
        parts = [b"shard 4", self.program_sum.encode(), b"%d" % len(words), *map(os.fsencode, words)]
        parts += [part for file in sorted(read) for part in (os.fsencode(file), read[file])]
        return Job(
            name=name,
            digest=digest_of(parts),
            main=found.main,
            files=found.own,
            shared=found.shared,
            sources=sources,
            threads=self.asked.threads,
            limit=self.asked.limit,
            judge=self.judge,
            hostname=found.hostname,
        )


def _by_names(tree: Tree) -> dict[str, bytes]:
    """Returns the files of a policy by their names below the folder that has its tree."""
    return {TREE + os.fsdecode(path): text for path, text in tree.files.items()}


def _want_name(name: str) -> None:
    """Raises `Fault` if a folder's name is too long, or cannot be shown."""
    if len(os.fsencode(name)) > NAME_LIMIT:
        raise Fault(f"a folder's name is at most {NAME_LIMIT} bytes long")
    if not name.isprintable():
        raise Fault("the folder's name has characters that are not printable")


def travelling(job: Job) -> Job:
    """Returns a job with its files packed."""
    return job._replace(files={name: packed(text) for name, text in job.files.items()})


def _code() -> dict[str, bytes]:
    """Returns the modules that the tools share, by the names that a worker keeps them under."""
    folder = os.path.dirname(__file__)
    names = [entry.name for entry in foreign.entries(folder) if entry.name.endswith(".py")]
    return {f"{CODE}/{PACKAGE}/{name}": foreign.read(os.path.join(folder, name), foreign.POLICY_CAP) for name in names}


def _want_fit(files: Sequence[Requests]) -> None:
    """Raises `Fault` if the requests of a shard have more bytes than are read at once."""
    if sum(file.size for file in files) > foreign.SHARD_CAP:
        raise Fault(f"the requests of {files[0].sender} have more than {foreign.SHARD_CAP} bytes")
