"""The policy of a replay: this machine's own, or a copy of another machine's files."""

import os
from collections.abc import Mapping, Sequence
from typing import NamedTuple

from kulavemia import foreign, outputs
from kulavemia.command import Fault, called
from kulavemia.policy import Include, Line, beside, include_of, is_kept, kept_files, lines_of, read, rewritten
from kulavemia.sums import File, file_of_text

POLICY = "policy"
# The program follows includes 128 deep, and refuses a policy that goes deeper.
DEPTH_LIMIT = 200
HOW = f"gather its files by {called('collect')} and name their folder by --collected, or the copied files by --tree"


class Prepared(NamedTuple):
    """A policy that can be audited: its main file below a root folder, which is empty for this machine's own.

    The name of the host stands in its include lines, or does not, as far as they were read.
    """

    main: str
    root: str
    names_host: bool = False

    def file(self) -> str:
        """Returns the path of the main file."""
        return self.root + self.main


def of_this_machine(main: str, trusted: bool, hostname: str = "") -> Prepared:
    """Returns a policy whose includes are its own. Raises `Fault` at one that would read another place of this machine."""
    names_host = False
    home = os.fsencode(os.path.dirname(os.path.abspath(main)))
    waiting, seen = [os.fsencode(main)], set()
    while waiting and not trusted:
        path = waiting.pop(0)
        if path in seen or not os.path.exists(path):
            continue
        seen.add(path)
        for include in _includes(read(path), hostname):
            names_host = names_host or include.names_host()
            named = beside(path, include.path)
            if os.path.commonpath((home, os.path.abspath(named))) != home:
                raise Fault(
                    f"{_place(path, include.line)}: the policy includes {os.fsdecode(include.path)} of this machine. If"
                    f" it is another machine's policy, {HOW}; if it is this machine's own, say --this-machine"
                )
            waiting.extend(kept_files(named) if include.of_folder else [named])
    return Prepared(main, "", names_host)


def _place(path: bytes, line: Line) -> str:
    return f"{os.fsdecode(path)}:{line.number}"


def _includes(text: bytes, hostname: str) -> list[Include]:
    return [include for line in lines_of(text) if (include := include_of(line, hostname)) is not None]


class _Copy:
    """The files of a policy below a tree, by their own paths, as they read where includes stay below a root folder."""

    def __init__(self, tree: str, root: bytes, below: str, hostname: str) -> None:
        self.tree = os.fsencode(tree).rstrip(b"/")
        self.below = os.fsencode(below)
        self.root = root
        self.hostname = hostname
        self.names_host = False
        self.seen: set[bytes] = set()
        self.files: dict[bytes, bytes] = {}
        self.originals: list[File] = []
        self.size = 0

    def take(self, path: bytes, depth: int = 0) -> None:
        """Takes a file, named as on its own machine, and what it includes."""
        if path in self.seen or depth > DEPTH_LIMIT or not foreign.exists(self.tree + path, self.below):
            return
        self.seen.add(path)
        text = foreign.read(self.tree + path, foreign.POLICY_CAP, self.below)
        self.size += len(text)
        if self.size > foreign.TREE_CAP:
            raise Fault(f"{os.fsdecode(self.tree)}: the policy's files have more than {foreign.TREE_CAP} bytes")
        self.originals.append(file_of_text(os.fsdecode(path), text))
        for include in _includes(text, self.hostname):
            self.names_host = self.names_host or include.names_host()
            named = beside(path, include.path)
            if b".." in include.path.split(b"/"):
                raise Fault(f"{_place(self.tree + path, include.line)}: an include with .. may leave the copied files")
            if include.of_folder:
                self._take_folder(named, depth + 1)
            else:
                self.take(named, depth + 1)
        self.files[path] = rewritten(text, self.root)

    def _take_folder(self, folder: bytes, depth: int) -> None:
        """Takes the files of an included folder. Anything but files and folders there is refused by name."""
        whole = self.tree + folder.rstrip(b"/")
        if not foreign.exists(whole, self.below):
            return
        for entry in foreign.entries(whole, self.below):
            name = os.fsencode(entry.name)
            if is_kept(name) and entry.kind != foreign.FOLDER:
                self.take(os.path.join(folder, name), depth)


class Tree(NamedTuple):
    """The files of a policy by their own paths, as they read where includes stay below a root folder, and as they were.

    The name of the host stands in its include lines, or does not.
    """

    files: Mapping[bytes, bytes]
    originals: Sequence[File]
    names_host: bool = False


def read_tree(tree: str, main: str, root: bytes, below: str | None = None, hostname: str = "") -> Tree:
    """Returns a policy that lies below a tree, as a host of this name reads it; its includes are below a root folder.

    No link is followed below a folder, by default the tree.
    """
    if not main.startswith("/"):
        raise Fault(f"{main}: the policy is named by its path on its own machine, as /etc/sudoers")
    copy = _Copy(tree, root, tree if below is None else below, hostname)
    copy.take(os.fsencode(main))
    if not copy.files:
        raise Fault(f"{tree}{main} is not there")
    return Tree(copy.files, copy.originals, copy.names_host)


def of_tree(tree: str, main: str, root: str, below: str | None = None) -> Prepared:
    """Returns a copy, below a root folder, of the policy whose files lie below a tree."""
    place = os.path.abspath(root)
    write_copies(place, read_tree(tree, main, os.fsencode(place), below).files)
    return Prepared(main, place)


def write_copies(root: str, files: Mapping[bytes, bytes]) -> None:
    """Writes the files of a policy, by their own paths, below a root folder."""
    for path, text in files.items():
        copied = root + os.fsdecode(path)
        outputs.folder(os.path.dirname(copied))
        with outputs.written(copied) as file:
            file.write(text)


def main_of(folder: str, below: str) -> str:
    """Returns the path of the main file, as tools/collect noted it in a folder."""
    return os.fsdecode(foreign.read(os.path.join(folder, POLICY), foreign.NAME_CAP, below)).rstrip("\n")
