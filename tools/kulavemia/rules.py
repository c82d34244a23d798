"""The rules of a policy by their places, as a page shows them."""

import hashlib
import os
from typing import NamedTuple

from kulavemia.policy import Line, files_of, read


class Rule(NamedTuple):
    """A line that says who may do what, with its place."""

    place: str
    text: str


class Rules:
    """The lines of a policy. A policy below a root folder is shown without that folder."""

    def __init__(self, main: str, root: str = "", hostname: str = "") -> None:
        self.root = root.rstrip("/")
        files = files_of(self.root + main, hostname)
        self.files = [self._shown(path) for path in files]
        self.lines = {f"{self._shown(path)}:{line.number}": line for path, lines in files.items() for line in lines}
        self.sum = _sum_of(list(files))

    def _shown(self, path: str) -> str:
        return path.removeprefix(self.root) if self.root else path

    def text(self, place: str) -> str:
        """Returns the text of the line at a place, empty if there is none."""
        line = self.lines.get(place)
        return shown_line(line) if line else ""

    def all(self) -> list[Rule]:
        """Returns the rules in the order of the files and their lines."""
        return [Rule(place, shown_line(line)) for place, line in self.lines.items() if line.is_rule()]


def shown_line(line: Line) -> str:
    """Returns a line as it is shown: a tab is a blank there."""
    return os.fsdecode(line.text.rstrip(b" \t")).replace("\t", " ")


def _sum_of(paths: list[str]) -> str:
    whole = hashlib.sha256()
    for path in paths:
        whole.update(hashlib.sha256(read(os.fsencode(path))).digest())
    return whole.hexdigest()
