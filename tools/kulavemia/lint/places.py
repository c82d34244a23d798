"""Findings with their physical places, behind joined lines.

The program names a place by the number of the physical line where a logical line begins, and by 1 plus the byte
offset in the joined text. An editor wants the physical line and column.
"""

import functools
from dataclasses import dataclass

from kulavemia.lines import cut, pieces
from kulavemia.lint.answers import Finding
from kulavemia.lint.inputs import reason_not_read, text_of


@dataclass(frozen=True)
class Place:
    """A physical line from 1, a column in characters from 1 (or None), and the line's bytes."""

    line: int
    column: int | None
    source: bytes


def column_of(line: bytes, offset: int) -> int:
    """Returns the column, in characters from 1, of a byte offset in a line. A byte that is no text counts as one."""
    return len(line[:offset].decode("utf-8", "surrogateescape")) + 1


def physical_place(lines: list[bytes], first: int, column: int | None) -> Place | None:
    """Returns the physical place of a column of the logical line that begins at the physical line `first`.

    Without a column it is the line `first`. Returns None where the lines have no such place.
    """
    if not 1 <= first <= len(lines):
        return None
    if column is None:
        return Place(first, None, lines[first - 1])
    rest = column - 1
    run = pieces(lines, first)
    for piece in run:
        if rest < len(piece.text) or piece is run[-1]:
            break
        rest -= len(piece.text)
    if not 0 <= rest <= len(piece.text):
        return None
    source = lines[piece.line - 1]
    return Place(piece.line, column_of(source, piece.indent + rest), source)


@dataclass(frozen=True)
class Located:
    """A finding, the place of it in its file, if it has one, and its message."""

    finding: Finding
    place: Place | None
    message: str

    @property
    def line(self) -> int | None:
        """Returns the physical line, or else the one that the program named."""
        return self.place.line if self.place else self.finding.line

    @property
    def column(self) -> int | None:
        """Returns the physical column in characters, or None."""
        return self.place.column if self.place else None

    @property
    def is_moved(self) -> bool:
        """Returns whether the physical place is not where the program's own words point."""
        return self.finding.column is not None and (self.line, self.column) != (self.finding.line, self.finding.column)


@functools.lru_cache(maxsize=1)
def lines_with(path: str) -> list[bytes] | None:
    """Returns the physical lines of a policy file, or None if the file cannot be read."""
    text = text_of(path)
    return None if text is None else cut(text)


def place_of(finding: Finding) -> Place | None:
    """Returns the physical place of a finding, or None."""
    if finding.line is None:
        return None
    lines = lines_with(finding.path)
    return None if lines is None else physical_place(lines, finding.line, finding.column)


def message_of(finding: Finding) -> str:
    """Returns the text of a finding. Where a file is not read, it has the system's reason too."""
    reason = reason_not_read(finding.path) if finding.text == "cannot read" else None
    return f"{finding.text} ({reason})" if reason else finding.text


def located(finding: Finding) -> Located:
    """Returns a finding with its physical place and its message."""
    return Located(finding, place_of(finding), message_of(finding))
