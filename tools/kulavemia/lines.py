"""The physical lines of a policy's text, and how they are joined.

A text is cut at its newlines; a carriage return at the end of a line and blanks at its front are dropped; a line that
ends in an odd number of backslashes loses the last one and is continued by the next line, unless it is a comment line.
"""

import re
from typing import NamedTuple

BLANKS = b" \t"
_COMMENT = re.compile(rb"#(?!\d)(?!include(?:dir)?(?:[ \t]|$))")


class Piece(NamedTuple):
    """A physical line as a part of a joined text: its number, how many blanks were dropped, and what was kept."""

    line: int
    indent: int
    text: bytes


def cut(text: bytes) -> list[bytes]:
    """Returns the physical lines of a text. A newline at the end begins no further line."""
    lines = text.split(b"\n")
    return lines[:-1] if lines[-1] == b"" else lines


def is_comment(line: bytes) -> bool:
    """Returns whether a line without its indent is a comment line: `#` begins neither a user ID nor an include."""
    return _COMMENT.match(line) is not None


def ends_in_escape(line: bytes) -> bool:
    """Returns whether the line ends in an odd number of backslashes."""
    return (len(line) - len(line.rstrip(b"\\"))) % 2 == 1


def pieces(lines: list[bytes], first: int) -> list[Piece]:
    """Returns the pieces of the logical line that begins at the physical line `first`."""
    found: list[Piece] = []
    for number in range(first, len(lines) + 1):
        line = lines[number - 1].removesuffix(b"\r")
        kept = line.lstrip(BLANKS)
        continued = ends_in_escape(kept) and (found or not is_comment(kept)) and number < len(lines)
        found.append(Piece(number, len(line) - len(kept), kept[:-1] if continued else kept))
        if not continued:
            break
    return found
