"""The lines of a policy, to be shown; their meaning is left to the proved program."""

import os
import re
from collections.abc import Iterator
from typing import NamedTuple

from kulavemia import foreign, limits
from kulavemia.command import Fault
from kulavemia.hostname import short_name
from kulavemia.lines import cut, is_comment, pieces

_INCLUDE = re.compile(rb"[@#]include(dir)?(?:[ \t]+(.*))?$", re.DOTALL)
_QUOTED_PATH = re.compile(rb'"((?:[^"\\]|\\.)*)"', re.DOTALL)
_BARE_PATH = re.compile(rb'(?:[^ \t"\\]|\\.)*', re.DOTALL)
# What a path has in place of other text: an escape, or the mark of the host's name.
_ESCAPED = re.compile(rb"\\(.)|%h", re.DOTALL)
# What is written otherwise without quotes: digits of a byte, but for those that end a text or a line, and blanks.
_IN_QUOTES = re.compile(rb"\\x([0-9a-fA-F]{2})(?<!00)(?<!0[aAdD])|(\\.)|([ \t])", re.DOTALL)
_TO_ESCAPE = b' \t"\\%h'
_KEYWORD = re.compile(rb"(User|Runas|Host|Cmnd|Cmd)_Alias(?![^ \t!=,:()#\"])")
_DEFAULTS = re.compile(rb"Defaults(?![^ \t@:!>])")


class Line(NamedTuple):
    """A logical line: its first physical line, how many there are, and its text."""

    number: int
    lines: int
    text: bytes

    def is_rule(self) -> bool:
        """Returns whether the line is a rule, and no other line."""
        others = (_INCLUDE, _KEYWORD, _DEFAULTS)
        return bool(self.text) and not is_comment(self.text) and not any(form.match(self.text) for form in others)


class Include(NamedTuple):
    """An include line: its place, whether it names a folder, and the path as it is meant and as it is written without quotes."""

    line: Line
    of_folder: bool
    path: bytes
    written: bytes

    def names_host(self) -> bool:
        """Returns whether the name of the host stands in the path, by `%h`."""
        return any(found[1] is None for found in _ESCAPED.finditer(self.written))


def lines_of(text: bytes) -> Iterator[Line]:
    """Yields the logical lines."""
    physical = cut(text)
    first = 1
    while first <= len(physical):
        run = pieces(physical, first)
        yield Line(first, len(run), b"".join(piece.text for piece in run))
        first += len(run)


def include_of(line: Line, hostname: str = "") -> Include | None:
    """Returns the include that a line is on a host of this name, or `None`. Without a name `%h` stays as it is."""
    match = _INCLUDE.match(line.text)
    if match is None:
        return None
    rest = match[2] or b""
    quoted = _QUOTED_PATH.match(rest)
    bare = _BARE_PATH.match(rest)
    written = _IN_QUOTES.sub(_unquoted, quoted[1]) if quoted else bare[0] if bare else b""
    short = os.fsencode(short_name(hostname))
    path = _ESCAPED.sub(lambda found: found[1] or short or found[0], written)
    return Include(line, bool(match[1]), path, written)


def _unquoted(found: re.Match[bytes]) -> bytes:
    """Returns what stands between quotes as it is written without them."""
    byte = bytes.fromhex(found[1].decode()) if found[1] else found[3]
    return found[2] or (b"\\" + byte if found[3] or byte in _TO_ESCAPE else byte)


def written_include(include: Include, root: bytes) -> bytes:
    """Returns an include line whose path is below a root folder. The mark of the host's name stays one."""
    escaped = re.sub(rb'([ \t"\\]|%(?=h))', rb"\\\1", root)
    return (b"@includedir " if include.of_folder else b"@include ") + escaped + include.written


def beside(file: bytes, path: bytes) -> bytes:
    """Returns the path that a file names: a relative one is in the file's folder."""
    return path if path.startswith(b"/") else file[: file.rfind(b"/") + 1] + path


def is_kept(name: bytes) -> bool:
    """Returns whether sudo reads a file of this name in an included folder."""
    return b"." not in name and not name.endswith(b"~")


def kept_files(folder: bytes) -> list[bytes]:
    """Returns the files of an included folder of this machine that are read, in the order of their names' bytes."""
    if not foreign.exists(folder):
        return []
    names = [os.fsencode(entry.name) for entry in foreign.entries(folder)]
    start = os.path.join(folder, b"")
    return [start + name for name in names if is_kept(name) and os.path.isfile(start + name)]


def read(path: bytes) -> bytes:
    """Returns the bytes of a policy's file of this machine."""
    return foreign.read(path, foreign.POLICY_CAP)


def files_of(main: str, hostname: str = "") -> dict[str, list[Line]]:
    """Returns the logical lines of a policy's files by the paths that the program gives them, each file once.

    The policy is that of a host of this name.
    """
    found: dict[str, list[Line]] = {}
    waiting = [os.fsencode(main)]
    while waiting:
        path = waiting.pop(0)
        shown = os.fsdecode(path)
        if shown in found:
            continue
        if len(found) == limits.POLICY_FILES:
            raise Fault(f"{main}: includes more than {limits.POLICY_FILES} files")
        found[shown] = list(lines_of(read(path)))
        for line in found[shown]:
            include = include_of(line, hostname)
            if include is not None:
                named = beside(path, include.path)
                waiting.extend(kept_files(named) if include.of_folder else [named])
    return found


def rewritten(text: bytes, root: bytes) -> bytes:
    """Returns a policy's text whose absolute includes are below a root folder; the number of each line stays."""
    physical = text.split(b"\n")
    for line in lines_of(text):
        include = include_of(line)
        if include is not None and include.path.startswith(b"/"):
            physical[line.number - 1] = written_include(include, root)
            physical[line.number : line.number - 1 + line.lines] = [b""] * (line.lines - 1)
    return b"\n".join(physical)
