"""A strict reader of tars that come from other machines.

It unpacks plain files and folders below one folder. A link, a device, a name that leads elsewhere, or more than the
limits allow is refused by name, before memory or disk is taken for it. Owners and modes are left out.
"""

import errno
import os
import time
from collections.abc import Callable, Iterator
from typing import NamedTuple

from kulavemia import outputs
from kulavemia.command import Fault

FILE = "a file"
FOLDER = "a folder"

_BLOCK = 512
_CHUNK = 1 << 16
# The most bytes of a header that continues another, of a path, and of a name in it.
_LONG_LIMIT = 1 << 16
_PATH_LIMIT = 1024
_NAME_LIMIT = 255
# How the system refuses a name.
_BAD_NAMES = (errno.ENAMETOOLONG, errno.EINVAL, errno.EILSEQ)
_KINDS = {b"0": FILE, b"\0": FILE, b"7": FILE, b"5": FOLDER}
_OTHER_KINDS = {
    b"1": "a hard link",
    b"2": "a link",
    b"3": "a device",
    b"4": "a device",
    b"6": "a FIFO",
    b"S": "a sparse file",
}
_LONG_NAME, _LONG_LINK, _EXTENDED, _SHARED = b"L", b"K", b"x", b"g"
# What is read of extended headers.
_SPARSE = b"GNU.sparse"
_USED = (b"path", b"size", _SPARSE)
_CONTINUED = (_LONG_NAME, _LONG_LINK, _EXTENDED, _SHARED)


class EndsEarly(Fault):
    """A tar that ends before its end."""


class Limits(NamedTuple):
    """The most bytes of a file, and bytes and members of a tar, headers included."""

    file: int = 512 << 20
    host: int = 2 << 30
    members: int = 100_000


class Member(NamedTuple):
    """A file or folder of a tar."""

    name: str
    kind: str
    size: int
    time: int


class _Header(NamedTuple):
    """A block of a tar that begins a member, or continues the header of the next one."""

    name: bytes
    kind: bytes
    size: int
    time: int


class Unpacked(NamedTuple):
    """What was unpacked: the one folder of the tar, how many bytes, headers included, and how many members."""

    top: str
    bytes: int
    members: int


class Tar:
    """The members of a tar, read in order from what yields some bytes at a time, and none at its end."""

    def __init__(self, read: Callable[[int], bytes], limits: Limits) -> None:
        self.read = read
        self.limits = limits
        self.bytes = 0
        self.members = 0
        self.left = 0

    def next(self) -> Member | None:
        """Returns the next member, or `None` at the end. Raises `Fault` if it is neither a plain file nor a folder."""
        for _ in self.content():
            pass
        fields: dict[bytes, bytes] = {}
        while True:
            block = self._exactly(_BLOCK)
            if block == bytes(_BLOCK):
                return None
            self.members += 1
            if self.members > self.limits.members:
                raise Fault(f"more than {self.limits.members} members")
            header = _header_of(block)
            if header.kind not in _CONTINUED:
                return self._member(header, fields)
            fields.update(self._fields(header))

    def content(self) -> Iterator[bytes]:
        """Yields what is left of the content of the last member."""
        padding = -self.left % _BLOCK
        while self.left:
            data = self._some(min(self.left, _CHUNK))
            self.left -= len(data)
            yield data
        self._exactly(padding)

    def _some(self, size: int) -> bytes:
        """Returns some bytes, at most so many. Raises `Fault` at the end, and past the limit."""
        data = self.read(size)
        self.bytes += len(data)
        if not data:
            raise EndsEarly("the tar ends early")
        self._want_room(0)
        return data

    def _exactly(self, size: int) -> bytes:
        found = bytearray()
        while len(found) < size:
            found += self._some(size - len(found))
        return bytes(found)

    def _want_room(self, size: int) -> None:
        if self.bytes + size > self.limits.host:
            raise Fault(f"more than {self.limits.host} bytes")

    def _fields(self, header: _Header) -> dict[bytes, bytes]:
        """Returns what a header says of the next member."""
        if header.size > _LONG_LIMIT:
            raise Fault(f"a header of {header.size} bytes, and at most {_LONG_LIMIT} are read")
        data = self._exactly(header.size)
        self._exactly(-header.size % _BLOCK)
        if header.kind == _LONG_NAME:
            return {b"path": data.partition(b"\0")[0]}
        return {key: value for key, value in _extended(data) if key in _USED} if header.kind == _EXTENDED else {}

    def _member(self, header: _Header, fields: dict[bytes, bytes]) -> Member:
        name = os.fsdecode(fields.get(b"path", header.name))
        is_folder = name.endswith("/")
        name = name.removesuffix("/")
        if _SPARSE in fields:
            raise Fault(f"{name}: a sparse file; plain files and folders alone are unpacked")
        if header.kind not in _KINDS:
            kind = _OTHER_KINDS.get(header.kind, "a member of an unknown kind")
            raise Fault(f"{name}: {kind}; plain files and folders alone are unpacked")
        kind = FOLDER if is_folder else _KINDS[header.kind]
        size = _decimal(fields[b"size"]) if b"size" in fields else header.size
        if kind == FOLDER and size or size > self.limits.file:
            raise Fault(f"{name}: {kind} of {size} bytes; a file has at most {self.limits.file}, and a folder none")
        self._want_room(size)
        self.left = size
        return Member(name, kind, size, header.time)


def _header_of(block: bytes) -> _Header:
    """Returns the header of a block. Raises `Fault` if the block is no header."""
    if _octal(block[148:156]) != sum(block[:148]) + 8 * ord(" ") + sum(block[156:]):
        raise Fault("not a tar, or a damaged one: the sum of a header is wrong")
    name, before = _text(block[:100]), _text(block[345:500])
    # The form of GNU has other fields in place of the first part of a long name.
    if before and block[257:263] == b"ustar\0":
        name = before + b"/" + name
    size = _number(block[124:136])
    if size < 0:
        raise Fault("not a tar, or a damaged one: a size is below 0")
    return _Header(name, block[156:157], size, _number(block[136:148]))


def _text(field: bytes) -> bytes:
    return field.partition(b"\0")[0]


def _number(field: bytes) -> int:
    """Returns the number of a field: octal, or in the form of GNU for large and negative ones."""
    if field[0] in (0x80, 0xFF):
        return int.from_bytes(field[1:], signed=field[0] == 0xFF)
    return _octal(field)


def _octal(field: bytes) -> int:
    digits = field.strip(b" \0")
    if digits.strip(b"01234567"):
        raise Fault("not a tar, or a damaged one: a number of a header is wrong")
    return int(digits or b"0", 8)


def _decimal(field: bytes) -> int:
    if not field.isdigit() or len(field) > 18:
        raise Fault("not a tar, or a damaged one: a size is no number")
    return int(field)


def _extended(data: bytes) -> Iterator[tuple[bytes, bytes]]:
    """Yields the keys and values of an extended header's records `LENGTH KEY=VALUE`, with one key for sparse files."""
    place = 0
    while place < len(data):
        length = data[place : place + 9].partition(b" ")[0]
        size = int(length) if length.isdigit() else 0
        record = data[place + len(length) + 1 : place + size]
        key, equals, value = record[:-1].partition(b"=")
        if not equals or not record.endswith(b"\n"):
            raise Fault("not a tar, or a damaged one: an extended header is wrong")
        yield (_SPARSE if key.startswith(_SPARSE) else key), value
        place += size


def _parts(member: Member) -> list[str]:
    """Returns the names on the way to a member. Raises `Fault` if they lead elsewhere, or are not fit to be shown."""
    shown = member.name[:_NAME_LIMIT]
    parts = member.name.split("/")
    if any(part in ("", ".", "..") for part in parts):
        raise Fault(f"{shown}: not the plain form of a path below a folder")
    if not member.name.isprintable():
        raise Fault(f"{shown}: a name that is not printable")
    if len(os.fsencode(member.name)) > _PATH_LIMIT or any(len(os.fsencode(part)) > _NAME_LIMIT for part in parts):
        raise Fault(f"{shown}: a name that is too long")
    return parts


def top_of(read: Callable[[int], bytes], limits: Limits) -> str:
    """Returns the folder of a tar's first member."""
    first = Tar(read, limits).next()
    if first is None:
        raise Fault("an empty tar")
    return _parts(first)[0]


class Unpacking:
    """Unpacks a tar's one folder into a folder of this machine, whatever its name is."""

    def __init__(self, tar: Tar, folder: str, names: frozenset[str]) -> None:
        self.tar = tar
        self.folder = folder
        self.names = names
        self.top = ""

    def run(self) -> Unpacked:
        """Unpacks all members. Raises `Fault` at the first that is refused."""
        while (member := self.tar.next()) is not None:
            parts = _parts(member)
            self._want_inside(member, parts)
            if len(parts) > 1:
                self._put(member, os.path.join(self.folder, *parts[1:]))
        if not self.top:
            raise Fault("an empty tar")
        return Unpacked(self.top, self.tar.bytes, self.tar.members)

    def _want_inside(self, member: Member, parts: list[str]) -> None:
        """Raises `Fault` if a member is not of the tar's one folder, or has a name that is not asked for there."""
        if self.top and len(parts) == 1:
            raise Fault(f"{member.name}: two members have this name, or it is beside the folder {self.top}")
        if len(parts) == 1 and member.kind != FOLDER:
            raise Fault(f"{member.name}: not in a folder")
        self.top = self.top or parts[0]
        if parts[0] != self.top:
            raise Fault(f"{member.name}: not in the folder {self.top}")
        if len(parts) > 1 and parts[1] not in self.names:
            raise Fault(f"{member.name}: not what is gathered of a host")

    def _put(self, member: Member, path: str) -> None:
        """Writes a file or makes a folder."""
        try:
            if member.kind == FOLDER:
                os.mkdir(path)
                return
            with outputs.new(path) as file:
                for data in self.tar.content():
                    file.write(data)
                file.flush()
                moment = min(max(0, member.time), int(time.time()))
                os.utime(file.fileno(), (moment, moment))
        except FileExistsError:
            raise Fault(f"{member.name}: two members have this name") from None
        except (FileNotFoundError, NotADirectoryError):
            raise Fault(f"{member.name}: no folder for it comes before it") from None
        except OSError as error:
            if error.errno not in _BAD_NAMES:
                raise
            raise Fault(f"{member.name}: {error.strerror}") from None
