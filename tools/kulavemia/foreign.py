"""Opens of files that come from another machine: bounded in time and in memory, and without following links.

A path of the command line is the user's own, and its links are followed. Below a folder of copied files nothing is
followed: each folder on the way is opened below the last one, by its descriptor. Anything but a plain file is refused
by name before it is opened, so that nothing waits at a FIFO and no device is touched.
"""

import contextlib
import errno
import io
import os
import stat
from collections.abc import Callable, Iterator
from typing import TYPE_CHECKING, BinaryIO, NamedTuple, cast

from kulavemia import limits
from kulavemia.command import Fault

if TYPE_CHECKING:
    from _typeshed import WriteableBuffer

# The most bytes that are read of a file of each kind. `sudo_audit` has the first and the fourth of these limits itself.
POLICY_CAP = limits.POLICY_BYTES
ACCOUNTS_CAP = 1 << 24
ADDRESSES_CAP = 1 << 22
REQUESTS_CAP = limits.CSV_BYTES
NAME_CAP = 1 << 12
LOG_CAP = 1 << 32
TABLE_CAP = 1 << 34
TABLE_LINE_CAP = 1 << 24
# The most bytes of a policy with all that it includes, of the requests of one audit, and the most names of a folder.
TREE_CAP = 1 << 28
SHARD_CAP = 1 << 30
NAMES_CAP = 4_000_000

FILE = "a plain file"
FOLDER = "a folder"
LINK = "a link"

_KINDS: tuple[tuple[Callable[[int], bool], str], ...] = (
    (stat.S_ISREG, FILE),
    (stat.S_ISDIR, FOLDER),
    (stat.S_ISLNK, LINK),
    (stat.S_ISFIFO, "a FIFO"),
    (stat.S_ISSOCK, "a socket"),
)
_READ = os.O_RDONLY | os.O_NONBLOCK | os.O_CLOEXEC | os.O_NOCTTY
_BUFFER = 1 << 16


class Entry(NamedTuple):
    """A name in a folder, with what has it and its size."""

    name: str
    kind: str
    size: int


class _Capped(io.RawIOBase):
    """A stream of which at most so many bytes are read, and of a line, if it is read by lines, at most so many."""

    def __init__(self, inner: BinaryIO, path: str, cap: int, line_cap: int = 0) -> None:
        self.inner = inner
        self.path = path
        self.cap = cap
        self.line_cap = line_cap
        self.count = 0
        self.line = 0

    def readable(self) -> bool:
        return True

    def seekable(self) -> bool:
        return self.inner.seekable()

    def seek(self, offset: int, whence: int = os.SEEK_SET) -> int:
        return self.inner.seek(offset, whence)

    def tell(self) -> int:
        return self.inner.tell()

    def fileno(self) -> int:
        return self.inner.fileno()

    def readinto(self, buffer: "WriteableBuffer") -> int:
        """Reads some bytes. Raises `Fault` past the cap, and `OSError` where it would have to wait."""
        count = cast(io.RawIOBase, self.inner).readinto(buffer)
        if count is None:
            raise BlockingIOError(errno.EAGAIN, os.strerror(errno.EAGAIN), self.path)
        self.count += count
        if self.count > self.cap:
            raise _too_long(self.path, self.cap)
        if self.line_cap:
            self._want_line(bytes(memoryview(buffer)[:count]))
        return count

    def _want_line(self, data: bytes) -> None:
        """Raises `Fault` if the line that goes on at the end of these bytes is too long."""
        last = max(data.rfind(b"\n"), data.rfind(b"\r"))
        self.line = self.line + len(data) if last < 0 else len(data) - last - 1
        if self.line > self.line_cap:
            raise Fault(f"{self.path}: a line of more than {self.line_cap} bytes")

    def close(self) -> None:
        if not self.closed:
            self.inner.close()
        super().close()


def capped(inner: BinaryIO, path: str, cap: int) -> io.BufferedReader:
    """Returns a stream that raises `Fault` with the path once more than `cap` bytes are read."""
    return io.BufferedReader(_Capped(inner, path, cap), _BUFFER)


def opened(path: str | bytes, cap: int, below: str | bytes | None = None, line_cap: int = 0) -> io.BufferedReader:
    """Opens a plain file for reading at most `cap` bytes, and lines of `line_cap` where that is given.

    Raises `Fault` if it is something else, or has more.
    """
    shown = os.fsdecode(path)
    with _at(shown, below) as (folder, name):
        descriptor = _plain(shown, name, folder, cap)
    return io.BufferedReader(_Capped(cast(BinaryIO, io.FileIO(descriptor)), shown, cap, line_cap), _BUFFER)


def read(path: str | bytes, cap: int, below: str | bytes | None = None) -> bytes:
    """Returns the bytes of a plain file. Raises `Fault` as `opened` does."""
    with opened(path, cap, below) as file:
        return file.read()


def want_plain(path: str | bytes, cap: int, below: str | bytes | None = None) -> int:
    """Returns the size of a plain file. Raises `Fault` if something else has its name, or it is longer than `cap`."""
    shown = os.fsdecode(path)
    with _at(shown, below) as (folder, name):
        return _plain_size(shown, os.stat(name, dir_fd=folder, follow_symlinks=folder is None), cap)


def kind_of(path: str | bytes, below: str | bytes | None = None) -> str | None:
    """Returns what has a name, or `None`. Raises `Fault` if a folder on the way is something else."""
    shown = os.fsdecode(path)
    if "\0" in shown:
        return None
    try:
        with _at(shown, below) as (folder, name):
            return _kind(os.stat(name, dir_fd=folder, follow_symlinks=folder is None).st_mode)
    except OSError as error:
        if error.errno in (errno.ENOENT, errno.ENAMETOOLONG):
            return None
        raise


def changed(path: str | bytes, below: str | bytes | None = None) -> int:
    """Returns when what has a name was changed last, in nanoseconds."""
    with _at(os.fsdecode(path), below) as (folder, name):
        return os.stat(name, dir_fd=folder, follow_symlinks=folder is None).st_mtime_ns


def exists(path: str | bytes, below: str | bytes | None = None) -> bool:
    """Returns whether something has a name."""
    return kind_of(path, below) is not None


def entries(path: str | bytes, below: str | bytes | None = None) -> list[Entry]:
    """Returns what a folder has, in the order of the names' bytes. Raises `Fault` if it is none, or has too much."""
    shown = os.fsdecode(path)
    found: list[Entry] = []
    with _folder(shown, below) as folder, _naming(shown), os.scandir(folder) as listing:
        for entry in listing:
            if len(found) == NAMES_CAP:
                raise Fault(f"{shown}: the folder has more than {NAMES_CAP} names")
            status = entry.stat(follow_symlinks=False)
            found.append(Entry(entry.name, _kind(status.st_mode), status.st_size))
    return sorted(found, key=lambda entry: os.fsencode(entry.name))


def _kind(mode: int) -> str:
    return next((kind for is_kind, kind in _KINDS if is_kind(mode)), "a device")


def _too_long(path: str, cap: int) -> Fault:
    return Fault(f"{path}: more than {cap} bytes, and no more are read")


def _want(kind: str, path: str, status: os.stat_result) -> None:
    found = _kind(status.st_mode)
    if found != kind:
        raise Fault(f"{path}: expected {kind}, found {found}")


def _plain_size(path: str, status: os.stat_result, cap: int) -> int:
    _want(FILE, path, status)
    if status.st_size > cap:
        raise _too_long(path, cap)
    return status.st_size


@contextlib.contextmanager
def _naming(path: str) -> Iterator[None]:
    """Gives a path to errors of the system that name none, or a part of it."""
    try:
        yield
    except OSError as error:
        error.filename = path
        raise


def _plain(path: str, name: str, folder: int | None, cap: int) -> int:
    """Opens the plain file that has a name in a folder."""
    _plain_size(path, os.stat(name, dir_fd=folder, follow_symlinks=folder is None), cap)
    descriptor = os.open(name, _READ | (0 if folder is None else os.O_NOFOLLOW), dir_fd=folder)
    try:
        # Another one may have come in its place.
        _plain_size(path, os.fstat(descriptor), cap)
    except BaseException:
        os.close(descriptor)
        raise
    return descriptor


@contextlib.contextmanager
def _at(path: str, below: str | bytes | None) -> Iterator[tuple[int | None, str]]:
    """Yields the folder of a path as a descriptor, none where links are followed, and the name there."""
    if "\0" in path:
        raise Fault(f"{path}: no path has a NUL")
    if below is None:
        with _naming(path):
            yield None, path
        return
    start = os.fsdecode(below)
    parts = _parts(path, start)
    with _folder(os.path.join(start, *parts[:-1]), start) as folder, _naming(path):
        yield folder, parts[-1]


@contextlib.contextmanager
def _folder(path: str, below: str | bytes | None) -> Iterator[int]:
    """Yields a folder as a descriptor; nothing is followed below another one, where one is named."""
    start = os.fsdecode(path if below is None else below)
    parts = [] if os.path.join(path, "") == os.path.join(start, "") else _parts(path, start)
    with contextlib.ExitStack() as stack:
        with _naming(start):
            _want(FOLDER, start, os.stat(start))
            folder = _held(stack, os.open(start, _READ | os.O_DIRECTORY))
        for count, part in enumerate(parts, 1):
            shown = os.path.join(start, *parts[:count])
            with _naming(shown):
                _want(FOLDER, shown, os.stat(part, dir_fd=folder, follow_symlinks=False))
                folder = _held(stack, os.open(part, _READ | os.O_DIRECTORY | os.O_NOFOLLOW, dir_fd=folder))
        yield folder


def _held(stack: contextlib.ExitStack, descriptor: int) -> int:
    stack.callback(os.close, descriptor)
    return descriptor


def _parts(path: str, below: str) -> list[str]:
    """Returns the names on the way from a folder to a path below it. Raises `Fault` if their form is not plain."""
    start = os.path.join(below, "")
    parts = path.removeprefix(start).split("/")
    if not path.startswith(start) or any(part in ("", ".", "..") for part in parts):
        raise Fault(f"{path}: not the plain form of a path below {below}")
    return parts
