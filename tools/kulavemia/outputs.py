"""Writes: whole or not at all, private, and in folders that no other user can change.

A file is made beside its place under a name by chance, and renamed when it is whole, so that a link in its place is
replaced and not followed. Faults of the system name the file.
"""

import argparse
import contextlib
import fcntl
import io
import os
import pwd
import re
import secrets
import shutil
import stat
import tempfile
from collections.abc import Iterator
from types import TracebackType
from typing import TYPE_CHECKING, BinaryIO, cast

from kulavemia.command import FAILED, WORDS, Fault

if TYPE_CHECKING:
    from _typeshed import ReadableBuffer

PRIVATE = "private"
SHARED = "shared"
LOCK = ".lock"

_PART = re.compile(r"\.[0-9a-f]{16}\.part")
_MASKS = {PRIVATE: 0o077, SHARED: 0o022}
_OTHERS_WRITE = stat.S_IWGRP | stat.S_IWOTH
_LINKS_LIMIT = 40
_NEW = os.O_CREAT | os.O_EXCL | os.O_NOFOLLOW | os.O_WRONLY | os.O_CLOEXEC
_MORE = os.O_CREAT | os.O_APPEND | os.O_NOFOLLOW | os.O_WRONLY | os.O_NONBLOCK | os.O_CLOEXEC
_STREAM = os.O_WRONLY | os.O_APPEND | os.O_NOCTTY | os.O_CLOEXEC


def add_option(words: argparse.ArgumentParser) -> None:
    """Adds the option that says who may read what is written."""
    words.add_argument(
        "--mode",
        choices=tuple(_MASKS),
        default=PRIVATE,
        help="private: what is written is for its owner alone (0600, folders 0700); shared: others may read it (0644,"
        " 0755) (default private)",
    )


def set_mode(mode: str) -> None:
    """Sets who may read what this process writes from now on."""
    os.umask(_MASKS[mode])


class _Named(io.FileIO):
    """A file whose faults name a path."""

    def __init__(self, descriptor: int, path: str, mode: str = "w") -> None:
        super().__init__(descriptor, mode)
        self.path = path

    def write(self, data: "ReadableBuffer") -> int:
        """Writes bytes."""
        with naming(self.path):
            count = super().write(data)
        return count

    def close(self) -> None:
        """Closes the file."""
        with naming(self.path):
            super().close()


@contextlib.contextmanager
def naming(path: str) -> Iterator[None]:
    """Gives a path to errors of the system."""
    try:
        yield
    except OSError as error:
        error.filename = path
        error.filename2 = None
        raise


class Fresh:
    """A file that is being written in a folder. It is removed if it is not kept. Faults name a path, or the folder."""

    def __init__(self, folder: str, path: str = "") -> None:
        want_own(folder)
        self.shown = path or folder
        self.part = os.path.join(folder, _part())

    def __enter__(self) -> "Fresh":
        with naming(self.shown):
            descriptor = os.open(self.part, _NEW, 0o666)
        self.file = cast(BinaryIO, io.BufferedWriter(_Named(descriptor, self.shown)))
        return self

    def write(self, data: bytes) -> None:
        """Writes bytes."""
        self.file.write(data)

    def keep(self, path: str) -> None:
        """Gives the whole file its name."""
        self.file.close()
        with naming(path):
            os.replace(self.part, path)

    def __exit__(self, kind: type | None, error: BaseException | None, trace: TracebackType | None) -> None:
        # What is left in the buffer of a file that is not kept may find no room.
        with contextlib.suppress(OSError):
            self.file.close()
        with contextlib.suppress(FileNotFoundError):
            os.unlink(self.part)


@contextlib.contextmanager
def written(path: str) -> Iterator[BinaryIO]:
    """Opens what takes the place of a file once all of it is written."""
    with Fresh(os.path.dirname(path), path) as fresh:
        yield fresh.file
        fresh.keep(path)


@contextlib.contextmanager
def replacing(path: str) -> Iterator[BinaryIO]:
    """Opens what takes the place of a file that a command line names.

    A terminal, a pipe or the like is written as it is.
    """
    if not is_stream(path):
        with written(path) as file:
            yield file
        return
    want_own(os.path.dirname(path))
    with naming(path):
        descriptor = os.open(path, _STREAM)
    with io.BufferedWriter(_Named(descriptor, path)) as stream:
        yield cast(BinaryIO, stream)


def is_stream(path: str) -> bool:
    """Returns whether a path is a terminal, a pipe or the like, or names a descriptor, as /dev/stdout does.

    Raises `Fault` at a disk or a socket, and at a pipe of another user.
    """
    try:
        mode = os.stat(path).st_mode
    except FileNotFoundError:
        return False
    if stat.S_ISBLK(mode) or stat.S_ISSOCK(mode):
        raise Fault(f"{path}: neither a file nor a stream", WORDS)
    folder = os.path.join(os.path.realpath(os.path.dirname(path)), "")
    if folder == "/dev/" or folder.startswith(("/dev/pts/", "/proc/")):
        return True
    if stat.S_ISREG(mode) or stat.S_ISDIR(mode):
        return False
    _want_own(path, os.stat(path))
    return True


@contextlib.contextmanager
def appended(path: str) -> Iterator[BinaryIO]:
    """Opens a file at its end. Its folder is one that `folder` made."""
    with naming(path):
        descriptor = os.open(path, _MORE, 0o666)
    with io.BufferedWriter(_Named(descriptor, path)) as file:
        yield cast(BinaryIO, file)


@contextlib.contextmanager
def new(path: str) -> Iterator[BinaryIO]:
    """Opens a file that is not there yet, in a folder that `folder` or `new_folder` made."""
    with naming(path):
        descriptor = os.open(path, _NEW, 0o666)
    with io.BufferedWriter(_Named(descriptor, path)) as file:
        yield cast(BinaryIO, file)


@contextlib.contextmanager
def new_folder(path: str) -> Iterator[str]:
    """Makes a folder that gets its name once all of it is written, and is removed otherwise."""
    above = os.path.dirname(path)
    want_own(above)
    part = os.path.join(above, _part())
    os.mkdir(part)
    try:
        yield part
        with naming(path):
            os.rename(part, path)
    except BaseException:
        shutil.rmtree(part, ignore_errors=True)
        raise


def remove_parts(path: str) -> None:
    """Removes what a run left in a folder that was killed. The folder is locked, so that no other run is at it."""
    for name in filter(_PART.fullmatch, os.listdir(path)):
        part = os.path.join(path, name)
        if os.path.isdir(part) and not os.path.islink(part):
            shutil.rmtree(part)
        else:
            os.unlink(part)


def _part() -> str:
    """Returns a name by chance for what has none yet."""
    return f".{secrets.token_hex(8)}.part"


@contextlib.contextmanager
def scratch() -> Iterator[BinaryIO]:
    """Opens a file without a name below TMPDIR, for writing and then reading; its faults name that folder."""
    descriptor, path = tempfile.mkstemp()
    os.unlink(path)
    with io.BufferedRandom(_Named(descriptor, os.path.dirname(path), "r+")) as file:
        yield cast(BinaryIO, file)


def folder(path: str) -> str:
    """Makes a folder, with those above it, and returns it. Raises `Fault` if another user could change it."""
    want_own(path)
    os.makedirs(path, exist_ok=True)
    return path


def want_own(path: str) -> None:
    """Raises `Fault` if a folder, or one on the way to it, is of another user, or can be written by others.

    A folder above may be written by others where none may remove what is not theirs there, as /tmp is.
    """
    here, left = "/", os.path.join(os.getcwd(), path).split("/")[::-1]
    _want_own(here, os.lstat(here))
    links = 0
    while left:
        part = left.pop()
        if part in ("", ".", ".."):
            here = os.path.dirname(here) if part == ".." else here
            continue
        at = os.path.join(here, part)
        try:
            status = os.lstat(at)
        except FileNotFoundError:
            return
        _want_own(at, status)
        if not stat.S_ISLNK(status.st_mode):
            here = at
            continue
        links += 1
        if links > _LINKS_LIMIT:
            raise Fault(f"{path}: more than {_LINKS_LIMIT} links on the way", WORDS)
        target = os.readlink(at)
        here = "/" if target.startswith("/") else here
        left.extend(target.split("/")[::-1])


def _want_own(path: str, status: os.stat_result) -> None:
    """Raises `Fault` if a folder or a link is of another user, or a folder can be written by others."""
    if status.st_uid not in (0, os.geteuid()):
        raise Fault(
            f"{path} is of the user {_user(status.st_uid)}, who could change what is written there:"
            " name another folder",
            WORDS,
        )
    is_guarded = status.st_mode & stat.S_ISVTX and status.st_uid == 0
    if stat.S_ISDIR(status.st_mode) and status.st_mode & _OTHERS_WRITE and not is_guarded:
        advice = "take that from them (chmod go-w), or name another folder"
        raise Fault(f"{path} can be written by other users: {advice}", WORDS)


def _user(uid: int) -> str:
    try:
        return pwd.getpwuid(uid).pw_name
    except KeyError:
        return f"#{uid}"


@contextlib.contextmanager
def locked(path: str, with_others: bool = False) -> Iterator[None]:
    """Makes a folder, and keeps other runs out of it, but for those that work in it together.

    Raises `Fault` with the process that works there already.
    """
    place = os.path.join(folder(path), LOCK)
    if os.stat(path).st_mode & _OTHERS_WRITE:
        raise Fault(f"{path} can be written by other users: name a folder below it", WORDS)
    with naming(place):
        descriptor = _lock(place, path, fcntl.LOCK_SH if with_others else fcntl.LOCK_EX)
    try:
        with naming(place):
            os.ftruncate(descriptor, 0)
            os.pwrite(descriptor, b"%d\n" % os.getpid(), 0)
        yield
    finally:
        # The file goes with the last run.
        with contextlib.suppress(OSError):
            fcntl.flock(descriptor, fcntl.LOCK_EX | fcntl.LOCK_NB)
            os.unlink(place)
        os.close(descriptor)


def _lock(place: str, path: str, kind: int) -> int:
    """Returns a descriptor of the lock's file, once it is locked and still has its name."""
    while True:
        descriptor = os.open(place, os.O_CREAT | os.O_RDWR | os.O_NOFOLLOW | os.O_NONBLOCK | os.O_CLOEXEC, 0o600)
        try:
            _want_lock(descriptor, place)
            fcntl.flock(descriptor, kind | fcntl.LOCK_NB)
            if _has_name(descriptor, place):
                return descriptor
        except BlockingIOError:
            holder = _holder(descriptor)
            os.close(descriptor)
            raise Fault(f"{path}: {holder} works in this folder", FAILED) from None
        except BaseException:
            os.close(descriptor)
            raise
        os.close(descriptor)


def _want_lock(descriptor: int, place: str) -> None:
    """Raises `Fault` if a file is no lock, since another user made it, or it has further names."""
    status = os.fstat(descriptor)
    if not stat.S_ISREG(status.st_mode) or status.st_uid not in (0, os.geteuid()) or status.st_nlink > 1:
        raise Fault(f"{place} is no lock of a run: remove it, or name another folder", WORDS)


def _holder(descriptor: int) -> str:
    """Returns the process that a lock names."""
    text = os.pread(descriptor, 20, 0).strip()
    return f"the process {text.decode()}" if text.isdigit() else "another process"


def _has_name(descriptor: int, path: str) -> bool:
    """Returns whether a file that is open still has its name."""
    try:
        return os.path.samestat(os.fstat(descriptor), os.stat(path, follow_symlinks=False))
    except FileNotFoundError:
        return False
