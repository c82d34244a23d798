"""Sums of what is read, to tell whether it is the same again."""

import hashlib
import os
from collections.abc import Sequence
from typing import NamedTuple

from kulavemia import foreign


class File(NamedTuple):
    """A file that was read: its size, its SHA-256, and when it was changed last, in nanoseconds; none of one that is gone."""

    path: str
    size: int = 0
    sum: str = ""
    changed: int = 0


def digest_of(parts: Sequence[bytes]) -> str:
    """Returns a digest of byte strings, whatever is in them."""
    found = hashlib.sha256()
    for part in parts:
        found.update(b"%d:" % len(part))
        found.update(part)
    return found.hexdigest()


def file_of(path: str, cap: int, below: str | None = None) -> File:
    """Returns what a file is like. Raises `Fault` as `foreign.opened` does."""
    with foreign.opened(path, cap, below) as file:
        found = hashlib.file_digest(file, "sha256").hexdigest()
        status = os.fstat(file.fileno())
    return File(path, status.st_size, found, status.st_mtime_ns)


def file_of_text(path: str, text: bytes, changed: int = 0) -> File:
    """Returns what a file is like whose text was read."""
    return File(path, len(text), hashlib.sha256(text).hexdigest(), changed)
