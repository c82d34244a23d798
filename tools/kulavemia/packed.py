"""Compressed logs, unpacked in bounded memory."""

import bz2
import gzip
import io
import lzma
from collections.abc import Callable
from typing import TYPE_CHECKING, BinaryIO, cast

from kulavemia import foreign

if TYPE_CHECKING:
    from _typeshed import WriteableBuffer

# xz -9 wants half of this; a file may ask for 4 GiB.
_MEMORY_CAP = 1 << 27
_CHUNK = 1 << 16


class _Xz(io.RawIOBase):
    """The bytes of xz streams, one behind the other."""

    def __init__(self, raw: BinaryIO) -> None:
        self.raw = raw
        self.waiting = b""
        self._begin()

    def _begin(self) -> None:
        self.stream = lzma.LZMADecompressor(lzma.FORMAT_XZ, memlimit=_MEMORY_CAP)

    def readable(self) -> bool:
        return True

    def readinto(self, buffer: "WriteableBuffer") -> int:
        """Unpacks some bytes. Raises `EOFError` where a stream is cut, and `lzma.LZMAError` where it is damaged."""
        room = memoryview(buffer)
        while True:
            if self.stream.eof:
                self.waiting = self._following()
                if not self.waiting:
                    return 0
                self._begin()
            elif self.stream.needs_input and not self.waiting:
                self.waiting = self.raw.read(_CHUNK)
                if not self.waiting:
                    raise EOFError("the file ended before the end of its stream")
            data = self.stream.decompress(self.waiting, len(room))
            self.waiting = b""
            if data:
                room[: len(data)] = data
                return len(data)

    def _following(self) -> bytes:
        """Returns what follows a stream, none at the end. Zeros may fill the room between streams."""
        data = self.stream.unused_data.lstrip(b"\0")
        while not data:
            chunk = self.raw.read(_CHUNK)
            if not chunk:
                return b""
            data = chunk.lstrip(b"\0")
        return data


_FORMS: dict[bytes, Callable[[BinaryIO], object]] = {b"\x1f\x8b": gzip.open, b"BZh": bz2.open, b"\xfd7zXZ\0": _Xz}


def unpacked(raw: io.BufferedReader, path: str, cap: int) -> io.BufferedReader:
    """Returns what reads a file unpacked, if it is compressed. It raises `Fault` past so many bytes."""
    start = raw.peek(6)
    for magic, opened in _FORMS.items():
        if start.startswith(magic):
            return foreign.capped(cast(BinaryIO, opened(raw)), path, cap)
    return raw
