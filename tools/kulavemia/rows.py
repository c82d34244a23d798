"""CSV as the program reads and writes it.

Bytes that are no UTF-8 pass through unchanged.
"""

import contextlib
import csv
import io
import re
from collections.abc import Iterable, Iterator, Sequence
from typing import BinaryIO

from kulavemia import foreign, limits, outputs
from kulavemia.command import Fault

csv.field_size_limit(limits.CSV_BYTES)

_QUOTED = re.compile('[",\r\n]')


def open_read(path: str) -> io.TextIOWrapper:
    """Opens a file for reading, whatever its bytes are."""
    return as_text(foreign.opened(path, foreign.TABLE_CAP, line_cap=foreign.TABLE_LINE_CAP))


@contextlib.contextmanager
def open_write(path: str, mode: str = "w") -> Iterator[io.TextIOWrapper]:
    """Opens a file for writing, whatever its bytes will be: what takes its place once it is whole, or (`a`) its end."""
    with outputs.appended(path) if mode == "a" else outputs.written(path) as file, _written_text(file) as text:
        yield text


@contextlib.contextmanager
def replacing(path: str) -> Iterator[io.TextIOWrapper]:
    """Opens what takes the place of a file once it is whole; a terminal, a pipe or the like is written as it is."""
    with outputs.replacing(path) as file, _written_text(file) as text:
        yield text


def as_text(file: BinaryIO) -> io.TextIOWrapper:
    """Returns a file as text, whatever its bytes are."""
    return io.TextIOWrapper(file, encoding="utf-8", errors="surrogateescape", newline="")


@contextlib.contextmanager
def _written_text(file: BinaryIO) -> Iterator[io.TextIOWrapper]:
    """Yields a file as text, and leaves the file open."""
    text = as_text(file)
    try:
        yield text
        text.flush()
    finally:
        # What is left is not to hide why it is.
        with contextlib.suppress(OSError):
            text.detach()


def row(fields: Sequence[str]) -> str:
    """Returns a row; a field with a comma, a quote or an end of a line is quoted."""
    text = ",".join(fields)
    if text.count(",") < len(fields) and '"' not in text and "\n" not in text and "\r" not in text:
        return text + "\n"
    return ",".join(_field(field) for field in fields) + "\n"


def _field(text: str) -> str:
    if _QUOTED.search(text):
        return '"' + text.replace('"', '""') + '"'
    return text


def write_rows(path: str, header: Sequence[str], body: Iterable[Sequence[str]]) -> None:
    """Writes a file of a header and rows."""
    with open_write(path) as file:
        file.write(row(header))
        file.writelines(row(fields) for fields in body)


def header_of(path: str) -> list[str]:
    """Returns the first record of a file, empty if it has none."""
    with open_read(path) as file:
        try:
            return _first(csv.reader(file, strict=True))
        except csv.Error as error:
            raise Fault(f"{path}:1: {error}") from None


def _first(reader: Iterator[list[str]]) -> list[str]:
    """Returns the first record that is left, without a byte order mark."""
    first: list[str] = next(reader, [])
    return [first[0].removeprefix("\ufeff"), *first[1:]] if first else []


def read_rows(text: bytes) -> Iterator[list[str]]:
    """Yields the rows of a text. Raises `Fault` at what is no CSV."""
    try:
        yield from csv.reader(as_text(io.BytesIO(text)))
    except csv.Error as error:
        raise Fault(str(error)) from None


def records(path: str, header: Sequence[str]) -> Iterator[tuple[int, list[str]]]:
    """Yields each record after the header with its line. Raises `Fault` at another header or number of fields."""
    with open_read(path) as file:
        yield from _records(file, path, header)


def read_open(file: BinaryIO, place: str, header: Sequence[str]) -> Iterator[tuple[int, list[str]]]:
    """Yields what `records` does of a file that is open, and leaves it so. A fault names the place."""
    text = as_text(file)
    try:
        yield from _records(text, place, header)
    finally:
        text.detach()


def _records(file: io.TextIOWrapper, path: str, header: Sequence[str]) -> Iterator[tuple[int, list[str]]]:
    reader = csv.reader(file, strict=True)
    try:
        if _first(reader) != list(header):
            raise Fault(f"{path}:1: bad header, expected {','.join(header)}")
        for fields in reader:
            if not fields:
                continue
            if len(fields) != len(header):
                raise Fault(f"{path}:{reader.line_num}: {len(fields)} fields, expected {len(header)}")
            yield reader.line_num, fields
    except csv.Error as error:
        raise Fault(f"{path}:{reader.line_num}: {error}") from None
