"""CSV that people open: foreign text as it is shown, and, where that is asked for, no field that is a formula.

No two fields are shown alike, so that `shown_records` returns what was written. The form for spreadsheets begins with a
byte order mark: so they read UTF-8, and `shown_records` expects apostrophes.
"""

from argparse import ArgumentParser
from collections.abc import Iterator, Sequence
from typing import NamedTuple

from kulavemia.rows import open_read, read_rows, records, row
from kulavemia.text import exact, is_visible, visible

_MARK = "\ufeff"
_APOSTROPHE = "'"
# What begins with one of the first six may be a formula; a further apostrophe before one lets all be read back.
_MARKED = ("=", "+", "-", "@", "\t", "\r", _APOSTROPHE)


class Form(NamedTuple):
    """How rows are written for people: for a terminal, or for a spreadsheet."""

    spreadsheet: bool = False

    def head(self, header: Sequence[str]) -> str:
        """Returns the first row of a file."""
        return (_MARK if self.spreadsheet else "") + row(header)

    def row(self, fields: Sequence[str]) -> str:
        """Returns a row."""
        if not self.spreadsheet and is_visible("".join(fields)):
            return row(fields)
        return row([self._field(field) for field in fields])

    def _field(self, text: str) -> str:
        mark = _APOSTROPHE if self.spreadsheet and text.startswith(_MARKED) else ""
        return mark + visible(text)


def add_option(words: ArgumentParser) -> None:
    """Adds the option that asks for the form for spreadsheets."""
    words.add_argument(
        "--spreadsheet",
        action="store_true",
        help=(
            "write CSV of which a spreadsheet takes no field for a formula: with an apostrophe before a field that"
            " begins with =, +, -, @, a tab, a carriage return or an apostrophe, and a byte order mark"
        ),
    )


def shown_records(path: str, header: Sequence[str]) -> Iterator[tuple[int, list[str]]]:
    """Yields what `records` does of a file that was written in a `Form`, with the fields that were written."""
    with open_read(path) as file:
        mark = _APOSTROPHE if file.read(1) == _MARK else ""
    for line, fields in records(path, header):
        is_exact = not mark and is_visible("".join(fields))
        yield line, fields if is_exact else [exact(field.removeprefix(mark)) for field in fields]


def in_form(rows: bytes, form: Form) -> bytes:
    """Returns rows without a header that were written in the plain form, in another one."""
    if not form.spreadsheet:
        return rows
    return "".join(form.row([exact(field) for field in fields]) for fields in read_rows(rows)).encode()
