"""Logs with entries of sudo: syslog's lines, sudo's own file, the journal as JSON, and sudo's JSON events."""

import calendar
import datetime
import errno
import io
import json
import lzma
import os
import re
import sys
import time
import zlib
from collections import deque
from collections.abc import Callable, Collection, Iterator
from typing import IO, Any, NamedTuple, cast

from kulavemia import foreign
from kulavemia.journal import IDENTIFIERS, SUDO_PATHS, forgery_of
from kulavemia.messages import (
    FORGED,
    OTHER,
    UNREAD,
    Event,
    Pairs,
    Skipped,
    event_of,
    event_of_json,
    json_events,
    noted,
)
from kulavemia.packed import unpacked

LINE_LIMIT = 1 << 22
WINDOW = 256
# What begins a line of sudo's own file that goes on with the line above.
FOLD = "    "
# The default of syslog_maxlen in the sources of sudo, and in its manual.
SYSLOG_LENGTHS = (960, 980)
_COMMAND = "COMMAND="
_JSON = "@cee:"
_CONTINUED = "(command continued)"
_CONTINUED_LENGTH = len("%8s : (command continued) %s") - 5

_MONTHS = {name: number for number, name in enumerate("Jan Feb Mar Apr May Jun Jul Aug Sep Oct Nov Dec".split(), 1)}
_DATE = r"(?P<month>[A-Z][a-z]{2}) (?P<day>[ \d]?\d)"
_CLOCK = r"(?P<clock>\d\d:\d\d:\d\d(?:\.\d+)?)"
_SYSLOG = re.compile(
    r"(?:<\d{1,3}>)?(?:(?P<iso>\d{4}-\d\d-\d\d[T ]\d\d:\d\d:\S+)|(?P<before>\d{4} )?"
    + _DATE
    + r" (?P<middle>\d{4} )?"
    + _CLOCK
    + r"(?P<after> \d{4})?(?: [A-Z]{3,5})?) (?P<host>\S+) (?P<tag>[^\s\[:]+)(?:\[(?P<pid>\d+)\])?: ?(?P<text>.*)",
    re.DOTALL,
)
_FRAMED = re.compile(
    (
        r"<\d{1,3}>1 (?P<iso>\S+) (?P<host>\S+) (?P<tag>\S+) (?P<pid>\S+) \S+"
        r" (?:-|(?:\[(?:[^\]\"]|\"(?:[^\"\\]|\\.)*\")*\])+) ?(?P<text>.*)"
    ),
    re.DOTALL,
)
_OWN = re.compile(_DATE + " " + _CLOCK + r"(?P<after> \d{4})? : (?P<user>.*?) : (?P<text>.*)", re.DOTALL)
_REPEATED = re.compile(r"message repeated (\d+) times: \[ ?(.*)\]$", re.DOTALL)
_STRING = re.compile(r'"(?:[^"\\]|\\.)*(?:"|$)', re.DOTALL)
# What reading a log may raise, a compressed one that is damaged among them.
UNREADABLE = (OSError, EOFError, lzma.LZMAError, zlib.error)
_DESCRIPTOR = re.compile(r"/dev/stdin|/dev/fd/[0-9]+")
_HALVES = re.compile("[\ud800-\udbff\udc00-\udc7f\udd00-\udfff]")


class Options(NamedTuple):
    """How logs are read."""

    host: str = ""
    year: int | None = None
    quoting: str = "auto"
    syslog_lengths: Collection[int] = SYSLOG_LENGTHS
    sudo_paths: Collection[str] = SUDO_PATHS
    below: str | None = None


class Found(NamedTuple):
    """A line of a log, with its time, and its event or why it has none."""

    line: int
    time: str
    event: Event | Skipped


class _Message:
    """A message of sudo whose end may still come."""

    __slots__ = ("line", "time", "host", "user", "pieces", "size", "note")

    def __init__(self, line: int, time: str, host: str, user: str, text: str, note: str = "") -> None:
        self.line = line
        self.time = time
        self.host = host
        self.user = user
        self.pieces = [text]
        self.size = len(text)
        self.note = note

    def add(self, text: str, lengths: Collection[int]) -> None:
        """Adds a further piece. sudo cuts at a blank, or at its limit of bytes where the piece has no blank."""
        last = self.pieces[-1]
        size = len(last.encode("utf-8", "surrogateescape")) + len(self.user.encode("utf-8", "surrogateescape"))
        if " " in last or size + _CONTINUED_LENGTH not in lengths:
            self.pieces[-1] += " "
        self.pieces.append(text)
        self.size += len(text)

    def found(self, quoting: str) -> Found:
        """Returns what the whole message says."""
        event = event_of(self.user, self.host, "".join(self.pieces), quoting)
        if self.note and isinstance(event, Event):
            event = noted(event, self.note)
        return Found(self.line, self.time, event)


def opened(path: str, below: str | None = None) -> tuple[IO[bytes], IO[bytes]]:
    """Opens a log, also a compressed one. Returns the bytes as stored and as they read.

    No link is followed below a folder, where one is named. Raises `Fault` if the log is neither a plain file nor a
    descriptor that the command was handed, and once it has more bytes than are read, unpacked ones included.
    """
    raw = _handed(path) or foreign.opened(path, foreign.LOG_CAP, below)
    return raw, unpacked(raw, path, foreign.LOG_CAP)


def size_of(path: str, below: str | None = None) -> int:
    """Returns how many bytes a log has as it is stored; 0 for one that comes by a descriptor."""
    return 0 if is_handed(path) else foreign.want_plain(path, foreign.LOG_CAP, below)


def is_handed(path: str) -> bool:
    """Returns whether a log comes by a descriptor that the command was handed, and can be read once."""
    return path == "-" or _DESCRIPTOR.fullmatch(path) is not None


def _handed(path: str) -> io.BufferedReader | None:
    """Returns a log that comes by a descriptor, as that of a pipe; `-` is standard input."""
    if path == "-":
        return cast(io.BufferedReader, sys.stdin.buffer)
    return open(path, "rb") if _DESCRIPTOR.fullmatch(path) else None


class _Line(NamedTuple):
    """A physical line of a log."""

    number: int
    text: str


class _Entry(NamedTuple):
    """A line of a log; of sudo's own file with the lines that are folded behind it."""

    line: int
    text: str
    is_own: bool


class _Value(NamedTuple):
    """A value of JSON, and the line where it begins."""

    line: int
    value: Any


class _Reader:
    """Reads the lines and the values of a log, and says of each line that it leaves out why."""

    def __init__(self, file: IO[str], moved: Callable[[], None]) -> None:
        self.file = file
        self.moved = moved
        # Lines that are to be read again.
        self.back: list[_Line] = []

    def _lines(self) -> Iterator[_Line | Found]:
        """Yields the physical lines, and why one that is too long is left out."""
        number = 0
        while text := self.file.readline(LINE_LIMIT):
            number += 1
            if number % 4096 == 0:
                self.moved()
            if len(text) == LINE_LIMIT and not text.endswith("\n"):
                while text and not text.endswith("\n"):
                    text = self.file.readline(LINE_LIMIT)
                yield Found(number, "", Skipped("the line is too long"))
                continue
            yield _Line(number, text.rstrip("\r\n"))
            while self.back:
                yield self.back.pop()

    def entries(self) -> Iterator[_Entry | _Value | Found]:
        """Yields lines and values; folded lines of sudo's own file, and those of a value, are put together."""
        held: tuple[int, list[str]] | None = None
        size = 0
        lines = self._lines()
        for read in lines:
            if isinstance(read, Found):
                yield read
                continue
            line, text = read
            if held is not None:
                if text.startswith(FOLD) and size < LINE_LIMIT:
                    held[1].append(text.removeprefix(FOLD))
                    size += len(text)
                    continue
                yield _Entry(held[0], " ".join(held[1]), True)
                held = None
            if _OWN.match(text):
                held, size = (line, [text]), len(text)
            elif text.startswith(("{", "[")):
                yield from self._json(read, lines)
            else:
                yield _Entry(line, text, False)
        if held is not None:
            yield _Entry(held[0], " ".join(held[1]), True)

    def _json(self, read: _Line, lines: Iterator[_Line | Found]) -> Iterator[_Value | Found]:
        """Yields the value of a line of JSON, or those of the lines over which it goes."""
        try:
            value = parsed(read.text)
        except ValueError:
            yield from self._long_json(read, lines)
        else:
            yield _Value(read.number, value)

    def _long_json(self, read: _Line, lines: Iterator[_Line | Found]) -> Iterator[_Value | Found]:
        """Yields the members of an object that goes over several lines, one at a time."""
        line, text = read
        depth, start, size = 0, line, 0
        parts: list[str] = []
        while True:
            bare = _STRING.sub("", text)
            opened_at = depth
            depth += bare.count("{") + bare.count("[") - bare.count("}") - bare.count("]")
            if opened_at == 0:
                text = text.lstrip()[1:]
            if text.strip(" ,]}") or parts:
                start = start if parts else line
                parts.append(text)
                size += len(text)
            if depth <= 1 and parts:
                yield _member(start, "".join(parts), depth)
                parts, size = [], 0
            if depth <= 0 or size > LINE_LIMIT:
                break
            following = next(lines, None)
            while isinstance(following, Found):
                yield following
                following = next(lines, None)
            if following is None:
                break
            # What begins anew belongs to no value that was cut.
            if following.text.startswith(("{", "[")) or any(f.match(following.text) for f in (_SYSLOG, _FRAMED, _OWN)):
                self.back.append(following)
                break
            line, text = following
        if depth > 0:
            yield Found(start if parts else line, "", Skipped("JSON that does not end", UNREAD))


def _member(line: int, text: str, depth: int) -> _Value | Found:
    """Returns a member of an object, of which what closes the object may stand behind it."""
    text = text.strip().rstrip(",")
    if depth <= 0 and text.endswith("}"):
        text = text[:-1]
    try:
        return _Value(line, parsed("{" + text + "}"))
    except ValueError:
        return Found(line, "", Skipped("no JSON", UNREAD))


class Log:
    """Reads a log from its start to its end."""

    def __init__(self, path: str, options: Options, at: Callable[[int], None] = lambda done: None) -> None:
        self.path = path
        self.options = options
        self.at = at
        self.raw, inner = opened(path, options.below)
        self.file = io.TextIOWrapper(inner, encoding="utf-8", errors="surrogateescape", newline="\n")
        # No line is of a time to come, whatever time the file has.
        newest = min(max(0, os.stat(path).st_mtime), time.time()) if path != "-" else time.time()
        self.newest = datetime.datetime.fromtimestamp(newest)
        self.waiting: deque[_Message | Found] = deque()
        self.latest: dict[tuple[str, str], _Message] = {}
        self.dates: dict[tuple[str | Any, ...], str] = {}

    def __iter__(self) -> Iterator[Found]:
        """Yields the content of each line, in order."""
        with self.raw, self.file:
            try:
                for entry in _Reader(self.file, self._show_place).entries():
                    self._take(entry)
                    while len(self.waiting) > WINDOW:
                        yield self._next()
            except UNREADABLE as error:
                raise OSError(getattr(error, "errno", None) or errno.EIO, str(error), self.path) from None
        while self.waiting:
            yield self._next()

    def _show_place(self) -> None:
        """Says how much of the log is read, where that is known."""
        if self.path != "-" and self.raw.seekable():
            self.at(self.raw.tell())

    def _take(self, entry: _Entry | _Value | Found) -> None:
        """Takes a line or a value."""
        if isinstance(entry, Found):
            self.waiting.append(entry)
        elif isinstance(entry, _Value):
            self._value(entry.line, "", "", entry.value)
        else:
            self._read(*entry)

    def _next(self) -> Found:
        first = self.waiting.popleft()
        if isinstance(first, Found):
            return first
        if self.latest.get((first.host, first.user)) is first:
            del self.latest[first.host, first.user]
        return first.found(self.options.quoting)

    def _skip(self, line: int, reason: str, time: str = "", kind: str = OTHER) -> None:
        self.waiting.append(Found(line, time, Skipped(reason, kind)))

    def _read(self, line: int, text: str, is_own: bool) -> None:
        own = _OWN.match(text) if is_own else None
        if own:
            time = self._day(own.group("month", "day", "after")) + own["clock"]
            self._hold(_Message(line, time, self.options.host, own["user"], own["text"]))
            return
        match = _SYSLOG.match(text) or _FRAMED.match(text)
        if match is None:
            reason = "no line of a log that is known" if text.strip() else "an empty line"
            self._skip(line, reason, kind=UNREAD if _COMMAND in text else OTHER)
            return
        time = self._time(match)
        host, tag, message = match.group("host", "tag", "text")
        if tag in ("sudo", "sudoedit"):
            self._message(line, time, host, message)
        else:
            self._skip(line, "not of sudo", time)

    def _message(self, line: int, time: str, host: str, text: str) -> None:
        """Takes a message of sudo in a log of the system."""
        repeated = _REPEATED.match(text) if text.startswith("message repeated") else None
        note = f"repeated {repeated[1]} times" if repeated else ""
        text = repeated[2] if repeated else text
        if text.startswith(_JSON):
            self._values(line, time, host, text.removeprefix(_JSON))
            return
        user, colon, rest = text.partition(" : ")
        user = user.strip(" ")
        if not colon:
            self._skip(line, f"no request: {text.strip()[:80]}", time)
        elif rest.startswith(_CONTINUED):
            self._continue(line, time, host, user, rest[len(_CONTINUED) + 1 :])
        else:
            self._hold(_Message(line, time, host, user, rest, note))

    def _hold(self, message: _Message) -> None:
        self.waiting.append(message)
        self.latest[message.host, message.user] = message

    def _continue(self, line: int, time: str, host: str, user: str, text: str) -> None:
        message = self.latest.get((host, user))
        if message is None or message.size > LINE_LIMIT:
            self._skip(line, "continues a command that does not stand before it", time, UNREAD)
        else:
            message.add(text, self.options.syslog_lengths)

    def _time(self, match: re.Match[str]) -> str:
        if match["iso"] is not None:
            return match["iso"].replace(" ", "T")
        return self._day(match.group("month", "day", "before", "middle", "after")) + match["clock"]

    def _day(self, date: tuple[str | Any, ...]) -> str:
        """Returns the part of a time before the clock's; the last one is kept."""
        if date not in self.dates:
            self.dates = {date: self._date(*date)}
        return self.dates[date]

    def _date(self, name: str, day: str, *years: str | None) -> str:
        """Returns a month, a day and years as the part of a time before the clock's.

        A year that is not given is the last one that fits the log's end, or a day later, since zones differ.
        """
        month = _MONTHS.get(name)
        if month is None:
            return ""
        given = next((int(year) for year in years if year), self.options.year)
        newest = self.newest + datetime.timedelta(days=1)
        later = (month, int(day)) > (newest.month, newest.day)
        year = given if given is not None else newest.year - later
        while given is None and (month, int(day)) == (2, 29) and not calendar.isleap(year):
            year -= 1
        return f"{year:04}-{month:02}-{int(day):02}T"

    def _values(self, line: int, time: str, host: str, text: str) -> None:
        try:
            self._value(line, time, host, parsed(text))
        except ValueError:
            self._skip(line, "no JSON", time, UNREAD)

    def _value(self, line: int, time: str, host: str, value: Any) -> None:
        """Takes a JSON value: events of sudo's own, or an entry of the journal."""
        events = json_events(value)
        for kind, body in events:
            its_time, event = event_of_json(kind, body, host or self.options.host)
            self.waiting.append(Found(line, its_time or time, event))
        if not events:
            self._journal(line, dict(value) if isinstance(value, Pairs) else {})

    def _journal(self, line: int, fields: dict[str, Any]) -> None:
        time = _journal_time(fields.get("__REALTIME_TIMESTAMP"))
        if "SYSLOG_IDENTIFIER" not in fields:
            told = any(_COMMAND in value for value in fields.values() if isinstance(value, str))
            self._skip(line, "JSON without an event of sudo", time, UNREAD if told else OTHER)
        elif fields["SYSLOG_IDENTIFIER"] not in IDENTIFIERS:
            self._skip(line, "not of sudo", time)
        else:
            self._entry(line, time, fields)

    def _entry(self, line: int, time: str, fields: dict[str, Any]) -> None:
        """Takes an entry of the journal under sudo's name. A request that another program wrote is forged."""
        text = _journal_text(fields.get("MESSAGE"))
        host = fields.get("_HOSTNAME")
        forgery = forgery_of(fields, self.options.sudo_paths)
        if forgery and (text is None or " : " in text or text.startswith(_JSON)):
            self._skip(line, forgery, time, FORGED)
        elif text is None:
            self._skip(line, "no message", time, UNREAD)
        else:
            self._message(line, time, host if isinstance(host, str) else self.options.host, text)


def _clean(value: Any) -> Any:
    """Returns a JSON value whose texts can be written as UTF-8 and bytes that are none."""
    if isinstance(value, str):
        return _HALVES.sub("\ufffd", value)
    if isinstance(value, Pairs):
        return Pairs((_clean(key), _clean(inner)) for key, inner in value)
    if isinstance(value, list):
        return [_clean(inner) for inner in value]
    return value


def parsed(text: str) -> Any:
    """Returns a JSON value, an object as its pairs. Raises `ValueError`."""
    try:
        value = json.loads(text, object_pairs_hook=Pairs)
        return _clean(value) if _HALVES.search(text) or "\\u" in text else value
    except RecursionError:
        raise ValueError("nested too deep") from None


def _journal_time(stamp: Any) -> str:
    if not isinstance(stamp, str) or not stamp.isdecimal() or len(stamp) > 17:
        return ""
    moment = datetime.datetime.fromtimestamp(int(stamp) / 1e6, datetime.timezone.utc)
    return moment.strftime("%Y-%m-%dT%H:%M:%SZ")


def _journal_text(message: Any) -> str | None:
    """Returns a message of the journal, which has bytes as numbers where they are no text."""
    if isinstance(message, str):
        return message
    if isinstance(message, list) and all(isinstance(byte, int) and 0 <= byte < 256 for byte in message):
        return bytes(message).decode("utf-8", "surrogateescape")
    return None
