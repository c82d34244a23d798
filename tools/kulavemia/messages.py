"""The messages of sudo on a command: the text behind the user's name, and the events of its JSON logs."""

import functools
import re
from collections.abc import Mapping
from typing import Any, NamedTuple

from kulavemia.requests import Request

ACCEPTED = "accepted"
REFUSED = "refused"
FAILED = "failed"

# Why a line has no request: it is not sudo's or asks for nothing, it is sudo's and cannot be read, or it is not sudo's
# although it says so.
OTHER = "other"
UNREAD = "unread"
FORGED = "forged"

SUDOEDIT = "sudoedit"
# The notes of a request that may have been one to edit files, and of the one to edit that follows it.
MAY_BE_EDIT = "may be sudoedit"
AS_EDIT = "the request before as sudoedit"
ASKED_TO_LIST = ("list", "validate", "kill")
EDITORS = frozenset(
    "ed editor emacs emacsclient joe jed mcedit mg micro nano ne nvim pico rnano rvim sensible-editor vi vim vim.basic "
    "vim.nox vim.tiny zile".split()
)

_REFUSALS = re.compile(r"command not allowed|user not (in sudoers|authorized on host)", re.IGNORECASE)
_COMMAND = re.compile(r"(?:^| ; )COMMAND=")
_HOST = re.compile(r"HOST=(\S*) : ")
_FIELDS = frozenset("HOST TTY CHROOT PWD USER GROUP TSID ENV".split())
_OCTAL = re.compile(r"#0(177|0[1-7]|[1-3][0-7]|40|[1-7](?![0-7]))")
_QUOTED = r"'(?:[^ '\\]|\\['\\])* (?:[^'\\]|\\['\\])*'"
_BARE = r"(?:[^ '\\]|\\['\\])*"
_ARGUMENT = re.compile(f"{_QUOTED}|{_BARE}")
_ARGUMENTS = re.compile(f"(?:{_QUOTED}|{_BARE})(?: (?:{_QUOTED}|{_BARE}))*")
_ESCAPE = re.compile(r"\\(['\\])")
# What stands between an editor with its options and the files to edit.
_FILES = re.compile(r"(?:^| )-- (?=.)", re.DOTALL)


class Event(NamedTuple):
    """A request as a log has it, and what sudo made of it."""

    request: Request
    outcome: str
    reason: str
    note: str


class Skipped(NamedTuple):
    """Why a line of a log has no request, and of which kind that is."""

    reason: str
    kind: str = OTHER


def outcome_of(reason: str) -> str:
    """Returns what a reason in a log says: the rules refused, or something else failed before or after them."""
    if not reason:
        return ACCEPTED
    return REFUSED if _REFUSALS.match(reason) else FAILED


def _control(match: re.Match[str]) -> str:
    return chr(int(match[1], 8))


@functools.lru_cache(maxsize=4096)
def arguments_of(text: str, quoting: str = "auto") -> tuple[str, str]:
    """Returns arguments as the rules compare them, one space apart, and a note on what was read otherwise than written.

    From version 1.9.13 on sudo writes an argument with blanks in single quotes, and backslashes before quotes and
    backslashes. Under `auto` a text that is well formed by this rule is read by it, and any other as it stands.
    """
    notes = []
    read = text
    if quoting != "literal" and ("'" in text or "\\" in text):
        if _ARGUMENTS.fullmatch(text):
            read = " ".join(_unquoted(word) for word in _words(text))
            notes.append("quotes read")
        elif quoting == "sudo":
            notes.append("quotes not well formed")
    if "#0" in read and quoting != "literal":
        plain = _OCTAL.sub(_control, read)
        if plain != read:
            notes.append("octal read")
        read = plain
    return read, ", ".join(notes)


def _words(text: str) -> list[str]:
    words, at = [], 0
    while True:
        match = _ARGUMENT.match(text, at)
        assert match is not None
        words.append(match[0])
        if match.end() == len(text):
            return words
        at = match.end() + 1


def _unquoted(word: str) -> str:
    inner = word[1:-1] if word.startswith("'") else word
    return _ESCAPE.sub(r"\1", inner)


def _fields(head: str) -> tuple[str, dict[str, str], list[str]]:
    """Returns the reason and the fields before the command, and notes on fields that stand twice.

    A part that begins no further field belongs to what precedes it.
    """
    reason: list[str] = []
    fields: dict[str, list[str]] = {}
    twice: dict[str, None] = {}
    last = ""
    for part in head.split(" ; "):
        name, equals, value = part.partition("=")
        if equals and name in _FIELDS and name not in fields:
            last = name
            fields[last] = [value]
        elif last:
            fields[last].append(part)
            if equals and name in _FIELDS:
                twice[name] = None
        else:
            reason.append(part)
    joined = {name: " ; ".join(parts) for name, parts in fields.items()}
    return " ; ".join(reason), joined, [f"{name}= stands twice" for name in twice]


def _notes(fields: Mapping[str, str], rest: str) -> list[str]:
    notes = []
    if " ; COMMAND=" in rest:
        notes.append("COMMAND= stands twice")
    if "ENV" in fields:
        notes.append("environment set")
    if "CHROOT" in fields:
        notes.append("root folder changed")
    return notes


def event_of(user: str, host: str, text: str, quoting: str = "auto") -> Event | Skipped:
    """Returns the event of a message behind a user's name, or why it has none."""
    match = _COMMAND.search(text)
    if match is None:
        return Skipped(f"no command: {text.split(' ; ')[0][:80]}" if text.strip() else "an empty message")
    head = text[: match.start()]
    leading = _HOST.match(head)
    reason, fields, notes = _fields(head[leading.end() :] if leading else head)
    host = (leading[1] if leading else fields.get("HOST")) or host
    path, blank, rest = text[match.end() :].partition(" ")
    arguments, note = arguments_of(rest, quoting) if blank else ("", "")
    if "#0" in path and quoting != "literal":
        path = _OCTAL.sub(_control, path)
    notes += _notes(fields, rest)
    if note:
        notes.append(note)
    request = Request(user, host, fields.get("USER", ""), fields.get("GROUP", ""), path, arguments)
    return Event(request, outcome_of(reason), reason, ", ".join(notes))


def noted(event: Event, note: str) -> Event:
    """Returns the event with a further note."""
    return event._replace(note=f"{event.note}, {note}" if event.note else note)


def with_editor(event: Event, editors: frozenset[str]) -> Event:
    """Returns the event with `sudoedit` in place of an editor with `--`, as sudo 1.9 logs the one by the other."""
    request = event.request
    if not request.arguments.startswith("-- ") or request.command.rpartition("/")[2] not in editors:
        return event
    edit = request._replace(command=SUDOEDIT, arguments=request.arguments[3:])
    return noted(event._replace(request=edit), f"logged as {request.command} --")


def may_be_edit(event: Event) -> Event | None:
    """Returns an accepted request as the `sudoedit` that sudo 1.9 would log so, by any editor; `None` if it cannot be one."""
    request = event.request
    found = _FILES.search(request.arguments) if request.command != SUDOEDIT else None
    if found is None or event.outcome != ACCEPTED:
        return None
    edit = request._replace(command=SUDOEDIT, arguments=request.arguments[found.end() :])
    return noted(event._replace(request=edit), AS_EDIT)


_KINDS = {"accept": ACCEPTED, "reject": REFUSED, "alert": FAILED}


class Pairs(list[tuple[str, Any]]):
    """A JSON object as its pairs, since sudo writes a key more than once."""


def json_events(value: Any) -> list[tuple[str, Pairs]]:
    """Returns the kinds and bodies of the events in a JSON value of sudo's logs."""
    found = []
    for key, inner in value if isinstance(value, Pairs) else ():
        if key == "sudo":
            found.extend(json_events(inner))
        elif isinstance(inner, Pairs) and key in (*_KINDS, "exit", "iolog"):
            found.append((key, inner))
    return found


def event_of_json(kind: str, body: Pairs, host: str) -> tuple[str, Event | Skipped]:
    """Returns the time and the event of a body of a JSON log, or why it has none."""
    fields = dict(body)
    time = _json_time(fields)
    if kind not in _KINDS:
        return time, Skipped(f"an event of the kind {kind}")
    argv = fields.get("runargv")
    words = [word for word in argv if isinstance(word, str)] if isinstance(argv, list) else []
    command = fields.get("command")
    if not isinstance(command, str):
        return time, Skipped(f"no command: {_text(fields, 'alert') or _text(fields, 'reason') or kind}")
    request = Request(
        _text(fields, "submituser"),
        _text(fields, "submithost") or host,
        _text(fields, "runuser"),
        _text(fields, "rungroup"),
        command,
        " ".join(words[1:]),
    )
    reason = _text(fields, "reason") or _text(fields, "alert")
    outcome = outcome_of(reason) if reason else _KINDS[kind]
    notes = []
    if _text(fields, "runchroot"):
        notes.append("root folder changed")
    if command.partition(" ")[0] in (SUDOEDIT, *ASKED_TO_LIST):
        path, _, rest = command.partition(" ")
        request = request._replace(command=path, arguments=rest or request.arguments)
    elif "--" in words[1:-1] and _is_edit(fields):
        request = request._replace(command=SUDOEDIT, arguments=" ".join(words[words.index("--", 1) + 1 :]))
        notes.append(f"logged as {command} --")
    return time, Event(request, outcome, reason, ", ".join(notes))


def _is_edit(fields: Mapping[str, Any]) -> bool:
    """Returns whether an editor got the environment of the user, and not that of a command of sudo."""
    environment = fields.get("runenv")
    if not isinstance(environment, list) or not environment:
        return False
    return not any(isinstance(word, str) and word.startswith("SUDO_COMMAND=") for word in environment)


def _text(fields: Mapping[str, Any], name: str) -> str:
    value = fields.get(name)
    return value if isinstance(value, str) else ""


def _json_time(fields: Mapping[str, Any]) -> str:
    for name in ("submit_time", "server_time"):
        inner = fields.get(name)
        if isinstance(inner, Pairs):
            match = re.fullmatch(r"(\d{4})(\d\d)(\d\d)(\d\d)(\d\d)(\d\d)Z", _text(dict(inner), "iso8601"))
            if match:
                return "{}-{}-{}T{}:{}:{}Z".format(*match.groups())
    return ""
