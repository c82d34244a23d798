"""Puts forms into a policy that sudo_audit refuses and sudo_review reads."""

import base64
import hashlib
import random
from collections.abc import Iterator, Sequence

from differ.pieces import Piece, pieces_of

# Those of a build of sudo with SELinux are not among them: the peer has none.
OPTIONS = (
    "CWD=/srv",
    "CWD = /var/lib/app-1",
    "CWD=*",
    "CWD=~",
    "CWD=~bob",
    "TIMEOUT=30",
    "TIMEOUT=7d4h",
    "TIMEOUT = 10m30s",
)
# Options that a note stands for: times in the past and in the future, a root that exists and one that does not.
NOTED = (
    "CHROOT=/",
    "CHROOT=/gone",
    "CHROOT=*",
    "NOTBEFORE=20200101000000Z",
    "NOTBEFORE = 2099010100",
    "NOTAFTER=20990101000000Z",
    "NOTAFTER=202001010000",
)
DIGESTS = ("sha224", "sha256", "sha384", "sha512")
TORN = ("Defaults\\\n    insults\n", "Defaults\\\n  insults, \\\n  lecture\n")
BLANK = ("blank", "join")


def with_options(text: str, chosen: random.Random) -> str:
    """Returns a policy with options before some of its commands."""
    return "".join(_with_options(piece.text, begins, chosen) for piece, begins in _beginnings(pieces_of(text)))


def with_forms(text: str, chosen: random.Random) -> str:
    """Returns a policy with options and digests before some commands, `list` for some, and a torn Defaults line or none."""
    pieces = pieces_of(text)
    texts = (_with_digest(_or_list(pieces, at, chosen), pieces, at, chosen) for at in range(len(pieces)))
    known = (*OPTIONS, *NOTED)
    changed = (_with_options(said, begins, chosen, known) for said, (_, begins) in zip(texts, _beginnings(pieces)))
    torn = chosen.choice(TORN) if chosen.random() < 0.1 else ""
    return torn + "".join(changed)


def _beginnings(pieces: Sequence[Piece]) -> Iterator[tuple[Piece, bool]]:
    """Yields each piece, and whether options may stand before it: it is the first of a command of a rule, behind a runas."""
    is_rule, begins, first = True, False, True
    for piece in pieces:
        if piece.kind in BLANK:
            yield piece, False
            continue
        is_rule = is_rule if not first else piece.role == "user"
        is_word = piece.role == "cmnd" and piece.kind != "newline" and piece.text not in (",", "=", ":")
        yield piece, is_rule and begins and is_word
        opens = piece.kind == "mark" and (piece.role, piece.text) in (("host", "="), ("cmnd", ","), ("runas", ")"))
        begins = opens or begins and piece.role == "runas"
        first = piece.kind == "newline"


def _or_list(pieces: Sequence[Piece], at: int, chosen: random.Random) -> str:
    """Returns the text of a piece, or `list` in place of some commands without arguments."""
    piece = pieces[at]
    is_command = piece.role == "cmnd" and piece.kind == "path" and piece.text.startswith("/") and _is_alone(pieces, at)
    return "list" if is_command and chosen.random() < 0.1 else piece.text


def _with_digest(text: str, pieces: Sequence[Piece], at: int, chosen: random.Random) -> str:
    """Returns the text of a piece, with one or two digests before some paths: of what stands there, or of something else."""
    piece = pieces[at]
    is_path = piece.role == "cmnd" and piece.kind == "path" and text == piece.text and text.startswith("/")
    before = next((other for other in reversed(pieces[:at]) if other.kind not in BLANK), None)
    is_signed = before is not None and before.kind == "mark" and before.text == "!"
    is_defaults = next((other.text for other in reversed(pieces[:at]) if other.role == ""), "").startswith("Defaults")
    if not is_path or is_signed or is_defaults or chosen.random() < 0.8:
        return text
    return ", ".join(_digest(text, chosen) for _ in range(chosen.choice((1, 1, 2)))) + " " + text


def _digest(path: str, chosen: random.Random) -> str:
    """Returns a digest: of the file at a path, if there is one, or of other bytes."""
    try:
        with open(path, "rb") as file:
            content = file.read() if chosen.random() < 0.5 else b""
    except (OSError, ValueError):
        content = b""
    name = chosen.choice(DIGESTS)
    digest = hashlib.new(name, content)
    value = digest.hexdigest() if chosen.random() < 0.5 else base64.b64encode(digest.digest()).decode()
    return f"{name}:{value}"


def _with_options(text: str, begins: bool, chosen: random.Random, known: Sequence[str] = OPTIONS) -> str:
    """Returns the text of a piece, with options before it if they may stand there, or none."""
    if not begins or chosen.random() < 0.5:
        return text
    options = chosen.sample(known, chosen.choice((1, 1, 1, 2)))
    names = [option.partition("=")[0].strip() for option in options]
    return " ".join([*(options if len({*names}) == len(names) else options[:1]), text])


def _is_alone(pieces: Sequence[Piece], at: int) -> bool:
    """Returns whether a command has no arguments and ends its list, or a comma follows."""
    behind = next((piece for piece in pieces[at + 1 :] if piece.kind not in BLANK), None)
    return behind is None or behind.kind in ("newline", "comment") or behind.kind == "mark" and behind.text in ",:"
