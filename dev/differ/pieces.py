"""A policy cut into pieces, each with its role, so that a construct can be taken out where it stands and nowhere else.

The cut follows the tokens that the program reads. It never fails: what fits nothing is a piece of its own.
"""

import functools
import re
from collections.abc import Collection, Iterator
from typing import NamedTuple

KEYWORD_ROLES = {
    "User_Alias": "user",
    "Runas_Alias": "user",
    "Host_Alias": "host",
    "Cmnd_Alias": "cmnd",
    "Cmd_Alias": "cmnd",
}
BOUND_ROLES = {"@": "host", ":": "user", ">": "user", "!": "cmnd"}
TAG = re.compile(r"(NO)?(EXEC|FOLLOW|INTERCEPT|LOG_INPUT|LOG_OUTPUT|MAIL|PASSWD|SETENV)$")
BEFORE_NUMBER = ("!", ",", "(", ":", "=", "@", ">")
JOIN = r"\\[ \t]*\r?\n[ \t]*"
TOKEN = re.compile(
    rf"(?P<join>{JOIN})"
    r"|(?P<newline>\r?\n[ \t]*)"
    r"|(?P<blank>[ \t]+)"
    r'|(?P<quoted>"(?:[^"\\\n]|\\[ \t]*\r?\n|\\.)*")'
    r"|(?P<path>(?:/|sudoedit(?=[!\"()]))(?:\\.|[^\s,:=#\\])*)"
    r"|(?P<mark>[+-]=|[!=,:()])"
    r"|(?P<word>%#?(?:\\.|[^\s!=,:()#\"\\])*|(?:\\.|[^\s!=,:()#\"\\])+)"
    r"|(?P<hash>#)"
    r"|(?P<other>.)",
    re.DOTALL,
)
ARGUMENT = re.compile(r"(?:\\[^\n]|[^\s,:#\\])+")
DEFAULTS = re.compile(r"Defaults(?=[ \t@:!>]|$)", re.MULTILINE)
INCLUDE = re.compile(r"[@#]include(dir)?(?=[ \t]|\r?$)", re.MULTILINE)
VALUE = re.compile(r"(?:\\[^\n]|[^\s,#\"\\])+")


class Piece(NamedTuple):
    """A piece: the role of the list in which it stands, what it is, and its text."""

    role: str
    kind: str
    text: str


class _Cutter:
    """Cuts a text, line by line."""

    def __init__(self, text: str) -> None:
        self.text = text
        self.at = 0
        self._start_line()

    def _start_line(self) -> None:
        """Begins a line: nothing is known of it."""
        self.last = ""
        self.is_tag = False
        self.kind = "rule"
        self.role = "user"
        self.in_arguments = False
        self.has_member = False
        self.before = ""

    def pieces(self) -> Iterator[Piece]:
        """Yields the pieces, which are the whole text together."""
        while self.at < len(self.text):
            piece = self._next()
            self.at += len(piece.text)
            yield piece
            self.before = piece.kind
            if piece.kind == "newline":
                self._start_line()
            elif piece.kind not in ("blank", "join"):
                self.is_tag = piece.kind == "word" and self.last != "!" and TAG.match(piece.text) is not None
                self.last = piece.text

    def _next(self) -> Piece:
        in_arguments = self.in_arguments and self.before in ("blank", "join", "argument")
        for pattern, kind, here in ((ARGUMENT, "argument", in_arguments), (VALUE, "value", self._wants_value())):
            found = pattern.match(self.text, self.at) if here else None
            if found and not re.match(JOIN, found[0]):
                return Piece(self.role, kind, found[0])
        if self.last == "" and DEFAULTS.match(self.text, self.at):
            return self._token("word", "Defaults")
        if self._is_behind_defaults() and self.text[self.at] in "@>":
            return self._token("mark", self.text[self.at])
        found = TOKEN.match(self.text, self.at)
        assert found is not None and found.lastgroup is not None
        kind, text = found.lastgroup, found[0]
        if kind == "hash":
            return self._hash()
        if kind in ("join", "newline", "blank"):
            return Piece(self.role, kind, text)
        if self.last == "" and INCLUDE.match(self.text, self.at):
            self.kind = "include"
        return self._token(kind, text)

    def _is_behind_defaults(self) -> bool:
        """Returns whether nothing, no blank either, stands behind the word that begins a Defaults line."""
        return self.last == "Defaults" and self.before == "word"

    def _wants_value(self) -> bool:
        return self.kind == "defaults" and self.last in ("=", "+=", "-=")

    def _hash(self) -> Piece:
        """Returns an ID, an include line's word, or a comment with its newline left."""
        include = INCLUDE.match(self.text, self.at)
        if self.last == "" and include:
            self.kind = "include"
            return Piece("include", "word", include[0])
        number = re.compile(r"#\d(?:\\.|[^\s!=,:()#\"\\])*").match(self.text, self.at)
        if number and (self.last == "" or self.last in BEFORE_NUMBER) and not self.in_arguments:
            return self._token("word", number[0])
        end = self.text.find("\n", self.at)
        return Piece(self.role, "comment", self.text[self.at : len(self.text) if end < 0 else end])

    def _token(self, kind: str, text: str) -> Piece:
        """Returns a token, and moves on in the line's grammar."""
        role, first = self.role, self.last == ""
        if self.kind == "include":
            return Piece("include", kind, text)
        if first and text in KEYWORD_ROLES:
            self.kind, self.role = "alias", "name"
            return Piece("name", kind, text)
        if first and text == "Defaults":
            self.kind, self.role = "defaults", "parameter"
            return Piece("name", kind, text)
        if kind == "mark":
            if text == "!":
                self._next_list()
            return self._mark(text)
        if self.in_arguments and kind != "word":
            return Piece(role, kind, text)
        self._next_list()
        self.has_member = True
        self.in_arguments = self._takes_arguments(kind, text)
        return Piece(self.role, kind, text)

    def _next_list(self) -> None:
        """Goes on to the hosts of a rule or the parameters of a Defaults line, if no comma follows the last member."""
        if self.has_member and self.last not in (",", "!"):
            if self.kind == "rule" and self.role == "user":
                self.role = "host"
            elif self.kind == "defaults" and self.role != "parameter":
                self.role = "parameter"

    def _takes_arguments(self, kind: str, text: str) -> bool:
        """Returns whether arguments may follow: behind a command that is no folder, outside of Defaults lines."""
        command = kind == "path" or text == "sudoedit"
        return command and self.role == "cmnd" and self.kind != "defaults"

    def _mark(self, text: str) -> Piece:
        role = self.role
        self.in_arguments = False
        if self.kind == "defaults":
            if self._is_behind_defaults() and text in BOUND_ROLES:
                self.role, self.has_member = BOUND_ROLES[text], False
        elif text == "(" and self.role == "cmnd":
            role = self.role = "runas"
        elif text == ")" and self.role == "runas":
            self.role = "cmnd"
            return Piece("runas", "mark", text)
        elif text == ":" and self.role == "runas":
            self.role = "runas"
        elif text == "=":
            self.role = KEYWORD_ROLES.get(self._keyword(), "cmnd") if self.kind == "alias" else "cmnd"
        elif text == ":" and not (self.is_tag and self.kind == "rule"):
            self.role = "name" if self.kind == "alias" else "host" if self.role == "cmnd" else self.role
        return Piece(role, "mark", text)

    def _keyword(self) -> str:
        """Returns the first word of the line."""
        start = self.text.rfind("\n", 0, self.at) + 1
        found = re.compile(r"[ \t]*(\w+)").match(self.text, start)
        return found[1] if found else ""


@functools.lru_cache(maxsize=64)
def pieces_of(text: str) -> tuple[Piece, ...]:
    """Returns the pieces of a text."""
    return tuple(_Cutter(text).pieces())


def definitions(text: str, keywords: Collection[str]) -> dict[str, list[str]]:
    """Returns the members of the aliases that stand behind one of the keywords, by name."""
    found: dict[str, list[str]] = {}
    keyword, members = "", None
    for piece in pieces_of(text):
        if piece.kind == "newline" or piece.kind == "mark" and piece.text == ":" and piece.role != "runas":
            members = None
        elif piece.role == "name" and piece.kind == "word":
            keyword = piece.text if piece.text in KEYWORD_ROLES else keyword
            members = found.setdefault(piece.text, [""]) if keyword in keywords and piece.text != keyword else None
        elif members is not None and piece.role != "name" and piece.kind not in ("comment", "join"):
            members += [""] if piece.text == "," else []
            members[-1] += piece.text if piece.text != "," else ""
    return {name: [member.strip() for member in members] for name, members in found.items()}


def plain(text: str) -> str:
    """Returns the bytes that a word or a quoted word stands for."""
    text = text[1:-1] if text.startswith('"') else text
    return re.sub(
        r"\\(?:x([0-9A-Fa-f]{2})|(.))",
        lambda found: chr(int(found[1], 16)) if found[1] else found[2],
        text,
        flags=re.DOTALL,
    )


def spelled(name: str) -> str:
    """Returns how a name is written so that both read it."""
    return re.sub(r'([\\ !=:,()"#>])', r"\\\1", name)
