"""How the construct of each class of cautions is taken out of a policy, or written so that both read it alike.

Further ways write what sudo reads in its place: they show which requests it decides otherwise.
"""

import re
from collections.abc import Callable, Iterator

from differ.ask import Case
from differ.constructs import Change, after, in_turn, mapped, pieces_changed, replaced, swapped, together
from differ.pieces import Piece, spelled
from differ.profile import EVEN, FILES, GRANTS, parameters, with_runas
from differ.world import lower

# The classes in their order, but for those that decide no verdict.
NAMES = (
    "return blank-after-backslash join torn-mark include-escape include-indent comment empty-group caret escape case"
    " quoted-host quoted-escape defaults sudoedit network bracket setenv group-form reserved arguments"
).split()
ALIAS = re.compile(r"[A-Z][A-Z0-9_]*")
JOIN = rf"{EVEN}\\\r?\n[ \t]*"
LINE = re.compile(r"(?:[^\n]*\\[ \t]*\r?\n)*[^\n]*(?:\n|\Z)")
DECIDING = (
    "authenticate root_sudo use_netgroups targetpw rootpw runaspw"
    " match_group_by_gid setenv noexec intercept requiretty runas_allow_unknown_id runas_check_shell fast_glob"
    " netgroup_tuple fqdn runas_default exempt_group group_plugin sudoers_locale runchroot"
).split()


def _of(cell: str) -> Change:
    """Returns the changes of a row of the profile."""
    return in_turn(*(row.change for row in (*GRANTS, *FILES) if row.cell == cell))


def _lines_without(pattern: str) -> Change:
    """Returns a change that takes out each line in which a pattern is found, with the lines that continue it."""
    wanted = re.compile(pattern)

    def of_text(text: str) -> str:
        return "".join(line for line in LINE.findall(text) if not wanted.search(line))

    def changed(case: Case) -> Iterator[Case]:
        yield mapped(case, of_text)

    return changed


def _runas(change: Callable[[str | None, str | None], str | None]) -> Change:
    """Returns a change of what says whom to run as."""

    def changed(case: Case) -> Iterator[Case]:
        yield mapped(case, with_runas(change))

    return changed


def _targets_by_default(case: Case) -> Iterator[Case]:
    """Yields a case in which the value of `runas_default` stands where nothing says whom to run as."""
    found = re.search(r"runas_default\s*=\s*(\w+)", case.text)
    if found:
        target = found[1]
        yield from _runas(lambda users, groups: target if users is None else None)(case)


def _without_aliases_of_commands(case: Case) -> Iterator[Case]:
    """Yields a case in which the members of aliases stand in lists of commands, without the aliases."""
    yield from after(_of("Cmnd_Alias X = ALL"), _lines_without(r"^[ \t]*Cm(?:n)?d_Alias"))(case)


def _is_name(piece: Piece) -> bool:
    """Returns whether a piece names a user or a group with a capital letter."""
    is_name = piece.kind == "quoted" or piece.kind == "word" and not ALIAS.fullmatch(piece.text)
    return is_name and piece.role in ("user", "runas") and lower(piece.text) != piece.text


def _in_lower_case(piece: Piece) -> str:
    """Returns a piece with the name of a user or a group in lower case."""
    return lower(piece.text) if _is_name(piece) else piece.text


def _without_capitals(piece: Piece) -> str:
    """Returns a piece with a name that nobody has in place of one with a capital letter."""
    return "zz" if _is_name(piece) else piece.text


def _as_bytes(found: re.Match[str]) -> str:
    """Returns a quoted name as sudo reads it, without its quotes: backslashes are bytes of the name."""
    return spelled(found[1].replace('\\"', '"'))


ROWS = {
    "blank-after-backslash": ("alice ALL = /bin/ls foo\\ ",),
    "join": ("alice ALL = /bin/ls\\",),
    "include-escape": ("@include /x/a\\x62", '@include "/x/a\\x62"'),
    "include-indent": (" #include /etc/x",),
    "comment": ("#-1 ALL = ALL", "alice ALL = /bin/ls #5", "#-", "alice ALL = ALL #<CR>x"),
    "empty-group": ("alice ALL = (bob:) /bin/ls",),
    "caret": ("alice ALL = /usr/bin/passwd [^-]*",),
    "escape": (
        "alice ALL = /bin/ls a\\\\b",
        "alice ALL = /bin/l!\\*",
        "alice ALL = sudoedit!x",
        "alice web\\* = ALL",
        "\\#1000 ALL = ALL",
        'alice ALL = /bin/ls a\\"b',
        "alice ALL = /bin/l\\s",
        "bo\\<TAB>b ALL = ALL",
        "#5\\4 ALL = ALL",
        "%#\\5 ALL = ALL",
    ),
    "case": ("Alice ALL = ALL", "%ADM ALL = ALL"),
    "quoted-host": ('alice "web?" = ALL',),
    "quoted-escape": ('"bo\\x62" ALL = ALL', '"al\\ice" ALL = ALL', '"a\\\\" ALL = ALL'),
    "defaults": ("Defaults runas_default=postgres", "Defaults fast_glob", "Defaults sudoers_locale=C.UTF-8"),
    "sudoedit": ("alice ALL = /usr/bin/sudoedit /etc/x",),
    "network": ("alice 010.1.2.3 = ALL", "alice 0.0.0.0/0 = ALL", "alice 127.5.0.1 = ALL"),
    "bracket": (
        "alice ALL = /bin/ls [[\\:word\\:]]",
        "alice ALL = /bin/ls [[=a=]]",
        "alice ALL = /bin/ls [[.]",
        "alice ALL = /usr/bin/[l/]s",
        "alice [[\\:al\\pha\\:]]* = ALL",
        "alice [[\\:upper\\:]]* = ALL",
    ),
    "setenv": ("alice ALL = NOSETENV: /bin/ls, ALL, /bin/cat", "Cmnd_Alias X = ALL"),
    "group-form": ("alice ALL = (:operator) /bin/id", "alice ALL = (root : %adm) /bin/ls"),
    "reserved": ("Cmnd_Alias CWD = /bin/ls", "Host_Alias MAIL = web1"),
    "arguments": (
        "alice ALL = /bin/ls ^a, /bin/cat b$",
        "alice ALL = /bin/ls ^-l",
        "alice ALL = /bin/ -l",
        "alice ALL = /bin/ls =",
    ),
}
FURTHER: dict[str, Change] = {
    "return": in_turn(replaced(r"\r$", ""), _lines_without(r"\r(?:\n|\Z)")),
    "blank-after-backslash": _of("Cmnd_Alias A = /bin/ls, \\ "),
    "torn-mark": in_turn(replaced(JOIN, r"\1"), _lines_without(JOIN)),
    "include-escape": _lines_without(r"[@#]include.*\\"),
    "escape": swapped("cmnd", "path", "!", "z"),
    "case": in_turn(pieces_changed(_in_lower_case), pieces_changed(_without_capitals)),
    "quoted-host": swapped("host", "quoted", r'^"(.*)"$', r"\1"),
    "quoted-escape": swapped("user runas host", "quoted", r'^"(.*)"$', _as_bytes),
    "defaults": in_turn(_targets_by_default, parameters("|".join(DECIDING))),
    "sudoedit": swapped("cmnd", "path", r"^.*/sudoedit$", "sudoedit"),
    "network": in_turn(
        swapped("host", "word", r"^[0-9.]+/0(?:\.0\.0\.0)?$", "zz"), swapped("host", "word", r"^127\.[0-9./]+$", "10.2.0.9")
    ),
    "setenv": after(replaced(r"\b(?:NO)?SETENV[ \t]*:[ \t]*", ""), in_turn(replaced(r"\Z", ""), _without_aliases_of_commands)),
    "group-form": _runas(lambda users, groups: "!ALL" if users == "" and groups and groups.strip() else None),
}
CHANGES = {name: [*map(_of, ROWS.get(name, ())), *([FURTHER[name]] if name in FURTHER else [])] for name in NAMES}
WAYS = {name: in_turn(*changes, together(changes)) for name, changes in CHANGES.items()}
