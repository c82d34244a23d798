"""The rows of docs/PROFILE.md that the peer can show, and how each construct is taken out.

A row explains a difference that goes when the row's construct goes. Where the construct has a spelling that both read
alike, that takes its place, so that nothing else is excused with it.
"""

import re
from collections.abc import Callable, Iterator, Sequence

from differ import world
from differ.ask import Answer, Case
from differ.constructs import NOTHING, Row, in_turn, mapped, pieces_changed, replaced, swapped, where
from differ.pieces import KEYWORD_ROLES, TAG, Piece, definitions, pieces_of, plain, spelled

USERS = {user.name for user in world.USERS_KNOWN}
GROUPS = set(world.GROUP_NUMBERS)
WORDS = "word quoted"
LISTS = "user runas host"
# Backslashes that escape one another, before one that begins a construct.
EVEN = r"(?<!\\)((?:\\\\)*)"


def _byte(found: re.Match[str]) -> str:
    """Returns the byte that a found escape stands for."""
    return chr(int(found[1], 16)) if found[1] else found[2]


def _byte_of_pattern(found: re.Match[str]) -> str:
    """Returns the byte that a found escape of a host's pattern stands for, a letter in place of a backslash."""
    return _byte(found).replace("\\", "z")


def _known(name: str, names: set[str]) -> str | None:
    """Returns the known name that differs from a name in letter case alone."""
    said = name.encode(world.ENCODING).lower()
    return next(
        (known for known in sorted(names) if known.encode(world.ENCODING).lower() == said and known != name), None
    )


def _case_of_users(piece: Piece) -> str:
    """Returns a piece that names a user in the letter case of that user."""
    known = _known(plain(piece.text), USERS) if piece.role in LISTS.split() and piece.kind in WORDS.split() else None
    return spelled(known) if known else piece.text


def _case_of_groups(piece: Piece) -> str:
    """Returns a piece that names a group in the letter case of that group."""
    if piece.kind not in WORDS.split() or piece.role not in ("user", "runas"):
        return piece.text
    said = plain(piece.text)
    sign = "%" if said.startswith("%") else ""
    known = _known(said.removeprefix("%"), GROUPS) if sign or piece.role == "runas" else None
    return sign + spelled(known) if known else piece.text


def _complements(piece: Piece) -> str:
    """Returns a piece with complements of brackets as both read them; outside of commands a `!` has to be escaped."""
    if piece.role not in ("cmnd", "host") or piece.kind not in ("path", "argument", "word"):
        return piece.text
    return re.sub(rf"{EVEN}\[\^", r"\1[\\!" if piece.role == "host" else r"\1[!", piece.text)


def with_runas(change: Callable[[str | None, str | None], str | None]) -> Callable[[str], str]:
    """Returns a change of what says whom to run as: of the users and the groups, both `None` where nothing is said."""

    def of_text(text: str) -> str:
        out: list[str] = []
        wants = False
        inside: int | None = None
        for piece in pieces_of(text):
            if wants and piece.kind not in ("blank", "join"):
                wants = False
                new = change(None, None) if piece.text != "(" else None
                out.append(f"({new}) " if new is not None else "")
            if piece.role == "runas" and piece.text == "(":
                inside = len(out)
            out.append(piece.text)
            if piece.role == "runas" and piece.text == ")" and inside is not None:
                users, *groups = "".join(out[inside + 1 : -1]).split(":", 1)
                new = change(users.strip(), groups[0] if groups else None)
                out[inside:] = out[inside:] if new is None else [f"({new})"]
                inside = None
            wants = wants or piece[:2] == ("host", "mark") and piece.text == "="
        return "".join(out)

    return of_text


def _group_beside_root(case: Case) -> Iterator[Case]:
    """Yields a case in which commands without a runas may have any group, if a user and a group are asked for."""
    asked = case.request
    if asked and asked.runas_user and asked.runas_group:
        yield mapped(case, with_runas(lambda users, groups: "root:ALL" if users is None else None))


def _group_alone(case: Case) -> Iterator[Case]:
    """Yields a case in which any user is allowed where no groups are said, if the request is for a group alone."""
    asked = case.request
    if asked and asked.runas_group and not asked.runas_user:
        yield mapped(case, with_runas(lambda users, groups: "ALL" if groups is None and users != "" else None))
    elif asked and asked.runas_group and asked.runas_user == asked.user:
        own = spelled(asked.user)
        yield mapped(case, with_runas(lambda users, groups: f"{own}, {users}" if users and groups is None else None))


def _denied_oneself(case: Case) -> Iterator[Case]:
    """Yields a case in which any user may be run as where groups are said, if a group alone is asked for."""
    asked = case.request
    if asked and asked.runas_group and not asked.runas_user:
        yield mapped(case, with_runas(lambda users, groups: f"ALL:{groups}" if users and groups is not None else None))


def _groups_without_group(case: Case) -> Iterator[Case]:
    """Yields a case in which nobody may be run as where groups alone are said, if no group is asked for."""
    asked = case.request
    if asked and not asked.runas_group:
        yield mapped(
            case, with_runas(lambda users, groups: "!ALL" if users == "" and groups and groups.strip() else None)
        )


def _is_tag(pieces: Sequence[Piece]) -> bool:
    """Returns whether the first of some pieces is a tag: a colon follows it, behind a blank at most."""
    behind = [piece.text for piece in pieces[1:] if piece.kind not in ("blank", "join")]
    return TAG.match(pieces[0].text) is not None and behind[:1] == [":"]


def _turned(member: str) -> str:
    """Returns a member with its sign turned."""
    return member[1:].lstrip() if member.startswith("!") else f"!{member}"


def _flat(members: dict[str, list[str]], name: str, within: tuple[str, ...] = ()) -> list[str]:
    """Returns the members of an alias, with those of the aliases among them in their places; of a cycle none."""
    flat: list[str] = []
    for member in members.get(name, []) if name not in within else []:
        said = member.lstrip("! \t")
        inner = _flat(members, said, (*within, name)) or [said]
        flat += map(_turned, inner) if member[: len(member) - len(said)].count("!") % 2 else inner
    return flat


def _written_out(case: Case, keywords: tuple[str, ...], role: str) -> Case:
    """Returns a case in which the members of aliases stand in place of the aliases, where lists have a role."""
    members: dict[str, list[str]] = {}
    for text in (case.text, *(text for _, text in case.files)):
        members |= definitions(text, keywords)

    def of_text(text: str) -> str:
        out: list[str] = []
        negated = False
        # sudo reads a carriage return behind the name of an alias, and refuses it behind a path.
        pieces = pieces_of(text.replace("\r\n", "\n"))
        for at, piece in enumerate(pieces):
            is_alias = piece.role == role and piece.kind == "word" and not _is_tag(pieces[at : at + 3])
            written = _flat(members, piece.text) if is_alias else []
            if written and negated:
                del out[max(sign for sign, said in enumerate(out) if said == "!") :]
                written = list(map(_turned, written))
            out.append(", ".join(written) or piece.text)
            negated = negated != (piece.text == "!") if piece.kind in ("mark", "blank", "join") else False
        return "".join(out)

    return mapped(case, of_text)


def _targets_written_out(case: Case) -> Iterator[Case]:
    """Yields a case in which the members of aliases stand in whom to run as, if a group is asked for."""
    if case.request is not None and case.request.runas_group:
        yield _written_out(case, ("Runas_Alias",), "runas")


def _groups_by_name(case: Case) -> Iterator[Case]:
    """Yields a case in which aliases of targets have groups without `%`, if a group is asked for."""

    def of_text(text: str) -> str:
        keyword, out = "", []
        for piece in pieces_of(text):
            if piece.kind == "newline":
                keyword = ""
            elif piece.role == "name" and piece.text in KEYWORD_ROLES:
                keyword = piece.text
            is_member = keyword == "Runas_Alias" and piece.role == "user" and piece.kind in WORDS.split()
            out.append(re.sub(r'^("?)%(?!:)', r"\1", piece.text) if is_member else piece.text)
        return "".join(out)

    if case.request is not None and case.request.runas_group:
        yield mapped(case, of_text)


def _commands_written_out(case: Case) -> Iterator[Case]:
    """Yields a case in which the members of aliases stand in lists of commands."""
    yield _written_out(case, ("Cmnd_Alias", "Cmd_Alias"), "cmnd")


def _asks_for(*commands: str) -> Callable[[Case], bool]:
    return lambda case: case.request is not None and case.request.command in commands


def _without_setenv(answer: Answer) -> Answer:
    """Returns an answer without the tags SETENV and NOSETENV."""
    return answer._replace(tags=" ".join(tag for tag in answer.tags.split() if not tag.endswith("SETENV")))


def _if_said(pattern: str) -> Callable[[Case], Iterator[Case]]:
    """Returns what leaves a case as it is, if a pattern is found in one of its texts."""

    def kept(case: Case) -> Iterator[Case]:
        if any(re.search(pattern, text, re.MULTILINE) for text in (case.text, *(text for _, text in case.files))):
            yield case

    return kept


def _blank_before_parameters(case: Case) -> Iterator[Case]:
    """Yields a case in which a blank stands between the list of a Defaults line and its parameters."""

    def of_text(text: str) -> str:
        before, out = "parameter", []
        for piece in pieces_of(text):
            bound = piece.role == "parameter" and before in LISTS.split() + ["cmnd"]
            out.append(f" {piece.text}" if bound else piece.text)
            before = "parameter" if piece.kind in ("blank", "join", "newline") else piece.role
        return "".join(out)

    yield mapped(case, of_text)


def parameters(name: str) -> Callable[[Case], Iterator[Case]]:
    """Returns a change of each parameter of Defaults lines whose name a pattern fits to a known one without a value."""
    fits = re.compile(name, re.DOTALL)

    def of_text(text: str) -> str:
        out: list[str] = []
        inside = False
        for piece in pieces_of(text):
            is_own = piece.role == "parameter" and piece.kind not in ("blank", "join", "newline", "comment")
            if not is_own or piece.kind == "mark" and piece.text in (",", "!"):
                inside = inside and piece.text != "," and piece.kind in ("blank", "join")
                out.append("" if inside else piece.text)
            elif not inside:
                inside = piece.kind in ("word", "path") and fits.fullmatch(piece.text) is not None
                out.append("insults" if inside else piece.text)
        return "".join(out)

    def changed(case: Case) -> Iterator[Case]:
        yield mapped(case, of_text)

    return changed


def _quotes_in_included_paths(case: Case) -> Iterator[Case]:
    """Yields a case in which the paths of include lines have no quotes behind their first byte."""
    path = re.compile(r'^([ \t]*[@#]include(?:dir)?[ \t]+[^"\s])(\S*)', re.MULTILINE)
    yield mapped(case, lambda text: path.sub(lambda found: found[1] + found[2].replace('"', ""), text))


def _users_of_groups(case: Case) -> Iterator[Case]:
    """Yields a case in which lists of groups have names in place of groups of users."""

    def without(users: str | None, groups: str | None) -> str | None:
        return f"{users}:" + re.sub(r'(?<![^\s,!"])%#?', "z", groups) if groups and "%" in groups else None

    yield mapped(case, with_runas(without))


def _is_address(text: str) -> bool:
    """Returns whether a text is an IPv4 address."""
    return re.fullmatch(r"[0-9]{1,3}(\.[0-9]{1,3}){3}", text) is not None and all(int(n) < 256 for n in text.split("."))


def _is_bad_address(text: str) -> bool:
    """Returns whether an unquoted host is an address or a network that has no value here."""
    address, slash, mask = text.partition("/")
    if not slash:
        return re.fullmatch(r"[0-9]{1,3}(\.[0-9]{1,3}){3}", text) is not None and not _is_address(text)
    return not _is_address(address) or not (_is_address(mask) or re.fullmatch("0*([12]?[0-9]|3[0-2])", mask))


def _is_bad_number(piece: Piece) -> bool:
    """Returns whether a piece is an ID, an address or a network that has no value here."""
    if piece.role not in LISTS.split() or piece.kind not in WORDS.split():
        return False
    if piece.role == "host":
        return piece.kind == "word" and _is_bad_address(piece.text)
    if not re.match(r'"?(#|%(\\?#|\\x23))', piece.text):
        return False
    number = plain(piece.text).lstrip("%").removeprefix("#")
    return re.fullmatch("[0-9]+", number) is None or int(number) >= 1 << 32


def _numbers_read(piece: Piece) -> str:
    """Returns a piece with a name in place of a bad number."""
    return "zz" if _is_bad_number(piece) else piece.text


def _numbers_cut(piece: Piece) -> str:
    """Returns a piece with a name in place of a bad number, and with two in place of an ID with letters behind it."""
    is_cut = re.match(r"%?#-?[0-9]+[^0-9]", piece.text) is not None
    return "zz zz" if is_cut and _is_bad_number(piece) else _numbers_read(piece)


def _has_escaped_digits(piece: Piece) -> bool:
    """Returns whether a piece is an ID some of whose digits, but not the first one, are escaped."""
    is_number = piece.role in ("user", "runas") and re.match(r"%?#[0-9]+\\", piece.text) is not None
    return is_number and re.fullmatch("%?#[0-9]+", plain(piece.text)) is not None


def _digits_joined(piece: Piece) -> str:
    """Returns a piece without the escapes of the digits of an ID."""
    return plain(piece.text) if _has_escaped_digits(piece) else piece.text


def _digits_cut(piece: Piece) -> str:
    """Returns a piece with a blank before the first escaped digit of an ID."""
    return piece.text.replace("\\", " \\", 1) if _has_escaped_digits(piece) else piece.text


def _aliases_like_tags(case: Case) -> Iterator[Case]:
    """Yields a case in which aliases that have the name of a tag have another."""
    names = {piece.text for piece in pieces_of(case.text) if piece.role == "name" and TAG.match(piece.text)}

    def of_text(text: str) -> str:
        out: list[str] = []
        before, in_rule = "", True
        pieces = pieces_of(text)
        for at, piece in enumerate(pieces):
            is_tag = in_rule and piece.role == "cmnd" and before != "!" and _is_tag(pieces[at : at + 3])
            out.append(f"Z{piece.text}" if piece.text in names and not is_tag else piece.text)
            in_rule = piece.kind == "newline" or in_rule and piece.role != "name"
            before = before if piece.kind in ("blank", "join") else piece.text
        return "".join(out)

    yield mapped(case, of_text)


def _is_use(pieces: Sequence[Piece]) -> bool:
    """Returns whether the first of some pieces is the name of an alias in a list."""
    role, kind, text = pieces[0]
    in_list = kind == "word" and role in (*LISTS.split(), "cmnd") and not _is_tag(pieces)
    return in_list and re.fullmatch(r"[A-Z][A-Z0-9_]*", text) is not None


def _undefined(case: Case) -> Iterator[Case]:
    """Yields cases in which `ALL` stands for each alias that is not defined, and for those in definitions."""
    defined = {piece.text for piece in pieces_of(case.text) if piece.role == "name"}

    def without(text: str, kept: set[str]) -> str:
        pieces = pieces_of(text)
        return "".join(
            "ALL" if _is_use(pieces[at : at + 3]) and piece.text not in kept else piece.text
            for at, piece in enumerate(pieces)
        )

    def of_text(text: str) -> str:
        lines = re.split(r"(?m)^(?=.)", text)
        return "".join(without(line, set()) if "_Alias" in line else line for line in lines)

    yield mapped(case, lambda text: without(text, defined))
    yield mapped(case, of_text)


def _target_number(case: Case) -> Iterator[Case]:
    """Yields a case that asks for a user by name in place of by number."""
    if case.request and case.request.runas_user.startswith("#"):
        number = int(case.request.runas_user[1:])
        for user in world.USERS_KNOWN:
            if user.number == number:
                yield case._replace(request=case.request._replace(runas_user=user.name))


BLANK_BEFORE_INCLUDE = Row(" #include /etc/x", replaced(r"^[ \t]+#include", "# include"))
GRANTS = (
    Row(
        "alice ALL = NOSETENV: /bin/ls, ALL, /bin/cat", _if_said(r"SETENV[ \t]*:(?:.*\\\n)*.*\bALL\b"), _without_setenv
    ),
    Row("Cmnd_Alias X = ALL", _commands_written_out),
    Row("alice ALL = /bin/ls\\", replaced(rf"{EVEN}\\\r?\n[ \t]*", r"\1 ", r"\1")),
    Row("alice ALL = /bin/ls foo\\ ", replaced(rf"{EVEN}\\[ \t]+(?:\r?\n[ \t]*|\Z)", r"\1 ", r"\1", r"\1\\x20\n")),
    BLANK_BEFORE_INCLUDE,
    Row('"bo\\x62" ALL = ALL', swapped("user runas host", "quoted", r"\\x([0-9A-Fa-f]{2})", _byte)),
    Row('"al\\ice" ALL = ALL', swapped("user runas host", "quoted", r'\\([^"\\])', r"\1")),
    Row("alice ALL = /bin/ls a\\\\b", swapped("cmnd", "argument", r"\\\\", "z", "")),
    Row(
        "alice ALL = /bin/l!\\*",
        swapped("cmnd", "path", r'^((?:[^\\]|\\[,:= \t#])*[>!()"](?:[^\\]|\\[,:= \t#])*)(?=\\[^,:= \t#])', r"\1 "),
    ),
    Row("alice ALL = sudoedit!x", swapped("cmnd", "path", "^sudoedit", "sudoedit ")),
    Row("alice ALL = /bin/ls ^a, /bin/cat b$", swapped("cmnd", "argument", r"^\^", r"\\^")),
    Row("alice ALL = /usr/bin/passwd [^-]*", pieces_changed(_complements)),
    Row(
        "alice ALL = /bin/ls [[\\:word\\:]]",
        swapped(
            "cmnd host",
            "path argument word",
            r"\[\\?:(?!(alnum|alpha|blank|cntrl|digit|graph|lower|print|punct|space|upper|xdigit)\\?:\])\w*\\?:\]",
            NOTHING,
        ),
    ),
    Row(
        "alice ALL = /bin/ls [[=a=]]",
        swapped("cmnd host", "path argument word", r"\[(?:\\?=(.)\\?=|\.(.)\.)\]", lambda found: found[1] or found[2]),
    ),
    Row("alice ALL = /bin/ls [[.]", swapped("cmnd host", "path argument word", r"(\[[^\]]*)\[\.(?!.\.\])", r"\1.[")),
    Row("alice ALL = /usr/bin/[l/]s", swapped("cmnd", "path", r"(\[[^\]/]*)/", r"\1z")),
    Row('alice "web?" = ALL', swapped("host", "quoted", r"[*?\[\]]", "z")),
    Row(
        "alice web\\* = ALL",
        in_turn(
            swapped(
                "host",
                WORDS,
                r"\\x(?:2[aAdD]|3[fF]|5[bBdDeE])|\\(?=[*?\[\]^\\-])",
                lambda found: chr(int(found[0][2:], 16)) if len(found[0]) > 1 else "",
            ),
            swapped("host", WORDS, r"\\x(2[aAdD]|3[fF]|5[b-eB-E])|\\([*?\[\]^\\-])", _byte_of_pattern),
        ),
    ),
    Row(
        "alice [[\\:al\\pha\\:]]* = ALL",
        swapped(
            "host",
            WORDS,
            r"\[\\?:(?=\w*\\\w)((?:\\?\w)+)\\?:\]",
            lambda found: rf"[\:{found[1].replace(chr(92), '')}\:]",
        ),
    ),
    Row("alice [[\\:upper\\:]]* = ALL", swapped("host", WORDS, r"\[\\?:(upper|lower)\\?:\]", NOTHING)),
    Row("\\#1000 ALL = ALL", swapped("user runas", "word", r"^\\(?:#|x23)(?=[0-9])", "#")),
    Row("#-1 ALL = ALL", replaced(r"#(?=-[0-9])", "# ")),
    Row("Alice ALL = ALL", pieces_changed(_case_of_users)),
    Row("%ADM ALL = ALL", pieces_changed(_case_of_groups)),
    Row("alice 010.1.2.3 = ALL", swapped("host", "word", r"^[0-9.]*\b0[0-9]+[0-9./]*$|/0[0-9]+$", "zz")),
    Row("alice 0.0.0.0/0 = ALL", swapped("host", "word", r"^[0-9.]+/0$", "zz")),
    Row(
        "alice 127.5.0.1 = ALL",
        where(
            lambda case: case.request is not None and case.request.host.startswith("web2"),
            swapped("host", "word", r"^127\.[0-9./]+$", "10.2.0.9"),
        ),
    ),
    Row(
        "alice ALL = ALL, !/usr/bin/*",
        where(
            _asks_for(f"{world.TOP}/b/.hid"),
            in_turn(
                swapped("cmnd", "path", r"/(?=[*?])", "/[!.]"),
                swapped("cmnd", "path", r"/\*", "/[!.]*"),
                swapped("cmnd", "path", r"/(?=\[)", "/z"),
            ),
        ),
    ),
    Row("alice ALL = /opt/*", where(_asks_for(world.GONE), swapped("cmnd", "path", r".*[*?\[].*|.*/$", "/nowhere"))),
    Row("Defaults runas_default=postgres", parameters("runas_default")),
    Row("Defaults fast_glob", replaced(r"fast_glob", "insults")),
    Row("Defaults sudoers_locale=C.UTF-8", parameters("sudoers_locale")),
    Row("alice ALL = /bin/id", _group_beside_root),
    Row("(operator) /bin/id", _group_alone),
    Row("alice ALL = (!alice:adm) /bin/id", _denied_oneself),
    Row("alice ALL = (:operator) /bin/id", _groups_without_group),
    Row("Runas_Alias R = operator", _targets_written_out),
    Row("Runas_Alias G = %operator", _groups_by_name),
    Row("alice ALL = (#2001) /bin/ls", _target_number),
)


def _blank_behind_a_backslash(found: re.Match[str]) -> str:
    """Returns what sudo reads for a backslash, blanks and the end of a line: an escaped blank behind a word, otherwise a join."""
    before = found.string[: found.start()][-1:]
    is_behind_a_word = bool(found[1]) or before not in ("", *" \t\r\n!,:=()")
    return f"{found[1]}\\x20\n" if is_behind_a_word else f"{found[1]} "


# An include line that continues no other line, up to the end of its path, which has no quotes around it.
INCLUDED_PATH = r"(?<!\\\n)^((?:[ \t]*@|#)include(?:dir)?[ \t]+(?:\\[^\r\n]|[^\s\"\\])(?:\\[^\r\n]|[^\s\\])*)"
# A command with its arguments.
COMMAND = r"(?:/(?:\\[^\r\n]|[^\s,:=#\\])*|sudoedit|\^[^\s#]*\$)(?:[ \t]+(?:\\[^\r\n]|[^\s,:#\\])+)*"
OPEN_QUOTE = r'(?:[^"\n]*"[^"\n]*")*[^"\n]*"[^"\n]*?'
BYTE_OF_WORD = r"(?:\\[^\t\n]|[^\s!,:=()#\"\\>])"
OPTION_VALUE = rf"/(?:\\[,:= \t#]|[^\s,:=#\\])+|{BYTE_OF_WORD}+"
OPTIONS = "CWD|CHROOT|TIMEOUT|NOTBEFORE|NOTAFTER|ROLE|TYPE"
FILES = (
    # Refused here, read by sudo.
    Row("alice\\", replaced(rf"{EVEN}\\\r?\n[ \t]*", r"\1 ", r"\1")),
    Row(
        "Cmnd_Alias A = /bin/ls, \\ ",
        replaced(rf"{EVEN}\\[ \t]+(?:\r?\n[ \t]*|\Z)", r"\1 ", r"\1", r"\1\\x20\n", _blank_behind_a_backslash),
    ),
    Row('User_Alias A = "ali\\\\', replaced(rf'^({OPEN_QUOTE})\\\\[ \t]*\r?\n[ \t]*', r"\1z")),
    Row("alice ALL = ALL # note \\", swapped("*", "comment", r"\\+[ \t]*\r?$", "")),
    Row("#includedir", replaced(r"^[ \t]*#include(dir)?[ \t]*$", "# x")),
    BLANK_BEFORE_INCLUDE,
    Row('@include /x/a"b"', _quotes_in_included_paths),
    Row("a line of a command alone, with CR LF at the end", replaced(rf"(?<!\\\n)^[ \t]*{COMMAND}[ \t]*\r$", "")),
    Row("a name, a backslash and CR LF, and then a rule", swapped(LISTS, "word", rf"{EVEN}\\\r\Z", r"\1z")),
    Row("@includedir,x", replaced(r"^([ \t]*@includedir)(?=[^\s\\])", r"\1 ")),
    Row("@includedir /x\\", replaced(rf"{INCLUDED_PATH}\\(?=\r?\n)", r"\1z")),
    Row("@include /x/a\\x62", swapped("include", "word path", r"\\x([0-9A-Fa-f]{2})", _byte)),
    Row('@include "/x/a\\x62"', swapped("include", "quoted", r"\\(?:x([0-9A-Fa-f]{2})|([^\"]))", _byte)),
    Row(
        "a folder with a file whose name is not UTF-8, or a path of an include line that is not",
        swapped("include", "*", r"[\x80-\xff]", "z"),
    ),
    Row(
        "Defaults@,bob ALL = ALL",
        replaced(rf'^([ \t]*)Defaults@(?![ \t]*!*"?(?:#-?[0-9]|{BYTE_OF_WORD}))', r"\1z"),
    ),
    Row("alice ALL = /bin/l=s", swapped("cmnd", "mark", "^=$", "z", " z")),
    Row("alice ALL = sudoedit>x", swapped("cmnd", "word", "^sudoedit>.*$", "sudoedit")),
    Row("alice #5 = ALL", swapped("*", "comment", "^#-?[0-9]+", " z ")),
    Row("a control byte, outside a comment", replaced(r"[\x00-\x08\x0b-\x1f\x7f]", "z", "", " z ")),
    Row("#4294967296", in_turn(pieces_changed(_numbers_read), pieces_changed(_numbers_cut))),
    Row("#5\\4 = ALL", pieces_changed(_digits_cut)),
    Row("bo\\x2 ALL = ALL", swapped("*", WORDS + " value", rf"{EVEN}\\x(?![0-9A-Fa-f]{{2}})", r"\1z")),
    Row("alice 2001:db8::1 = ALL", replaced(r"[0-9A-Fa-f]*:[0-9A-Fa-f]*:[0-9A-Fa-f:.]*(/\w+)?", "zz", " zz ", "z zz ")),
    Row(
        "alice / = ALL",
        swapped(LISTS, "path", r'^/$|^/(?:[^\\!()">]|\\[,:= \t#])*\\[^,:= \t#](?:\\.|[^\\!()">])*', "zz"),
    ),
    Row("alice web1 !! = ALL", replaced(r"!!", "", " ")),
    Row("a file whose last line is one backslash", replaced(r"\\\r?\n?\Z", "")),
    Row("/bin/ls \\", replaced(r'^[ \t]*(?:(?:/|sudoedit)[^\n]*|"(?:\\"|[^"\n])*)\\[ \t]*\r?\n?\Z', "")),
    Row("+netgroup", swapped(LISTS, WORDS, r'^("?)\+', r"\1z")),
    Row("%:group", replaced(r"(?<=\")%:(?!\")|%(?:\\?:|\\x3[aA])#?(?=[^\s\"])", "%z")),
    Row("CWD=", replaced(rf"(?<!\\)\b({OPTIONS})[ \t]*=[ \t]*({OPTION_VALUE})", "")),
    Row("+netgroup", replaced(r"(?<![^\s!,:=()\"])\^(?:\\[#$]|[^#\n$])*\$", "/z")),
    Row("list", swapped("cmnd", WORDS, r'^"?list"?$', "/z")),
    Row("Defaults!PAGERS noexec", where(lambda case: "Defaults" in case.text, _undefined)),
    Row("Runas_Alias A = B", _undefined),
    # Read here, refused by sudo.
    Row("alice ALL = /bin/ls", replaced(r"\r$", "")),
    Row("Defaults badpass_message=!x", swapped("parameter", "value", "[=!]", "z")),
    Row("Defaults nonsense", parameters("[a-z_]+")),
    Row("alice ALL = /bin/ls ^-l", replaced(r"(?<=[ \t])\^", "z")),
    Row("alice ALL = /", swapped("cmnd", "path", r"^/$", "/z/")),
    Row("alice ALL = ALL, ! ! /bin/ls", replaced(r"!(?:[ \t]+!)+", "!")),
    Row('Defaults "env_reset"', swapped("parameter", "quoted", r"^.*$", "insults")),
    Row('alice ALL = /bin/ls a\\"b', swapped("cmnd", "argument", r"(\\[*?\[\]!^:\\,= \t#])|\\", r"\1")),
    Row("alice ALL = /bin/l\\s", swapped("cmnd", "path", r"\\(?![,:= \t#])", "z")),
    Row("bo\\<TAB>b ALL = ALL", swapped("*", "word", r"\\\t", "z")),
    Row("alice ALL = /bin/ls #5", swapped("*", "comment", r"^#(?=-?[0-9])", "# ")),
    Row("#-", replaced("#-$", "#")),
    Row("alice ALL = ALL #<CR>x", replaced(r"#-?\r(?!\n|\Z)", "# ")),
    Row("a>b ALL = ALL", swapped(LISTS, "word", ">", "z")),
    Row("^a$ ALL = ALL", swapped(LISTS, "word", r"^\^", "z")),
    Row("10.1.2.3 ALL = ALL", swapped("user runas", "word", r"^[0-9.]+(/.*)?$", "zz")),
    Row("alice %adm = ALL", swapped("host", WORDS, r'^("?)%#?', r"\1z")),
    Row("#5\\4 ALL = ALL", pieces_changed(_digits_joined)),
    Row("%#\\5 ALL = ALL", swapped("user runas", "word", r"^%#(?=\\)", "%")),
    Row("alice db,#5x = ALL", swapped("host", "word", "^#(?=[0-9]+[^0-9])", "z")),
    Row("alice ALL = /bin/ -l", replaced(r"/(?=[ \t]+[^\s,:#])", "/z")),
    Row("alice ALL = /bin/ls =", swapped("cmnd", "argument", r"(?:^|(?<=\\.))=(?=$|\\)", "z")),
    Row('Defaults:" bob" env_reset', replaced(r'^([ \t]*Defaults[:@>!][ \t]*!*")(?=[ \t>!=:,()\\])', r"\1z")),
    Row("Defaults: ! alice !lecture", replaced(r"^([ \t]*Defaults[:@>!][ \t]*!+)[ \t]+", r"\1")),
    Row('Defaults:"bob"env_reset', _blank_before_parameters),
    Row('Defaults badpass_message=""', swapped("parameter", "quoted", '^""$', '"z"')),
    Row('"a\\\\" ALL = ALL', swapped("*", "quoted", r'(?:\\\\)+"$', 'z"')),
    Row("Defaults web1", parameters(".*[^a-z_].*")),
    Row("alice ALL = (bob:) /bin/ls", replaced(r":[ \t]*\)", ")")),
    Row("alice ALL = (root : %adm) /bin/ls", _users_of_groups),
    Row("Cmnd_Alias CWD = /bin/ls", replaced(rf"\b({OPTIONS})\b", r"Z\1")),
    Row("sha256 ALL = ALL", swapped(LISTS, "word", r"^sha(224|256|384|512)$", "z")),
    Row("alice @include = ALL", swapped(LISTS, "word", r"^@include(dir)?$", "z")),
    Row("Host_Alias MAIL = web1", _aliases_like_tags),
    Row("alice ALL = /usr/bin/sudoedit /etc/x", swapped("cmnd", "path", r"/sudoedit$", "/z")),
)
