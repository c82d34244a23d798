"""What each caution of a policy means for a page: which of its answers sudo may give otherwise."""

import re
from collections.abc import Iterable
from typing import NamedTuple

from kulavemia.review import Caution

# Who can become root may be otherwise for sudo; whether a password is asked; which commands a rule has, or what one of them is
# worth; what cells themselves say that they depend on; none of these.
WHO = "who"
PASSWORD = "password"
COMMANDS = "commands"
NOTED = "noted"
OTHER = "other"

_BRACKETS = ("caret", "bracket")
# Users and hosts stand before the first equals sign, and the hosts of a further section behind a colon that no path follows.
_HOST_BRACKET = re.compile(r"(?:^|:(?![ \t]*/))(?:\\.|[^=\\])*\[(?:\\.|[^=\\])*=", re.DOTALL)
# A `%`, or what may yield one, behind the colon of a list to run as: sudo refuses a group by its sign there.
_GROUP_BY_SIGN = re.compile(r"\(.*:.*[%\\]", re.DOTALL)


class Effect(NamedTuple):
    """Which answers of a page a caution is about, and what it means for them."""

    answers: str
    meaning: str


_LINE = "For sudo this line may be another rule, or none: each answer on this page may differ."
_NAMES = "For sudo the line may name further users, groups or hosts, or others: each answer on this page may differ."
_LISTED = "Which commands the rule lists may differ for sudo; who can become root by any command does not."
_ENVIRONMENT = (
    "Whether a user may set environment variables may differ for sudo. With one, a listed command may be worth any command;"
    " who has a way to root does not differ."
)
_SHOWN = "That is not judged here: a cell that depends on it has a question mark, and shows the most that may be so."
_UNNAMED = f"sudo asks for something besides the request. {_SHOWN}"
_NOTES = {
    "digest": f"For sudo the digest of the command's file decides too. {_SHOWN}",
    "time": f"For sudo the time decides too. {_SHOWN}",
    "chroot": f"For sudo the command is the one below another root folder, and runs there. {_SHOWN}",
    "regex": f"For sudo a regular expression decides too, which the command or its arguments have to fit. {_SHOWN}",
}
_CLASSES = {
    "return": Effect(WHO, _LINE),
    "blank-after-backslash": Effect(WHO, _LINE),
    "join": Effect(WHO, _LINE),
    "torn-mark": Effect(WHO, _LINE),
    "include-escape": Effect(WHO, "sudo may read another file here, or none: each answer on this page may differ."),
    "include-indent": Effect(WHO, "sudo does not read this file: each answer on this page may differ."),
    "comment": Effect(WHO, _LINE),
    "empty-group": Effect(WHO, _LINE),
    "caret": Effect(WHO, _NAMES),
    "escape": Effect(WHO, _NAMES),
    "case": Effect(WHO, "For sudo the name is also that of a user or group with small letters: each answer may differ."),
    "quoted-host": Effect(WHO, _NAMES),
    "quoted-escape": Effect(WHO, _NAMES),
    "linked": Effect(COMMANDS, _LISTED),
    "unknown-parameter": Effect(OTHER, "sudo passes over it too, with a warning. A parameter that was meant has no effect."),
    "sudoedit": Effect(COMMANDS, _LISTED),
    "network": Effect(WHO, _NAMES),
    "bracket": Effect(WHO, _NAMES),
    "setenv": Effect(COMMANDS, _ENVIRONMENT),
    "group-form": Effect(OTHER, "Answers to requests of logs that ask for no group may differ; who can become root does not."),
    "reserved": Effect(WHO, "sudo skips this line, and each rule that has the alias: each answer on this page may differ."),
    "arguments": Effect(WHO, _LINE),
    "depends": Effect(NOTED, _UNNAMED),
}
_PASSWORDS = Effect(PASSWORD, "Whether a password is asked, and whose, is not told on this page: it shows a question mark there.")
_TARGET = "A rule that names no target is not for root, but for the user that this line names: each answer may differ."
_DEFAULTS = {
    **dict.fromkeys(("authenticate", "targetpw", "rootpw", "runaspw", "exempt_group"), _PASSWORDS),
    "runas_default": Effect(WHO, _TARGET),
    **dict.fromkeys(
        ("root_sudo", "requiretty", "runas_check_shell", "noexec", "intercept"),
        Effect(OTHER, "sudo may refuse, or hold back, what this page shows as allowed; it allows no further user."),
    ),
    "runas_allow_unknown_id": Effect(OTHER, "sudo allows targets without a name too; who can become root does not differ."),
    "setenv": Effect(COMMANDS, _ENVIRONMENT),
    "runchroot": Effect(
        COMMANDS,
        "sudo runs commands below another root folder, or below one that the user chooses: a listed command may be worth any"
        " command there. Who has a way to root does not differ.",
    ),
    **dict.fromkeys(("fast_glob", "sudoers_locale"), Effect(COMMANDS, _LISTED)),
}
CLASSES = (*_CLASSES, "defaults")
_UNKNOWN = Effect(WHO, "Each answer on this page may differ for sudo.")


def effect_of(caution: Caution) -> Effect:
    """Returns what a caution means."""
    if caution.kind == "defaults":
        return _DEFAULTS.get(subject_of(caution.text), _UNKNOWN)
    if caution.kind == "depends":
        return Effect(NOTED, _NOTES.get(subject_of(caution.text), _UNNAMED))
    if caution.kind in _BRACKETS and not _has_host_bracket(caution.line):
        return Effect(COMMANDS, _LISTED)
    if caution.kind == "group-form" and (not caution.line or _GROUP_BY_SIGN.search(caution.line)):
        return Effect(WHO, _LINE)
    return _CLASSES.get(caution.kind, _UNKNOWN)


def subject_of(text: str) -> str:
    """Returns the subject of a caution's text: the parameter of a Defaults line, or what a command depends on."""
    return text.partition(":")[0]


def shown_text(kind: str, text: str) -> str:
    """Returns a caution's text as a page shows it: of what is not judged the subject alone, since a page takes it as either."""
    return subject_of(text) if kind == "depends" else text


def _has_host_bracket(text: str) -> bool:
    """Returns whether a bracket may stand among the hosts of a line; so it is taken where the line is not known."""
    if text.startswith(("Cmnd_Alias", "Cmd_Alias")):
        return False
    return not text or text.startswith(("Host_Alias", "Defaults")) or _HOST_BRACKET.search(text) is not None


def is_doubtful(effects: Iterable[Effect]) -> bool:
    """Returns whether sudo may tell otherwise who can become root."""
    return any(effect.answers == WHO for effect in effects)
