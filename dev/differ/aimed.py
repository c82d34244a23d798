"""Policies with one construct of a class of cautions, and requests aimed at it.

Each policy is plain but for the construct: no `ALL`, no sign and no other rule hides what it decides.
"""

import random
from collections.abc import Callable, Sequence
from typing import NamedTuple

from differ import world
from differ.ask import Case
from differ.pieces import spelled
from differ.world import TOP, Request

USERS = ("alice", "bob", "operator", "postgres")
HOSTS = ("web1.example.org", "web2.example.org", "Web3", "db.example.org")
PLAIN = ("b/ls", "b/cat", "b/x/id", "b/x/su", "s/sh")
ARGUMENTS = ("-l", "ab", "x", "-l -a", "/etc/motd", "a=b", "start web")
# Parameters of Defaults lines whose effect `testsudoers` shows.
SHOWN = ("runas_default", "fast_glob", "sudoers_locale")
# Others that decide. `testsudoers` asks for no password, knows no terminal, and runs nothing.
NOT_SHOWN = (
    "!authenticate",
    "!root_sudo",
    "targetpw",
    "rootpw",
    "runaspw",
    "exempt_group=adm",
    "setenv",
    "noexec",
    "intercept",
    "requiretty",
    "runas_check_shell",
    "runas_allow_unknown_id",
    "match_group_by_gid",
    "runchroot=/srv",
    "!fqdn",
    "group_plugin=x.so",
)


class Aimed(NamedTuple):
    """A policy with one construct, and requests that it may decide."""

    text: str
    requests: tuple[Request, ...]
    files: tuple[tuple[str, str], ...] = ()


class Aim:
    """Draws policies with one construct of a class."""

    def __init__(self, seed: str) -> None:
        self.random = random.Random(seed)
        self.user = self.random.choice(USERS)
        self.host = self.random.choice(HOSTS)
        self.command = f"{TOP}/{self.random.choice(PLAIN)}"

    def pick(self, *choices: str) -> str:
        """Returns one of the choices."""
        return self.random.choice(choices)

    def ask(self, arguments: str = "", target: str = "", command: str = "", host: str = "") -> Request:
        """Returns a request of the policy's user for its command."""
        return Request(self.user, host or self.host, target, "", command or self.command, arguments)

    def rule(self, command: str, user: str = "", host: str = "") -> str:
        """Returns a rule for the policy's user on its host."""
        return f"{user or self.user} {host or self.short()} = {command}\n"

    def chance(self, part: float) -> bool:
        """Returns true in this part of all calls."""
        return self.random.random() < part

    def known(self) -> world.User:
        """Returns the policy's user with its number and groups."""
        return next(user for user in world.USERS_KNOWN if user.name == self.user)

    def short(self) -> str:
        """Returns the name of the policy's host up to the first dot."""
        return self.host.partition(".")[0]

    def split(self, text: str) -> tuple[str, str]:
        """Returns a text in two parts, neither of them empty."""
        at = self.random.randrange(1, len(text))
        return text[:at], text[at:]

    def beside(self, text: str) -> str:
        """Returns a policy with a rule of another user before or behind it."""
        other = self.random.choice([user for user in USERS if user != self.user])
        more = f"{other} db = {TOP}/{self.pick(*PLAIN)}\n"
        return self.pick(text, text + more, more + text)


def _return(aim: Aim) -> Aimed:
    said = aim.pick("", f" {aim.pick(*ARGUMENTS)}")
    asked = (aim.ask(said.strip()), aim.ask())
    if aim.chance(0.25):
        return Aimed(f"User_Alias A = {aim.user}\\\r\n\n" + aim.rule(aim.command, "A"), asked)
    return Aimed(aim.rule(f"{aim.command}{said}\r"), asked)


def _blank_after_backslash(aim: Aim) -> Aimed:
    blank = aim.pick(" ", "  ", "\t")
    first = f"root {aim.short()} = {aim.command} {aim.pick(*ARGUMENTS)}\\{blank}\n"
    return Aimed(first + aim.rule(aim.command), (aim.ask(), aim.ask("x")))


def _join(aim: Aim) -> Aimed:
    said = aim.pick("-lar", "abc", "/etc/motd", "a=b")
    parts = [aim.user, aim.short(), aim.command, said]
    number = aim.random.randrange(len(parts))
    parts[number] = "\\\n".join(aim.split(parts[number]))
    return Aimed(f"{parts[0]} {parts[1]} = {parts[2]} {parts[3]}\n", (aim.ask(said),))


def _torn_mark(aim: Aim) -> Aimed:
    tag = aim.pick("PASSWD", "EXEC", "SETENV", "MAIL", "NOEXEC", "FOLLOW")
    said = aim.pick(f"{tag}{aim.pick('', ' ')}\\\n: {aim.command}", f"!\\\n! {aim.command}")
    if aim.chance(0.25):
        return Aimed(f"{aim.pick('', ' ')}\\\nUser_Alias A = {aim.user}\n" + aim.rule(aim.command, "A"), (aim.ask(),))
    return Aimed(aim.rule(said), (aim.ask(),))


def _include_escape(aim: Aim) -> Aimed:
    rule, other = aim.rule(aim.command), aim.rule(f"{TOP}/b/q[r")
    asked = (aim.ask(), aim.ask(command=f"{TOP}/b/q[r"))
    path, files = aim.random.choice(
        (
            ('"m\\x6fre"', (("more", rule),)),
            ('"mo\\re"', (("more", rule),)),
            (f"{aim.pick('', f'{TOP}/')}m\\x6fre", (("more", rule), ("mx6fre", other))),
            (f"{TOP}/\\%h", (("%h", rule), (aim.short(), other))),
        )
    )
    return Aimed(f"{aim.pick('@', '#')}include {path}\n", asked, files)


def _include_indent(aim: Aim) -> Aimed:
    blank = aim.pick(" ", "  ", "\t")
    return Aimed(f"{blank}#include more\n", (aim.ask(),), (("more", aim.rule(aim.command)),))


def _comment(aim: Aim) -> Aimed:
    number = aim.pick("5", "-1", "42 note", "7,8", "-", "\rx")
    return Aimed(aim.rule(f"{aim.pick(aim.command, 'ALL')}{aim.pick('', ' ')}#{number}"), (aim.ask(),))


def _empty_group(aim: Aim) -> Aimed:
    target = aim.pick("root", "postgres", "operator")
    users, colon = aim.pick(target, f"bin, {target}"), aim.pick(":", " :", ": ", ":\\\n ")
    return Aimed(aim.rule(f"({users}{colon}) {aim.command}"), (aim.ask(target=target),))


def _caret(aim: Aim) -> Aimed:
    kind = aim.pick("arguments", "arguments", "path", "host")
    if kind == "path":
        folder, last = aim.command.rsplit("/", 1)
        return Aimed(aim.rule(f"{folder}/[^{aim.pick('z', '-', 'q-z')}]{last[1:]}"), (aim.ask(),))
    if kind == "host":
        return Aimed(aim.rule(aim.command, host=f"{aim.short()[:-1]}[^{aim.pick('z', '5-9z')}]"), (aim.ask(),))
    said = aim.pick("[^-]*", "[^x]b", "a[^-a]*", "-[^a-c]", "[^l]*")
    return Aimed(aim.rule(f"{aim.command} {said}"), tuple(map(aim.ask, ("-l", "ab", "bob", "^x", "a^b", "-^", "^l"))))


def _escape(aim: Aim) -> Aimed:
    ways = (_escape_in_arguments, _escape_in_host, _escaped_id, _escape_in_path, _refused_escape, _refused_escape)
    return aim.random.choice(ways)(aim)


def _escape_in_arguments(aim: Aim) -> Aimed:
    one, other = aim.split(aim.pick("ab", "start", "xyz"))
    tail = aim.pick(other, "", "*")
    return Aimed(aim.rule(f"{aim.command} {one}\\\\{tail}"), tuple(map(aim.ask, (f"{one}\\{tail}", f"{one}{tail}", f"{one}\\x"))))


def _escape_in_host(aim: Aim) -> Aimed:
    short = aim.short()
    front, last = short[:-1], short[-1]
    wildcard = aim.pick(f"{front}\\*", f"{front}\\?", f"\\*{last}", f"{front}\\\\{last}")
    bracket = aim.pick(f"{front}\\[{last}\\]", f"{front}[+\\-z]", f"{front}[\\^z]")
    return Aimed(aim.rule(aim.command, host=aim.pick(wildcard, bracket)), (aim.ask(),))


def _escaped_id(aim: Aim) -> Aimed:
    name = f"{aim.pick(chr(92) + '#', chr(92) + 'x23')}{aim.known().number}"
    return _named(aim, name)


def _named(aim: Aim, name: str) -> Aimed:
    """Returns a policy with a name of the policy's user, or of the target."""
    if aim.chance(0.5):
        return Aimed(aim.rule(aim.command, name), (aim.ask(),))
    return Aimed(f"root ALL = ({name}) {aim.command}\n", (Request("root", aim.host, aim.user, "", aim.command, ""),))


def _escape_in_path(aim: Aim) -> Aimed:
    if aim.chance(0.5):
        mark, command = aim.pick("*", "?", "[", "]", "!", "^"), f"{TOP}/s/l!m"
        return Aimed(aim.rule(f"{command}\\{mark}"), (aim.ask(mark, command=command),))
    said = aim.pick("!x", '"a"', "(b", ")")
    return Aimed(aim.rule(f"sudoedit{said}"), (aim.ask(said, command="sudoedit"),))


def _refused_escape(aim: Aim) -> Aimed:
    """Returns a policy with an escape that sudo refuses."""
    kind = aim.pick("path", "path", "arguments", "user")
    if kind == "path":
        front, last = aim.command[:-1], aim.command[-1]
        return Aimed(aim.rule(f"{front}\\{last}"), (aim.ask(),))
    if kind == "arguments":
        said = aim.pick("-l", "ab", "xyz", '"a"')
        return Aimed(aim.rule(f"{aim.command} \\{said}"), (aim.ask(said),))
    number = str(aim.known().number)
    return _named(aim, f"#{number[:-1]}\\{number[-1]}")


def _capital(aim: Aim, name: str) -> str:
    """Returns a name with one letter as a capital."""
    at = aim.random.choice([at for at, one in enumerate(name) if one.isalpha()])
    return spelled(name[:at] + name[at].upper() + name[at + 1 :])


def _case(aim: Aim) -> Aimed:
    if aim.chance(0.6):
        return _named(aim, _capital(aim, aim.user))
    group = world.lower(aim.random.choice(aim.known().groups))
    return Aimed(aim.rule(aim.command, f"%{_capital(aim, group)}"), (aim.ask(),))


def _quoted_host(aim: Aim) -> Aimed:
    short = aim.short()
    front, last = short[:-1], short[-1]
    host = aim.pick(f"{front}?", f"{front}*", f"*{last}", f"{front}[{last}x]", f"?{short[1:]}")
    return Aimed(aim.rule(aim.command, host=f'"{host}"'), (aim.ask(),))


def _quoted_escape(aim: Aim) -> Aimed:
    one, other = aim.split(aim.user)
    if aim.chance(0.25):
        group, rest = aim.split(aim.known().groups[0])
        return Aimed(aim.rule(aim.command, f'"%{group}\\{rest}"'), (aim.ask(),))
    return _named(aim, f'"{one}\\{aim.pick(other, f"x{ord(other[0]):02x}{other[1:]}")}"')


def _defaults(aim: Aim) -> Aimed:
    name = aim.pick(*SHOWN)
    if name == "runas_default":
        target = aim.pick("postgres", "operator", "bob")
        text = f"Defaults{aim.pick('', f':{aim.user}')} runas_default={target}\n"
        said = aim.pick(aim.command, f"(root) {aim.command}")
        return Aimed(text + aim.rule(said), (aim.ask(), aim.ask(target="root"), aim.ask(target=target)))
    if name == "fast_glob":
        path = aim.pick(f"{TOP}/*/", f"{TOP}/?/")
        return Aimed("Defaults fast_glob\n" + aim.rule(path), (aim.ask(command=f"{TOP}/b/ls"),))
    text = "Defaults sudoers_locale=C.UTF-8\n" + aim.rule(f"{aim.command} {aim.pick('?', 'a?', '[!a]')}")
    return Aimed(text, (aim.ask("\xc3\xa9"), aim.ask("a\xc3\xa9")))


def _sudoedit(aim: Aim) -> Aimed:
    path = aim.pick("/usr/bin/sudoedit", f"{TOP}/b/sudoedit", "/opt/sudoedit")
    said = aim.pick("/etc/motd", "/etc/hosts")
    rule = aim.pick(f"{path} {said}", path, f"ALL, !{path}")
    return Aimed(aim.rule(rule), (aim.ask(said, command="sudoedit"),))


def _network(aim: Aim) -> Aimed:
    addresses = {"web1.example.org": "10.1.2.3", "web2.example.org": "10.2.0.9", "Web3": "192.168.7.1"}
    aim.host = aim.pick(*addresses)
    front, last = addresses[aim.host].rsplit(".", 1)
    net = ".".join(front.split(".")[:2])
    mask = aim.pick(f"{front}.{last}/0", "0.0.0.0/0", "10.0.0.0/0")
    zero = aim.pick(f"{front}.0{last}", f"{net}.00.0/16", f"{net}.0.0/016")
    loopback = aim.pick("127.5.0.1", "127.5.0.0/16", "127.0.0.0/8")
    host = aim.pick(mask, zero, loopback)
    return Aimed(aim.rule(aim.command, host=host), (aim.ask(), aim.ask(host="web2.example.org")))


def _bracket(aim: Aim) -> Aimed:
    kind = aim.pick("arguments", "arguments", "path", "host")
    if kind == "path":
        folder, last = aim.command.rsplit("/", 1)
        return Aimed(aim.rule(f"{folder}/[{last[0]}/]{last[1:]}"), (aim.ask(),))
    if kind == "host":
        aim.host = aim.pick("Web3", "web1.example.org") if aim.chance(0.5) else aim.host
        first, rest = aim.short()[:1], aim.short()[1:]
        equal = f"[[\\={first}\\=]]"
        names = ["[[\\:al\\pha\\:]]", "[[\\:ALPHA\\:]]", *(["[[\\:upper\\:]]"] if first == "W" else [])]
        return Aimed(aim.rule(aim.command, host=aim.pick(equal, *names) + rest), (aim.ask(),))
    byte = aim.pick("a", "x", "l")
    said = aim.pick(f"[[={byte}=]]", f"[[.{byte}.]]", "[[\\:word\\:]]", "[[\\:\\:]]")
    return Aimed(aim.rule(f"{aim.command} {said}"), tuple(map(aim.ask, (byte, f"{byte}]", "=]", "w]", ":]", "[]", "[", ".]"))))


def _setenv(aim: Aim) -> Aimed:
    other = f"{TOP}/b/w]"
    texts = (
        aim.rule(f"NOSETENV: {other}, ALL"),
        aim.rule(f"{aim.pick('', 'NO')}SETENV: {other}, ALL, {aim.command}"),
        "Cmnd_Alias X = ALL\n" + aim.rule("X"),
    )
    return Aimed(aim.pick(*texts), (aim.ask(),))


def _group_form(aim: Aim) -> Aimed:
    if aim.chance(0.25):
        target = aim.pick("operator", "postgres")
        return Aimed(aim.rule(f"({target} : {aim.pick('%adm', 'adm, !%#4')}) {aim.command}"), (aim.ask(target=target),))
    group = aim.pick("operator", "adm", "ALL", "#4", "!adm", "adm, operator")
    return Aimed(aim.rule(f"({aim.pick('', ' ')}:{group}) {aim.command}"), (aim.ask(), aim.ask(target=aim.user)))


def _reserved(aim: Aim) -> Aimed:
    name = aim.pick("CWD", "CHROOT", "TIMEOUT", "NOTBEFORE", "NOTAFTER")
    tag = aim.pick("", "NO") + aim.pick("EXEC", "FOLLOW", "INTERCEPT", "LOG_INPUT", "LOG_OUTPUT", "MAIL", "PASSWD", "SETENV")
    texts = (
        f"Host_Alias {tag} = {aim.short()}\nHost_Alias X = {tag} : Y = nowhere\n" + aim.rule(aim.command, host="X"),
        f"User_Alias X = {tag} : {tag} = {aim.user}\n" + aim.rule(aim.command, "X"),
        f"User_Alias {name} = {aim.user}\n" + aim.rule(aim.command, name),
        f"Host_Alias {name} = {aim.short()}\n" + aim.rule(aim.command, host=name),
        f"Cmnd_Alias {name} = {aim.command}\n" + aim.rule(name),
    )
    return Aimed(aim.pick(*texts), (aim.ask(),))


def _arguments(aim: Aim) -> Aimed:
    argument = aim.pick("=", "^a", "^-l b", "a = b", "^", "-l =")
    texts = (aim.rule(f"{aim.command} {argument}"), aim.rule(f"ALL, !{TOP}/b/ {aim.pick('-l', 'a b')}"))
    return Aimed(aim.pick(*texts), (aim.ask(argument),))


DRAWN: dict[str, Callable[[Aim], Aimed]] = {
    "return": _return,
    "blank-after-backslash": _blank_after_backslash,
    "join": _join,
    "torn-mark": _torn_mark,
    "include-escape": _include_escape,
    "include-indent": _include_indent,
    "comment": _comment,
    "empty-group": _empty_group,
    "caret": _caret,
    "escape": _escape,
    "case": _case,
    "quoted-host": _quoted_host,
    "quoted-escape": _quoted_escape,
    "defaults": _defaults,
    "sudoedit": _sudoedit,
    "network": _network,
    "bracket": _bracket,
    "setenv": _setenv,
    "group-form": _group_form,
    "reserved": _reserved,
    "arguments": _arguments,
}


def drawn(name: str, seed: str) -> tuple[Case, Sequence[Request]]:
    """Draws a policy with one construct of a class, and requests aimed at it."""
    aim = Aim(f"{seed}.{name}")
    aimed = DRAWN[name](aim)
    return Case(aim.beside(aimed.text), aimed.files), aimed.requests
