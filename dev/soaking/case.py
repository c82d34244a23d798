"""Random inputs of the program: a policy with includes, users, hosts, and requests of several senders.

A seed always makes the same files. Most cases are such that an audit ends with a report; some are damaged.
"""

import os
import random
from collections.abc import Callable, Iterator, Sequence

from kulavemia import limits

KINDS = ("user", "runas", "host", "cmnd")
POLICY = "policy"
USERS = "users.csv"
HOSTS = "hosts.csv"
NO_ALIAS = "NONE"

_TAGS = ("NOPASSWD", "PASSWD", "NOEXEC", "EXEC", "SETENV", "NOSETENV", "LOG_INPUT", "NOMAIL", "FOLLOW")
_DEFAULTS = ("Defaults env_reset", "Defaults:{user} !lecture", "Defaults@{host} log_output", "Defaults!{cmnd} noexec")
_SIZES = (1, 2, 5, 10, 30)


class Case:
    """A case in the making: what its names are drawn from."""

    def __init__(self, seed: int) -> None:
        self.random = random.Random(seed)
        size = self.random.choice(_SIZES)
        self.users = [f"u{number}" for number in range(self._up_to(3 * size))]
        self.groups = [(f"g{number}", 2000 + number) for number in range(self._up_to(size))]
        self.hosts = [f"h{number}.example.org" for number in range(self._up_to(size))]
        self.commands = [f"/usr/bin/c{number}" for number in range(self._up_to(4 * size))]
        self.aliases: dict[str, list[str]] = {kind: [] for kind in KINDS}
        self.rules = self._up_to(8 * size)
        self.requests = self._up_to(60 * size)
        self.loose = self.chance(0.1)
        self.members: dict[str, Callable[[], str]] = {
            "user": self._user_member,
            "runas": self._runas_member,
            "host": self._host_member,
            "cmnd": self._command_member,
        }

    def _up_to(self, limit: int) -> int:
        return self.random.randint(1, max(1, limit))

    def chance(self, part: float) -> bool:
        """Returns true in this part of all calls."""
        return self.random.random() < part

    def pick(self, *choices: str) -> str:
        """Returns one of the choices."""
        return self.random.choice(choices)

    def _user_member(self) -> str:
        group, gid = self.random.choice(self.groups)
        user = self.random.choice(self.users)
        written = self.pick(user, f'"{user}"', "\\x75" + user[1:])
        return self.pick(user, written, f"%{group}", f"%#{gid}", f"#{1000 + self._up_to(50)}")

    def _runas_member(self) -> str:
        group = self.random.choice(self.groups)[0]
        return self.pick("root", "root", "ALL", self.random.choice(self.users), f"%{group}")

    def _host_member(self) -> str:
        host = self.random.choice(self.hosts)
        pattern = self.pick("h[0-9]*", "h?.example.org", "*.example.[o-p]rg", "H1*")
        address = self.pick(f"10.{self._up_to(9)}.0.0/16", "10.1.2.3/255.255.0.0", "127.0.0.1")
        return self.pick(host, host.upper(), pattern, address)

    def _command_member(self) -> str:
        path = self.random.choice(self.commands)
        pattern = self.pick("/usr/bin/c[0-9]", "/usr/*/c1*", "/*", "/usr/bin/c?", "/usr/bin/[[\\:alpha\\:]]*")
        arguments = self.pick(" -v", ' ""', " *", " -[a-x] *", "\\, -a")
        return self.pick(path, path, pattern, "/usr/bin/", f"{path}{arguments}", f"sudoedit /etc/{path[9:]}", "ALL")

    def member(self, kind: str) -> str:
        """Returns a member of a list: a name, a pattern or an alias, some of them with `!`."""
        sign = self.pick(*["", "", "", "", "", "!", "!!"])
        known = self.aliases[kind]
        if known and self.chance(0.3):
            return sign + self.random.choice(known)
        if self.loose and self.chance(0.02):
            return sign + f"{kind.upper()}_{self._up_to(200)}"
        return sign + ("ALL" if self.chance(0.1) else self.members[kind]())

    def members_of(self, kind: str, most: int) -> str:
        """Returns a list of members."""
        comma = self.pick(", ", ",", " , ", ", \\\n    ")
        return comma.join(self.member(kind) for _ in range(self._up_to(most)))

    def alias_lines(self) -> Iterator[str]:
        """Yields definitions of aliases. One that names an alias names an earlier one, but in a loose case."""
        keywords = dict(zip(KINDS, ("User_Alias", "Runas_Alias", "Host_Alias", "Cmnd_Alias")))
        for number in range(self._up_to(self.rules) - 1):
            kind = self.pick(*KINDS)
            name = f"{kind.upper()}_{number}"
            text = f"{keywords[kind]} {name} = {self.members_of(kind, 3)}"
            self.aliases[kind].append(name)
            yield text

    def rule(self) -> str:
        """Returns a rule, with one list of commands or two."""
        sections = []
        for _ in range(1 + self.chance(0.1)):
            target = f"({self.members_of('runas', 2)}{self.pick('', '', ': ' + self.random.choice(self.groups)[0])}) "
            tags = "".join(f"{tag}: " for tag in self.random.sample(_TAGS, self.random.choice((0, 0, 1, 2))))
            commands = f"{self.pick('', target)}{tags}{self.members_of('cmnd', 4)}"
            sections.append(f"{self.members_of('host', 2)} = {commands}")
        return f"{self.members_of('user', 3)} {' : '.join(sections)}{self.pick('', '', ' # said')}"

    def policy_lines(self) -> Iterator[str]:
        """Yields the lines of the main file of the policy."""
        if self.chance(0.3):
            yield "@includedir more.d"
        yield from self.alias_lines()
        for _ in range(self.rules):
            yield self.rule()
            if self.chance(0.05):
                names = {kind: self.random.choice(known or ["ALL"]) for kind, known in self.aliases.items()}
                yield self.pick(*_DEFAULTS).format(**names)
        if self.chance(0.3):
            yield "@include more.d/more"

    def user_rows(self) -> Iterator[str]:
        """Yields the rows of the users file."""
        yield "user,uid,groups"
        yield "root,0,root:0"
        for number, user in enumerate(self.users):
            groups = self.random.sample(self.groups, self._up_to(min(4, len(self.groups))))
            yield f"{user},{1000 + number},{' '.join(f'{name}:{gid}' for name, gid in groups)}"

    def host_rows(self) -> Iterator[str]:
        """Yields the rows of the hosts file."""
        yield "host,interfaces"
        for number, host in enumerate(self.hosts):
            yield f"{host},10.{number % 10}.{number % 256}.{self._up_to(254)}/16 127.0.0.1/8"

    def request(self) -> str:
        """Returns the fields of a request behind its number."""
        host = self.random.choice(self.hosts) if self.chance(0.95) else "other"
        command = self.random.choice(self.commands) if self.chance(0.9) else "sudoedit"
        runas = self.pick("", "", "", "root", self.random.choice(self.users))
        group = self.pick("", "", "", self.random.choice(self.groups)[0])
        user = self.random.choice([*self.users, "root"])
        return f"{user},{host},{runas},{group},{command},{self.pick('', '-v', '-x y')}"

    def request_files(self) -> Iterator[tuple[str, list[str]]]:
        """Yields the sender and the rows of each requests file; those of one sender are parts of one list."""
        senders = self.random.choice((1, 1, 2, 5, limits.SENDERS))
        for number in range(senders):
            parts: list[list[str]] = [[] for _ in range(self.random.choice((1, 1, 2, 4)))]
            count = self._up_to(self.requests // senders)
            for request in range(1, count + 1):
                self.random.choice(parts).append(f"{request},{self.request()}")
            self.random.choice(parts).append(f"close,{count},,,,,")
            for rows in parts:
                yield f"s{number}", ["number,user,host,runas_user,runas_group,command,arguments", *rows]

    def alias(self) -> tuple[str, str]:
        """Returns the kind and the name of an alias, which need not be there."""
        kind = self.pick(*KINDS)
        return kind, self.random.choice([*self.aliases[kind], NO_ALIAS])

    def damaged(self, text: bytes) -> bytes:
        """Returns a text that is cut, or in which bytes are changed, repeated or put in."""
        for _ in range(self._up_to(3)):
            start = self.random.randrange(len(text) + 1)
            end = min(len(text), start + self._up_to(40))
            put = self.random.choice((b"", text[start:end] * 2, self.random.randbytes(3), b"\\\n", b'"', b"(" * 50))
            text = text[:start] + put + (text[end:] if self.chance(0.9) else b"")
        return text


def _write(folder: str, name: str, lines: Sequence[str]) -> None:
    path = os.path.join(folder, name)
    os.makedirs(os.path.dirname(path), exist_ok=True)
    with open(path, "w", encoding="utf-8") as file:
        file.writelines(line + "\n" for line in lines)


def _damage(case: Case, path: str) -> None:
    with open(path, "rb") as file:
        text = case.damaged(file.read())
    with open(path, "wb") as file:
        file.write(text)


def write(seed: int, folder: str) -> tuple[Case, list[str]]:
    """Writes the files of a case into a folder, and returns it with a word `NAME=PATH` for each requests file."""
    case = Case(seed)
    lines = {POLICY: list(case.policy_lines()), "more.d/more": [case.rule()], "more.d/last": [case.rule()]}
    lines.update({USERS: list(case.user_rows()), HOSTS: list(case.host_rows())})
    words = []
    for number, (sender, rows) in enumerate(case.request_files()):
        lines[f"requests/{number}.csv"] = rows
        words.append(f"{sender}=requests/{number}.csv")
    for name, text in lines.items():
        _write(folder, name, text)
    if case.chance(0.2):
        _damage(case, os.path.join(folder, case.pick(*lines)))
    return case, words
