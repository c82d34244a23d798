"""A second body of the verdict, and policies that are drawn at random.

The body writes every list out, tries every grant in the order of the file, and takes the last that applies. It shares nothing
with the program: rules are made here, and printed, or read in the plain form in which they are printed. Whom and what each word
of a list is for stands in tables, by sudoers(5) and docs/PROFILE.md, for a few users, hosts and commands.
"""

import csv
import random
import re
from collections.abc import Iterator
from typing import NamedTuple

USERS = """user,uid,groups
root,0,root:0
alice,1000,alice:1000 adm:4
bob,1001,bob:1001 operator:37
operator,11,operator:37
"""
HOSTS = """host,interfaces
web1,10.1.2.3/16 127.0.0.1/8
web2,10.2.0.9/16
"""
GROUPS = {row["user"]: {group.partition(":")[0] for group in row["groups"].split()} for row in csv.DictReader(USERS.splitlines())}
KNOWN_GROUPS = set().union(*GROUPS.values())
KNOWN_HOSTS = {row["host"] for row in csv.DictReader(HOSTS.splitlines())}
# Commands with their arguments, which stand after a comma.
LS = {"/bin/ls,", "/bin/ls,-l", "/bin/ls,-l -a"}
SU = {"/bin/su,", "/bin/su,-"}
EDITS = {"sudoedit,", "sudoedit,/etc/motd", "sudoedit,/etc/a/b"}
COMMANDS = {*LS, *SU, *EDITS, "/bin/id,", "/bin/x/id,", "/usr/bin/id,"}
PAIRS = ("EXEC", "FOLLOW", "INTERCEPT", "LOG_INPUT", "LOG_OUTPUT", "MAIL", "PASSWD", "SETENV")

# Whom or what each word of a list is for.
FITS: dict[str, dict[str, set[str]]] = {
    "User": {
        "ALL": set(GROUPS),
        "alice": {"alice"},
        "bob": {"bob"},
        "carol": set(),
        "#1001": {"bob"},
        "#37": set(),
        "%adm": {"alice"},
        "%operator": {"bob", "operator"},
        "%wheel": set(),
        "%#37": {"bob", "operator"},
        "%#11": set(),
    },
    "Host": {
        "ALL": KNOWN_HOSTS,
        "web1": {"web1"},
        "WEB[2-9]": {"web2"},
        "web?": {"web1", "web2"},
        "db": set(),
        "10.1.0.0": {"web1"},
        "10.2.0.9": {"web2"},
        "127.0.0.1": set(),
        "10.1.0.0/16": {"web1"},
        "10.1.2.0/24": {"web1"},
        "10.1.0.0/24": set(),
        "10.2.0.0/255.255.255.0": {"web2"},
        "10.2.1.0/255.255.255.0": set(),
        "0.0.0.0/0": {"web1", "web2"},
        "127.0.0.0/8": set(),
    },
    "Runas": {
        "ALL": set(GROUPS),
        "root": {"root"},
        "operator": {"operator"},
        "alice": {"alice"},
        "adm": set(),
        "eve": set(),
        "#11": {"operator"},
        "#37": set(),
        "%adm": {"alice"},
        "%#37": {"bob", "operator"},
    },
    "Cmnd": {
        "ALL": COMMANDS,
        "/bin/ls": LS,
        "/bin/ls -?": {"/bin/ls,-l"},
        "/bin/ls -*": {"/bin/ls,-l", "/bin/ls,-l -a"},
        "/bin/su": SU,
        '/bin/su ""': {"/bin/su,"},
        "/bin/": {*LS, *SU, "/bin/id,"},
        "/bin/x/": {"/bin/x/id,"},
        "/bin/[!s]*": {*LS, "/bin/id,"},
        "/*/id": {"/bin/id,"},
        "sudoedit": EDITS,
        "sudoedit /etc/*": {"sudoedit,/etc/motd"},
    },
}
# For which groups the words of a list of users to run as are, where the list is of groups.
FITS_GROUP: dict[str, set[str]] = {
    "ALL": KNOWN_GROUPS,
    "root": {"root"},
    "operator": {"operator"},
    "alice": {"alice"},
    "adm": {"adm"},
    "eve": set(),
    "#11": set(),
    "#37": {"operator"},
    "%adm": {"adm"},
    "%#37": {"operator"},
}


class Member(NamedTuple):
    """A member of a list: how many `!` it has, and a word or the name of an alias."""

    bangs: int
    word: str

    def __str__(self) -> str:
        return "!" * self.bangs + self.word


Members = list[Member]


def joined(members: Members) -> str:
    """Returns a list as it is written."""
    return ", ".join(map(str, members))


class Runas(NamedTuple):
    """Whom to run a command as: the users and the groups, each where it is written."""

    users: Members | None
    groups: Members | None

    def __str__(self) -> str:
        return f"({joined(self.users or [])}{'' if self.groups is None else ':' + joined(self.groups)})"


class Command(NamedTuple):
    """A command of a rule, with what stands before it."""

    runas: Runas | None
    tags: list[str]
    member: Member

    def __str__(self) -> str:
        return " ".join(map(str, [*([] if self.runas is None else [self.runas]), *(f"{tag}:" for tag in self.tags), self.member]))


class Section(NamedTuple):
    """Hosts of a rule, and the commands on them."""

    hosts: Members
    commands: list[Command]

    def __str__(self) -> str:
        return f"{joined(self.hosts)} = {', '.join(map(str, self.commands))}"


class Rule(NamedTuple):
    """A rule."""

    users: Members
    sections: list[Section]

    def __str__(self) -> str:
        return f"{joined(self.users)} {' : '.join(map(str, self.sections))}"


class Policy(NamedTuple):
    """Aliases by kind and name, and the lines: rules, and others."""

    aliases: dict[str, dict[str, Members]]
    lines: list[Rule | str]

    def __str__(self) -> str:
        return "".join(f"{line}\n" for line in self.lines)


class Request(NamedTuple):
    """A request. `command` has the arguments after a comma."""

    user: str
    host: str
    runas_user: str
    runas_group: str
    command: str

    @property
    def target(self) -> str:
        """Returns whom a list of users, or a command without a runas, is asked for."""
        return self.runas_user or (self.user if self.runas_group else "root")


def written_out(policy: Policy, kind: str, members: Members, negated: bool = False) -> Iterator[tuple[bool, str]]:
    """Yields the words of a list, in which each alias is written out, and whether each is negated."""
    for member in members:
        sign = negated != (member.bangs % 2 == 1)
        if member.word in policy.aliases[kind]:
            yield from written_out(policy, kind, policy.aliases[kind][member.word], sign)
        else:
            yield sign, member.word


def last_of(policy: Policy, kind: str, members: Members, subject: str, fits: dict[str, set[str]]) -> tuple[bool, str] | None:
    """Returns whether the last word that is for the subject allows, and that word, or `None` where no word is for it."""
    fitting = [(not negated, word) for negated, word in written_out(policy, kind, members) if subject in fits[word]]
    return fitting[-1] if fitting else None


def allows(policy: Policy, kind: str, members: Members, subject: str) -> bool | None:
    """Returns whether a list allows, or `None` where no word is for the subject."""
    found = last_of(policy, kind, members, subject, FITS[kind])
    return None if found is None else found[0]


def has_group(user: str, group: str) -> bool:
    """Returns whether the user has the group that is asked for, if any is."""
    return not group or group in GROUPS[user]


def allows_group(policy: Policy, members: Members, user: str, group: str) -> bool:
    """Returns whether a list of groups, or else the user's own groups, allow the group that is asked for, if any is."""
    found = last_of(policy, "Runas", members, group, FITS_GROUP) if group else None
    return has_group(user, group) if found is None else found[0]


def allows_target(policy: Policy, runas: Runas | None, asked: Request) -> bool:
    """Returns whether the request may run as it asks to: sudoers(5), "Runas_Spec"; docs/PROFILE.md, "Groups to run with"."""
    target, group = asked.target, asked.runas_group
    if runas is None:
        return target == "root" and has_group(target, group)
    if runas.users is None:
        is_own = asked.runas_user in ("", asked.user)
        return is_own and allows_group(policy, runas.groups or [], asked.user, group)
    listed = allows(policy, "Runas", runas.users, target)
    if runas.groups is None:
        return listed is True and has_group(target, group)
    if listed is None:
        listed = bool(group) and target == asked.user
    return listed and allows_group(policy, runas.groups, target, group)


def tags_shown(tags: dict[str, bool]) -> str:
    """Returns the tags that hold, as a report has them."""
    return " ".join(("" if tags[pair] else "NO") + pair for pair in PAIRS if pair in tags)


def section_says(policy: Policy, section: Section, asked: Request, line: int) -> str | None:
    """Returns the last verdict of a section's commands, as a report has it, or `None` where none of them applies."""
    said, runas = None, None
    tags: dict[str, bool] = {}
    for command in section.commands:
        runas = runas if command.runas is None else command.runas
        tags |= {tag.removeprefix("NO"): not tag.startswith("NO") for tag in command.tags}
        found = last_of(policy, "Cmnd", [command.member], asked.command, FITS["Cmnd"])
        if found is not None and allows_target(policy, runas, asked):
            is_allowed, word = found
            given = {"SETENV": True, **tags} if word == "ALL" else tags
            said = f"allow,p:{line},{tags_shown(given)}" if is_allowed else f"deny,p:{line},"
    return said


def unknown(asked: Request) -> str | None:
    """Returns the verdict on a request that names somebody or something unknown, or `None` where all is known."""
    if asked.user not in GROUPS:
        return "unknown-user,,"
    if asked.host not in KNOWN_HOSTS:
        return "unknown-host,,"
    if asked.runas_user and asked.runas_user not in GROUPS:
        return "unknown-target,,"
    if asked.runas_group and asked.runas_group not in KNOWN_GROUPS:
        return "unknown-group,,"
    return None


def verdict(policy: Policy, asked: Request) -> str:
    """Returns the verdict on a request, as a report has it."""
    said = unknown(asked)
    if said is not None:
        return said
    said = "nomatch,,"
    for number, line in enumerate(policy.lines, 1):
        if isinstance(line, Rule) and allows(policy, "User", line.users, asked.user):
            for section in line.sections:
                if allows(policy, "Host", section.hosts, asked.host):
                    said = section_says(policy, section, asked, number) or said
    return said


class Draw:
    """A policy and requests drawn at random, by a seed."""

    def __init__(self, seed: int) -> None:
        self.random = random.Random(seed)
        # Aliases of several kinds have the same names. Each list may name those that were drawn before it, so that there is no
        # cycle.
        self.aliases: dict[str, dict[str, Members]] = {kind: {} for kind in FITS}
        for kind, of in self.aliases.items():
            for number in range(self.random.randint(0, 3)):
                of[f"A{number}"] = self.members(kind)
        self.policy = Policy(self.aliases, self.lines())

    def words(self, kind: str) -> list[str]:
        """Returns the words that lists are drawn from, apart from aliases."""
        return [*FITS[kind]]

    def members(self, kind: str, most: int = 3) -> Members:
        """Draws a list."""
        words = [*self.words(kind), "ALL", *self.aliases[kind], *self.aliases[kind]]
        count = self.random.randint(1, most)
        return [Member(self.random.choices((0, 1, 2), (14, 5, 1))[0], self.random.choice(words)) for _ in range(count)]

    def runas(self) -> Runas:
        """Draws whom to run as, in one of the four forms."""
        return Runas(*(self.random.choice((None, self.members("Runas"))) for _ in range(2)))

    def command(self) -> Command:
        """Draws a command."""
        tags = [self.random.choice(("", "NO")) + self.random.choice(PAIRS) for _ in range(self.random.choice((0, 0, 1, 2)))]
        return Command(self.runas() if self.random.random() < 0.5 else None, tags, self.members("Cmnd", 1)[0])

    def section(self) -> Section:
        """Draws a section of up to four commands."""
        return Section(self.members("Host"), [self.command() for _ in range(self.random.randint(1, 4))])

    def lines(self) -> list[Rule | str]:
        """Draws the lines of the aliases, up to six rules, and lines that grant nothing, in any order."""
        aliases = [f"{kind}_Alias {name} = {joined(it)}" for kind, of in self.aliases.items() for name, it in of.items()]
        rules = [
            Rule(self.members("User"), [self.section() for _ in range(self.random.choice((1, 1, 2)))])
            for _ in range(self.random.randint(1, 6))
        ]
        lines: list[Rule | str] = [*aliases, *rules, "Defaults env_reset", "Defaults:ALL !authenticate", "# ALL ALL = ALL", ""]
        self.random.shuffle(lines)
        return lines

    def request(self) -> Request:
        """Draws a request. One of six or so has an unknown name."""
        return Request(
            self.random.choice([*6 * [*GROUPS], "carol"]),
            self.random.choice([*10 * ["web1", "web2"], "db"]),
            self.random.choice([*12 * [""], *3 * [*GROUPS], "eve"]),
            self.random.choice([*18 * [""], *2 * sorted(KNOWN_GROUPS), "wheel"]),
            self.random.choice(sorted(COMMANDS)),
        )


_TAG = re.compile(r"([A-Z_]+):\s*")
_RUNAS = re.compile(r"\(([^:)]*)(:[^)]*)?\)\s*")
_COMMAS = re.compile(r",\s*(?![^(]*\))")
_SECTIONS = re.compile(r"\s+:\s+(?![^(]*\))")


def read_member(text: str) -> Member:
    """Returns the member that a text spells."""
    word = text.strip()
    return Member(len(word) - len(word.lstrip("!")), word.lstrip("!"))


def read_members(text: str) -> Members:
    """Returns the list that a text spells."""
    return [read_member(word) for word in text.split(",")]


def read_command(text: str) -> Command:
    """Returns the command that a text spells, with its runas and its tags."""
    runas, tags = None, []
    if match := _RUNAS.match(text):
        users, groups = match[1], match[2]
        runas = Runas(read_members(users) if users else None, read_members(groups[1:]) if groups else None)
        text = text[match.end() :]
    while match := _TAG.match(text):
        tags.append(match[1])
        text = text[match.end() :]
    return Command(runas, tags, read_member(text))


def read_section(text: str) -> Section:
    """Returns the section that a text spells."""
    hosts, _, commands = text.partition(" = ")
    return Section(read_members(hosts), [read_command(command) for command in _COMMAS.split(commands)])


def read_policy(text: str) -> Policy:
    """Returns the policy that lines spell: rules, definitions of aliases, and comments."""
    aliases: dict[str, dict[str, Members]] = {kind: {} for kind in FITS}
    lines: list[Rule | str] = []
    for line in text.splitlines():
        first, _, rest = line.partition(" ")
        if first.endswith("_Alias"):
            for definition in _SECTIONS.split(rest):
                name, _, members = definition.partition(" = ")
                aliases[first.removesuffix("_Alias")][name] = read_members(members)
        if first.endswith("_Alias") or line.startswith("# "):
            lines.append(line)
        else:
            users, sections = rule_parts(line)
            lines.append(Rule(read_members(users), [read_section(section) for section in _SECTIONS.split(sections)]))
    return Policy(aliases, lines)


def rule_parts(line: str) -> tuple[str, str]:
    """Returns the users of a rule and its sections, between which a blank stands that follows no comma."""
    users, _, sections = re.sub(r"(?<!,) ", "\n", line, count=1).partition("\n")
    return users, sections
