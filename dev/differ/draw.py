"""Policies and requests at random. A seed always draws the same.

Each policy has a few of the kinds of oddity below, so that most are read by both, and most differences have one cause.
"""

import random
import re
from collections.abc import Callable, Sequence

from differ.ask import PAIRS, Case
from differ.world import COMMANDS, ENCODING, GONE, GROUP_NUMBERS, HOSTS_KNOWN, TOP, USERS_KNOWN, Request

ODDITIES = (
    "addresses all arguments blanks brackets bytes case defaults escapes groups hashes includes joins numbers paths"
    " quotes signs tags"
).split()
KEYWORDS = {"user": "User_Alias", "runas": "Runas_Alias", "host": "Host_Alias", "cmnd": "Cmnd_Alias"}
ARGUMENTS = (*"-l ab a\\b * x] w] x \\ \\x ^a A \xc3\xa9 /etc/motd =".split(), "", "", "-l -a", "a b")
CLASSES = ("alpha", "upper", "lower", "digit", "alnum", "punct", "space", "word", "ALPHA", "xdigit", "")
DEFAULTS = (
    "env_reset",
    "!lecture",
    'secure_path="/usr/sbin:/usr/bin"',
    "passwd_tries=3",
    'env_keep += "A B"',
    "env_keep -= HOME",
    "timestamp_timeout = -1",
    "badpass_message=x\\ y",
    "editor=/usr/bin/vi:/bin/ed",
    "runas_default=postgres",
    "!authenticate",
    "!root_sudo",
    "fast_glob",
    "!case_insensitive_user",
    "!case_insensitive_group",
    "umask=0022",
    "sudoers_locale=C.UTF-8",
    "logfile=/var/log/x,!syslog",
    "targetpw",
    "insults",
    "loglinelen=0",
    "mailerflags=-t\\,x",
)
# What is put into a text that is to be checked alone.
TOKENS = (
    *"! !! , : = ( ) \" \\ # % + - @ > ^ $ / * ? [ ] . ~ ; ' & < { } | ` 0 5 x A Z _ ALL NOPASSWD: NOEXEC :".split(),
    *"Defaults Defaults: Defaults@ Defaults! Defaults> User_Alias Host_Alias Cmnd_Alias Runas_Alias".split(),
    *"Cmd_Alias MAIL alice web1 /bin/ls".split(),
    *"PASSWD SETENV sudoedit list sha256 sha224: CWD=/x CWD TIMEOUT=5 NOTBEFORE CHROOT @include @includedir".split(),
    *"#include #includedir %adm %# %: +net #5 #-1 10.1.2.3 10.1.0.0/16 ::1 fe80::1/64 1.2.3 1.2.3.4/255.0.0.0".split(),
    *'^a$ \\x41 \\x4 "a" "" += -= +='.split(),
    *(" ", "  ", "\t", "\n", "\r\n", "\\\n", "\\ \n", "\x01", "\x80", "\xff", "\x0b", "\x7f", "\n\n", " #", "# x"),
)


class Draw:
    """A policy and its requests in the making."""

    def __init__(self, seed: str, most: int) -> None:
        self.random = random.Random(seed)
        self.odd = set(self.random.sample(ODDITIES, self.random.randint(1, most)))
        self.aliases: dict[str, list[str]] = {kind: [] for kind in KEYWORDS}
        self.used_commands: list[str] = []
        self.used_arguments: list[str] = []
        self.members: dict[str, Callable[[], str]] = {
            "user": self._user,
            "runas": self._user,
            "host": self._host,
            "cmnd": self._command,
        }

    def chance(self, part: float) -> bool:
        """Returns true in this part of all calls."""
        return self.random.random() < part

    def odds(self, name: str, part: float) -> bool:
        """Returns true in this part of all calls where the policy has an oddity, and never otherwise."""
        return name in self.odd and self.random.random() < part

    def pick(self, choices: Sequence[str]) -> str:
        """Returns one of the choices."""
        return self.random.choice(choices)

    def _spelled(self, name: str) -> str:
        """Returns a name of a user, a group or a host with escapes and quotes, or as plain as it may be."""
        if self.odds("case", 0.3):
            said = name.encode(ENCODING)
            name = self.random.choice(
                [said.lower(), said.title(), said.swapcase(), said[:1] + said[1:].upper()]
            ).decode(ENCODING)
        if self.odds("quotes", 0.4):
            return self._quoted(name)
        name = re.sub(r'([\\ !=:,()"#>])', r"\\\1", name) if self.chance(0.95) else name
        return self._escaped(name, 0.2)

    def _escaped(self, text: str, part: float) -> str:
        """Returns a text with backslashes put in, and some bytes written by their values."""
        if not self.odds("escapes", 0.6):
            return text
        return "".join(self._byte(one) if self.chance(part) and one != "\\" else one for one in text)

    def _byte(self, one: str) -> str:
        """Returns a byte with a backslash, or written by its value."""
        return self.pick([f"\\{one}", f"\\x{ord(one):02x}"])

    def _quoted(self, name: str) -> str:
        """Returns a name in double quotes."""
        if self.odds("escapes", 0.5):
            name = "".join(self._byte(one) if self.chance(0.2) else one for one in name)
        return f'"{name}"'

    def _user(self) -> str:
        user = self.random.choice(USERS_KNOWN)
        group = self.pick(list(GROUP_NUMBERS))
        if self.odds("numbers", 0.6):
            return self._number(user.number, GROUP_NUMBERS[group])
        if self.chance(0.3):
            return self._group(group)
        if self.odds("bytes", 0.2):
            return self._spelled(user.name) + self.pick(["\x80", "\xff", "\xc3\xa9", "~", "$", "'", "@", ".", "*", "^"])
        return self._spelled(user.name)

    def _number(self, user: int, group: int) -> str:
        """Returns an ID, some of them odd ones."""
        form = self.pick(
            ["#{0}", "#{0}", "%#{1}", "#0{0}", "\\#{0}", "\\x23{0}", '"#{0}"', '"%#{1}"', "%\\#{1}", "\\%#{1}"]
        )
        odd = ["#-1", "#4294967295", "#4294967296", "%#-1", "#5x", "#1001\\ ", "#\\1001"]
        return form.format(user, group) if self.chance(0.97) else self.pick(odd)

    def _group(self, group: str) -> str:
        said = self._spelled(group)
        if self.odds("escapes", 0.1):
            return "\\%" + said
        return f'"%{said[1:]}' if said.startswith('"') else f"%{said}"

    def _host(self) -> str:
        name = self.random.choice(HOSTS_KNOWN).name
        if self.odds("addresses", 0.7):
            return self._address()
        name = name if self.chance(0.4) else name.partition(".")[0]
        if self.odds("brackets", 0.5):
            at = self.random.randrange(len(name))
            name = name[:at] + self._bracket(name[at]) + self.pick([name[at + 1 :], "*"])
        elif self.chance(0.2):
            at = self.random.randrange(len(name))
            name = name[:at] + self.pick(["*", "?" + name[at + 1 :]])
        return self._spelled(name) if self.chance(0.8) else self._escaped(name, 0.2)

    def _address(self) -> str:
        first = self.pick(["10.1", "10.2", "010.1", "127.5", "192.168", "0.0", "10.001", "300.1", "10.99"])
        last = self.pick(["2.3", "0.0", "0.9", "7.1", "7.0", "9.9", "0.1", "2.03"])
        bits = "/16 /24 /30 /32 /0 /8 /016 /33 /255.255.0.0 /255.0.0.0 /255.0.255.0 /0.0.0.0".split()
        return self._escaped(f"{first}.{last}{self.pick(['', '', *bits])}", 0.05)

    def _bracket(self, inside: str) -> str:
        """Returns a bracket that may hold a byte."""
        items = [self._item(inside) for _ in range(self.random.randint(1, 3))]
        sign = self.pick(["", "", "", "!", "^", "\\!", "\\^"])
        return f"[{sign}{''.join(items)}{self.pick([']', ']', ']', ']', ']', ']', ''])}"

    def _item(self, inside: str) -> str:
        colon = self.pick(["\\:", "\\:", ":"])
        named = f"[{colon}{self.pick(CLASSES)}{colon}]"
        choices = [inside, inside, named, named, f"{inside}-z", f"a-{inside}", f"[={inside}=]", f"[.{inside}.]"]
        choices += "a-z z-a ] - ! ^ / \\] \\- A-Z [ 0-9".split()
        return self.pick([*choices, "\\[", "[:", "[\\:", "\\\\", "*", "?", "\\*", "\xc3-\xff", ".-\\=", "\\,"])

    def _path(self) -> str:
        path = self.pick([*COMMANDS, GONE])
        end = path[len(TOP) :]
        self.used_commands.append(path)
        if self.odds("paths", 0.15):
            return f"{TOP}/{self.pick(['b/', 'b/x/', 's/', '*/', 'b/*/', '?/', 'b/[x]/', 'gone/', ''])}"
        if self.odds("brackets", 0.5) or self.odds("paths", 0.3):
            at = self.random.randrange(1, len(end))
            put = self._bracket(end[at]) if self.odds("brackets", 0.6) else self.pick(["*", "?", "*" + end[at:], "**"])
            return TOP + self._path_escaped(end[:at]) + put + self._path_escaped(self.pick([end[at + 1 :], "", "*"]))
        return TOP + self._path_escaped(end)

    def _path_escaped(self, text: str) -> str:
        """Returns a part of a path with the escapes that it needs, and some that it does not."""
        said = re.sub(r"([\\,:= #])", r"\\\1", text)
        if self.odds("escapes", 0.1) or self.odds("paths", 0.1):
            said = self._with(said, ["\\", "\\*", "\\x", "\\\\", "\\,", "\\!", "=", "!", '"', "(", "@"])
        return said

    def _with(self, text: str, choices: Sequence[str]) -> str:
        """Returns a text into which one of the choices is put."""
        at = self.random.randrange(len(text) + 1)
        return text[:at] + self.pick(choices) + text[at:]

    def _command(self) -> str:
        kind = self.random.random()
        if kind < 0.1:
            odd = self.pick(["sudoedit!x", "/usr/bin/sudoedit", 'sudoedit"a"'])
            return "sudoedit" + self._arguments() if self.chance(0.9) else odd
        if kind < 0.25 or self.odds("all", 0.3):
            return "ALL"
        path = self._path()
        return path + self._arguments()

    def _arguments(self) -> str:
        """Returns arguments with a blank before them, often none."""
        if not self.odds("arguments", 0.7) and not self.odds("brackets", 0.4) and self.chance(0.85):
            return ""
        said = self.pick(["-l", "-l -a", "ab", "*", "x", "a b", '""', "-?", "?", "\\*", "A", "/etc/*", "/etc/motd"])
        if self.odds("arguments", 0.4):
            said = self.pick([*ARGUMENTS, '""', "^", "sub=x", "a=", "!", '"a"', "\\\\", "a\\\\b", "\\^a$"])
        if self.odds("brackets", 0.6):
            before, after = self.pick([said, said[:1], ""]), self.pick(["", "", "*", "]"])
            said = before + self._bracket(self.pick(["a", "x", "-", "]", "b"])) + after
        if self.odds("escapes", 0.5):
            said = self._with(said, ["\\ ", "\\\t", *"\\\\ \\* \\? \\[ \\] \\! \\^ \\: \\# \\= \\x41".split()])
        self.used_arguments += [
            said,
            re.sub(r"\\(.)", r"\1", said),
            re.sub(r"\[.*\]", "a", said),
            re.sub("[*?]", "a", said),
        ]
        return f" {said}"

    def member(self, kind: str) -> str:
        """Returns a member of a list."""
        signs = ["!", "!!", "!!!", "! "] if self.odds("signs", 0.5) else ["", "", "", "", "", "!"]
        known = self.aliases[kind]
        if known and self.chance(0.3):
            return self.pick(signs) + self.pick(known)
        return self.pick(signs) + ("ALL" if self.chance(0.2) else self.members[kind]())

    def members_of(self, kind: str, most: int) -> str:
        """Returns a list of members."""
        return self.pick([", ", ",", ", \\\n    "]).join(self.member(kind) for _ in range(self.random.randint(1, most)))

    def _runas(self) -> str:
        users = self.members_of("runas", 2) if self.chance(0.7) else ""
        names = [group.replace(" ", "\\ ").replace("\\d", "\\\\d") for group in GROUP_NUMBERS]
        group = self.pick([*names, "ALL", "!adm", "#4", "\\#37", '"adm"', "Adm", *self.aliases["runas"]])
        group = "%adm" if self.chance(0.01) else group
        if self.odds("groups", 0.7) or self.chance(0.1):
            return f"({users}:{group}) "
        return f"({users}{self.pick(['', '', '', ':']) if users == '' else ''}) "

    def _tags(self) -> str:
        count = self.random.choice((1, 1, 2)) if self.odds("tags", 0.6) else 0
        return "".join(
            f"{self.pick(['', 'NO'])}{self.pick(PAIRS)}{self.pick([':', ': ', ' : '])}" for _ in range(count)
        )

    def _rule(self) -> str:
        sections = []
        for _ in range(1 + self.chance(0.15)):
            specs = []
            for _ in range(self.random.randint(1, 3)):
                specs.append((self._runas() if self.chance(0.4) else "") + self._tags() + self.member("cmnd"))
            sections.append(f"{self.members_of('host', 2) if self.chance(0.6) else 'ALL'} = {', '.join(specs)}")
        said = f"{self.members_of('user', 2) if self.chance(0.7) else 'ALL'} {' : '.join(sections)}"
        return said + (self.pick([" # x", " #x\\", "#5", " #5"]) if self.odds("hashes", 0.3) else "")

    def _alias(self) -> str:
        kind = self.pick(list(KEYWORDS))
        names = "A B1 C_ ADM WEB LS X9_Y MAIL NOEXEC CWD TIMEOUT TYPES".split()[: None if self.chance(0.05) else 9]
        name = self.pick([name for name in names if name not in self.aliases[kind]])
        said = f"{KEYWORDS[kind]} {name} = {self.members_of(kind, 3)}"
        self.aliases[kind].append(name)
        return said

    def _default(self) -> str:
        name = self.pick(self.aliases["user"] or ["alice"])
        bound = self.pick(
            ["", "", "", ":alice", "@web1", ">root", "!/bin/ls", f":{name}", ": bob", ":%adm", "@10.0.0.0/8", ':"a b"']
        )
        parameters = [self.pick(DEFAULTS) for _ in range(self.random.randint(1, 2))]
        return f"Defaults{bound} {self.pick([', ', ',']).join(parameters)}"

    def _lines(self) -> list[str]:
        lines = [self._alias() for _ in range(self.random.choice((0, 0, 1, 2, 3)))]
        lines += [self._rule() for _ in range(self.random.randint(1, 4))]
        if self.odds("defaults", 0.8):
            lines.insert(self.random.randrange(len(lines) + 1), self._default())
        if self.odds("hashes", 0.5):
            lines.insert(
                self.random.randrange(len(lines) + 1),
                self.pick(["# x", "#", "#x \\", "# 5", "#-x", "#include", "#includedir x"]),
            )
        if self.odds("includes", 0.9):
            said = self._include()
            lines.insert(self.random.randrange(len(lines) + 1), said)
        return lines

    def _include(self) -> str:
        sign = self.pick(["@", "#"])
        path = self.pick(
            [
                "more",
                "more",
                "d/a",
                '"more"',
                "\\more",
                "m\\x6fre",
                '"m\\x6fre"',
                "./more",
                '"mo\\re"',
                "more\\ x",
                '"more x"',
            ]
        )
        said = (
            f"{sign}include {path}" if self.chance(0.7) else f"{sign}includedir {self.pick(['d', 'd/', './d', 'gone'])}"
        )
        return self.pick(["", "", "", " ", "\t"]) + said + self.pick(["", "", "", " ", " # x", "\t"])

    def files(self) -> tuple[tuple[str, str], ...]:
        """Draws the files that the policy may include."""
        names = ("more", "d/a", "d/b.c", "d/c~", "more x")
        return tuple((name, self._rule() + "\n") for name in names) if "includes" in self.odd else ()

    def text(self) -> str:
        """Draws a policy."""
        text = "\n".join(self._lines()) + "\n"
        if "joins" in self.odd:
            for _ in range(self.random.randint(1, 3)):
                blanks = [found.end() for found in re.finditer(r"[ ,]", text)]
                at = self.random.choice(blanks) if self.chance(0.6) else self.random.randrange(len(text))
                text = text[:at] + self.pick(["\\\n", "\\\n  ", "\\\n\t", "\\ \n", "\\\r\n"]) + text[at:]
        if "blanks" in self.odd:
            for _ in range(self.random.randint(1, 4)):
                at = self.random.choice([found.start() for found in re.finditer(r"[ ,:=()\n]", text)])
                put = self.pick(["\n", "\r"] if self.chance(0.1) else [" ", "\t", "  "])
                text = text[:at] + put + text[at:]
        if self.odds("bytes", 0.3):
            at = self.random.randrange(len(text))
            text = (
                text[:at] + self.pick(["\x80", "\xff", "\xc3\xa9", "\xef\xbb\xbf", "\x01", "\x7f", "\x0c"]) + text[at:]
            )
        return text if self.chance(0.97) else text.removesuffix("\n")

    def damaged(self, text: str) -> str:
        """Returns a text into which tokens are put, or of which bytes go."""
        for _ in range(self.random.choice((0, 1, 1, 2, 3))):
            at = self.random.randrange(len(text) + 1)
            gone = self.random.choice((0, 0, 0, 1, 1, 5))
            text = text[:at] + (self.pick(TOKENS) if self.chance(0.8) else "") + text[at + gone :]
        return text

    def request(self) -> Request:
        """Draws a request."""
        users = [user.name for user in USERS_KNOWN]
        target = self.pick(["root", *users]) if self.chance(0.3) else ""
        target = self.pick(["#1001", "#11"]) if self.odds("numbers", 0.02) else target
        group = self.pick(list(GROUP_NUMBERS)) if self.odds("groups", 0.5) or self.chance(0.05) else ""
        commands = self.used_commands if self.used_commands and self.chance(0.7) else [*COMMANDS, GONE, "sudoedit"]
        texts = self.used_arguments if self.used_arguments and self.chance(0.6) else ARGUMENTS
        host = self.random.choice(HOSTS_KNOWN).name if self.chance(0.6) else "web1.example.org"
        asked = self.pick(texts).replace("\n", "").strip(" ")
        return Request(self.pick(users), host, target, group, self.pick([*commands, "sudoedit"]), asked)


def drawn_policy(seed: str, requests: int) -> tuple[Case, list[Request]]:
    """Draws a policy with the files that it may include, and requests."""
    draw = Draw(seed, 3)
    text = draw.text()
    return Case(text, draw.files()), [draw.request() for _ in range(requests)]


def drawn_file(seed: str) -> Case:
    """Draws a text that is to be checked."""
    draw = Draw(seed, 4)
    draw.odd.discard("includes")
    return Case(draw.damaged(draw.text()))
