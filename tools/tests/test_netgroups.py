"""Tests of netgroups and non-Unix groups on policies drawn at random, each beside the same with the members written by hand."""

import random
import re
import subprocess
import unittest
from collections.abc import Callable, Sequence
from typing import NamedTuple

from support import REQUESTS_HEADER, REVIEW, Case, needs_review

from kulavemia.rows import row

POLICIES = 200
REQUESTS = 60
USERS = {"root": 0, "alice": 1000, "bob": 1001, "carol": 1002, "two words": 1003, "Dan": 1004, "+ng1": 1005}
HOSTS = ("web1", "web2.example.org", "db1", "DB2", "mail.example.org")
COMMANDS = ("/opt/a", "/opt/b", "/opt/c")
# What fields of triples have: any, none, who is known, and names that look like something else.
TRIPLE_USERS = ("", "-", "-", *USERS, "zoe", "ALL", "%adm", "ADMINS", "!bob", "bob,carol", "(x)", 'q"q', "b\\s", "x=y")
TRIPLE_HOSTS = ("", "-", "-", *HOSTS, "WEB1", "web2", "mail", "none.such", "ALL", "ADMINS", "Web2.Example.Org")
NON_UNIX = "%:"
NETGROUPS = ("ng1", "ng2", "ng3", "NG4", "n-g.5", "two words", "%:ng1", "%:NG4", "%:two words", "none")
UNKNOWN = ("gone", "ng", "NG1", "ng11", "%:ng2")
NOBODY = {"user": "\\x00", "runas": "\\x00", "host": "no-such-host"}
# What is put into lines with a netgroup of one user and one host of the same name, which is longer than that of the netgroup.
PIECES = (
    *('"+ng1"', "+ng1", "alice", "ALL", "%adm", "ADMINS", "x", "/opt/a", "/16", "NOPASSWD:", "list", "!lecture"),
    *("Defaults", "User_Alias ", "#c", " ", "\t", "\r", "\\\n", " \\\n ", ",", "!", "=", "(", ")", ":", " : "),
    *('"', "\\", "#", ".", "-", "_", "*", "+", "%", "@", ">"),
)
ONLY = "webserver1"
LINES = 2000
ALIASES = {"user": "ADMINS", "runas": "RUNNERS", "host": "SERVERS"}


class Member(NamedTuple):
    """A member of a list: its sign, whether it is a netgroup or a non-Unix group, and its name or, if it is none, its text."""

    sign: str
    is_netgroup: bool
    word: str


class Listed(NamedTuple):
    """A list of a policy: of which kind it is, its members, and what stands between them."""

    kind: str
    members: Sequence[Member]
    joins: Sequence[str]


Part = str | Listed
Triple = tuple[str, str, str, str]


def written(kind: str, name: str) -> str:
    """Returns a user or a host as it is written by hand."""
    if kind == "host":
        return name.lower()
    return f'"{name}"' if re.search("[A-Z]", name) else re.sub(r"([^a-z0-9])", r"\\\1", name)


def by_hand(kind: str, member: Member, triples: Sequence[Triple]) -> list[str]:
    """Returns the members that a netgroup has in a list of a kind, by netgroup(5): an empty field is any, and `-` is none."""
    at = 1 if kind == "host" else 2
    fields = [triple[at] for triple in triples if triple[0] == member.word]
    found = ["ALL" if not field else written(kind, field) for field in fields if field != "-"]
    return [member.sign + text for text in found or [NOBODY[kind]]]


class Drawn:
    """A policy with netgroups, drawn at random."""

    def __init__(self, seed: str) -> None:
        self.random = random.Random(seed)
        self.triples: list[Triple] = [("none", "-", "-", "")]
        for _ in range(self.random.randrange(20)):
            self.triples.append(self.triple())
        self.has_unknown = self.random.random() < 0.15
        self.aliases: list[str] = []
        self.lines: list[list[Part]] = []
        for kind in ("user", "runas", "host"):
            if self.random.random() < 0.5:
                self.lines.append([f"{kind.capitalize()}_Alias {ALIASES[kind]} = ", self.listed(kind)])
                self.aliases.append(kind)
        for _ in range(self.random.randint(1, 5)):
            self.lines.append(self.bound() if self.random.random() < 0.2 else self.rule())

    def triple(self) -> Triple:
        """Returns a triple of a netgroup."""
        draw = self.random.choice
        return draw(NETGROUPS[:-1]), draw(TRIPLE_HOSTS), draw(TRIPLE_USERS), draw(("", "", "example.org", "-"))

    def member(self, kind: str) -> Member:
        """Returns a member of a list of a kind."""
        sign = self.random.choice(("", "", "", "", "", "!", "!!!"))
        if self.random.random() < 0.5:
            names = sorted({triple[0] for triple in self.triples})
            if self.has_unknown and self.random.random() < 0.2:
                names = list(UNKNOWN)
            if kind == "host":
                names = [name for name in names if not name.startswith(NON_UNIX)]
            return Member(sign, True, self.random.choice(names))
        words = ["ALL", *(written(kind, name) for name in (HOSTS if kind == "host" else USERS))]
        return Member(sign, False, self.random.choice(words + ([ALIASES[kind]] if kind in self.aliases else [])))

    def listed(self, kind: str) -> Listed:
        """Returns a list of a kind."""
        members = [self.member(kind) for _ in range(self.random.randint(1, 3))]
        return Listed(kind, members, [self.random.choice((",", ", ", " , ", ",\\\n  ", ", \\\n\t")) for _ in members])

    def bound(self) -> list[Part]:
        """Returns a Defaults line that is bound to a list."""
        mark, kind = self.random.choice(((":", "user"), ("@", "host"), (">", "runas")))
        return [f"Defaults{mark}", self.listed(kind), " !lecture"]

    def rule(self) -> list[Part]:
        """Returns a rule."""
        parts: list[Part] = [self.listed("user"), " "]
        for number in range(self.random.choice((1, 1, 2))):
            parts += [" : "] if number else []
            parts += [self.listed("host"), self.random.choice((" = ", "=", " \\\n = "))]
            for at, command in enumerate(self.random.sample(COMMANDS, self.random.randint(1, 2))):
                parts += [", "] if at else []
                arguments = self.random.choice(("", "", "", " +ng1", " +gone"))
                parts += [*self.runas(), self.random.choice(("", "NOPASSWD: ", "!")) + command + arguments]
        return parts

    def runas(self) -> list[Part]:
        """Returns a runas, or nothing."""
        if self.random.random() < 0.6:
            return []
        return ["(", self.listed("runas"), self.random.choice(("", " : adm", " : ALL")), ") "]

    def text(self, shown: Callable[[str, Member], list[str]]) -> str:
        """Returns the policy, with its members as they are shown."""
        return "".join("".join(self.part(part, shown) for part in line) + "\n" for line in self.lines)

    @staticmethod
    def part(part: Part, shown: Callable[[str, Member], list[str]]) -> str:
        """Returns the text of a part of a line."""
        if isinstance(part, str):
            return part
        texts = [", ".join(shown(part.kind, member)) for member in part.members]
        return "".join(text + join for text, join in zip(texts, [*part.joins[1:], ""]))

    def with_netgroups(self) -> str:
        """Returns the policy as it is given to the program."""

        def shown(kind: str, member: Member) -> list[str]:
            if not member.is_netgroup:
                return [member.sign + member.word]
            is_quoted = " " in member.word or self.random.random() < 0.3
            word = member.word if member.word.startswith(NON_UNIX) else f"+{member.word}"
            return [f'{member.sign}"{word}"' if is_quoted else member.sign + word]

        return self.text(shown)

    def with_members(self) -> str:
        """Returns the policy with the members of netgroups written by hand."""

        def shown(kind: str, member: Member) -> list[str]:
            return by_hand(kind, member, self.triples) if member.is_netgroup else [member.sign + member.word]

        return self.text(shown)

    def first_unknown(self) -> tuple[int, set[str]]:
        """Returns the line of the first entry that has an unknown netgroup, 0 if none has, and what it may be refused for."""
        known, at = {triple[0] for triple in self.triples}, 1
        for line in self.lines:
            members = [member for part in line if isinstance(part, Listed) for member in part.members]
            groups = [member.word for member in members if member.is_netgroup]
            if any(name not in known for name in groups):
                return at, {"non-Unix group" if name.startswith(NON_UNIX) else "netgroup" for name in groups}
            at += sum(self.part(part, lambda kind, member: ["x"]).count("\n") for part in line) + 1
        return 0, set()


def torn_line(draw: random.Random, mark: str) -> str:
    """Returns a line with groups of a mark, but no non-Unix group among hosts, into which up to two pieces are put anywhere."""
    spelled = (f'"{mark}ng1"', f"{mark}ng1", f'!"{mark}ng1"', f"!{mark}ng1")
    of_hosts = spelled if mark != NON_UNIX else ()
    pieces = [piece for piece in PIECES if mark != NON_UNIX or piece != '"+ng1"']

    def drawn(groups: Sequence[str] = spelled) -> str:
        members = (*groups, "alice", "ALL", ONLY)
        return draw.choice((",", ", ", " ,")).join(draw.choice(members) for _ in range(draw.randint(1, 2)))

    parts = draw.choice((
        [drawn(), " ", drawn(of_hosts), " = ", "(", drawn(), ") ", "/opt/a"],
        [drawn(), " ", drawn(of_hosts), " = ", "/opt/a"],
        ["Defaults", draw.choice(":>"), drawn(), " ", "!lecture"],
        ["Defaults@", drawn(of_hosts), " ", "!lecture"],
        [draw.choice(("User", "Runas")), "_Alias ", "ADMINS", " = ", drawn()],
        ["Host_Alias ", "ADMINS", " = ", drawn(of_hosts)],
    ))
    for _ in range(draw.randint(0, 2)):
        parts.insert(draw.randrange(len(parts) + 1), draw.choice(pieces).replace("+ng1", f"{mark}ng1"))
    return "".join(parts) + "\n"


@needs_review
class Netgroups(Case):
    """Answers to a policy with netgroups, and to the same with their members."""

    def setUp(self) -> None:
        super().setUp()
        rows = [(name, str(uid), gid, group) for name, uid in USERS.items() for gid, group in (("100", "own"), ("4", "adm"))]
        self.write("users", "".join(map(row, [("user", "uid", "gid", "group"), *rows])))
        self.write("hosts", "host,interfaces\n" + "".join(row((name, "")) for name in HOSTS))

    def ran(self, *words: str) -> tuple[int, str, str]:
        """Returns the status of a run of the program, and what it printed."""
        done = subprocess.run([REVIEW, *words], cwd=self.folder, capture_output=True, text=True, check=False)
        return done.returncode, done.stdout, done.stderr

    def answers(self, *more: str) -> list[tuple[int, str]]:
        """Returns what is printed of the policy `p` in each table."""
        words = ["p", "--users", "users", "--hosts", "hosts", *more]
        tables = (["grants", *words], ["report", *words, "s=requests"], ["roots", *words, "--all"])
        return [self.ran(*table)[:2] for table in tables]

    def write_requests(self, draw: random.Random) -> None:
        """Writes requests of known users on known hosts."""
        asks = [
            (str(number), draw.choice(list(USERS)), draw.choice(HOSTS), draw.choice(("", "", "", "", *USERS)),
             draw.choice(("", "", "", "adm")), draw.choice(COMMANDS), draw.choice(("", "", "+ng1")))
            for number in range(1, REQUESTS + 1)
        ]
        self.write("requests", REQUESTS_HEADER + "".join(map(row, asks)) + f"close,{REQUESTS},,,,,\n")

    def test_their_members_have_the_same_answers(self) -> None:
        read = refused = allowed = 0
        for number in range(POLICIES):
            drawn = Drawn(f"netgroups.{number}")
            self.write_requests(random.Random(number))
            self.write("n", "".join(map(row, [("netgroup", "host", "user", "domain"), *drawn.triples])))
            text, (unknown, forms) = drawn.with_netgroups(), drawn.first_unknown()
            self.write("p", text)
            with self.subTest(text=text, triples=drawn.triples):
                if unknown:
                    refused += 1
                    said = [(1, "", f"sudo_review: p:{unknown}: unsupported {form}\n") for form in forms]
                    self.assertIn(self.ran("check", "p", "--netgroups", "n"), said)
                    continue
                found = self.answers("--netgroups", "n")
                self.write("p", drawn.with_members())
                self.assertEqual(found, self.answers())
                self.assertEqual([status for status, _ in found], [0, 0, 0])
                read += 1
                allowed += found[1][1].count(",allow,")
        self.assertGreater(read, POLICIES // 2)
        self.assertGreater(refused, POLICIES // 50)
        self.assertGreater(allowed, POLICIES // 2)

    def test_a_line_is_read_as_that_with_a_name_in_its_place(self) -> None:
        self.write("n", f"netgroup,host,user,domain\nng1,{ONLY},{ONLY},\n%:ng1,{ONLY},{ONLY},\n")
        self.write("users", f"user,uid,gid,group\nroot,0,0,root\nalice,1000,4,adm\n{ONLY},1001,100,own\n")
        self.write("hosts", f"host,interfaces\n{ONLY},\ndb1,\n")
        for mark, least in (("+", LINES // 10), (NON_UNIX, LINES // 20)):
            with self.subTest(mark):
                self.assertGreater(self.lines_read(mark), least)

    def lines_read(self, mark: str) -> int:
        """Returns how many lines with groups of a mark are read, each as that with a name in their place."""
        words, read = ("p", "--users", "users", "--hosts", "hosts"), 0
        name = f"{mark}ng1"
        for number in range(LINES):
            text = torn_line(random.Random(f"line.{number}"), mark)
            begins = rf'[^ \t,!=(:"@>\n]){re.escape(name)}'
            if not re.search(f"(?<!{begins}", text) or re.search(f"({begins}", text):
                continue
            self.write("p", text)
            status, found, _ = self.ran("grants", *words, "--netgroups", "n")
            if status == 0:
                read += 1
                self.write("p", text.replace(name, ONLY))
                with self.subTest(text=text):
                    self.assertEqual((0, found.replace(name, ONLY)), self.ran("grants", *words)[:2])
        return read


if __name__ == "__main__":
    unittest.main()
