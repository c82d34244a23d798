"""Tests of IPv6 addresses on policies drawn at random, each beside the same with the hosts written by hand."""

import random
import subprocess
import unittest
from collections.abc import Callable, Sequence
from ipaddress import IPv6Address, IPv6Interface, IPv6Network
from typing import NamedTuple

from support import REQUESTS_HEADER, REVIEW, Case, needs_review

from kulavemia.rows import row

POLICIES = 150
REQUESTS = 60
USERS = ("root", "alice", "bob")
HOSTS = ("web1", "web2.example.org", "db1", "db2", "mail.example.org")
COMMANDS = ("/opt/a", "/opt/b", "/opt/c")
# Few groups, so that addresses are equal, and in one network, as often as not.
GROUPS = (0, 0, 0, 1, 2, 0xDB8, 0x2001, 0x8000, 0xFFFF)
LENGTHS = (0, 1, 10, 15, 16, 17, 32, 48, 63, 64, 65, 112, 127, 128, 128)
NOBODY = "no-such-host"
SKIPPED = (IPv6Address("::"), IPv6Address("::1"))


def address(draw: random.Random) -> IPv6Address:
    """Returns an address of few groups."""
    groups = [draw.choice(GROUPS) for _ in range(8)]
    if draw.random() < 0.5:
        groups[1:7] = [0] * 6
    return IPv6Address(b"".join(group.to_bytes(2, "big") for group in groups))


def spelled(draw: random.Random, value: IPv6Address) -> str:
    """Returns one of the texts of an address that have at most seven colons and, behind `@`, begin with none."""
    groups = [int.from_bytes(value.packed[at:at + 2], "big") for at in range(0, 16, 2)]
    words = [draw.choice((f"{group:x}", f"{group:X}", f"{group:04x}")) for group in groups]
    gaps = [(at, end) for at in range(1, 8) for end in range(at + 1, 9) if not any(groups[at:end]) and (end < 8 or at < 7)]
    if not gaps or draw.random() < 0.3:
        return ":".join(words)
    at, end = draw.choice(gaps)
    return ":".join(words[:at]) + "::" + ":".join(words[end:])


class Member(NamedTuple):
    """A member of a list of hosts: its sign, and a name, an address, or a network."""

    sign: str
    word: str | IPv6Address | tuple[IPv6Address, int]


def has(word: IPv6Address | tuple[IPv6Address, int], own: IPv6Interface) -> bool:
    """Whether an address of a host matches one of a list, as sudo's `addr_matches` says."""
    if own.ip in SKIPPED:
        return False
    if isinstance(word, IPv6Address):
        return word in (own.ip, own.network.network_address)
    return word[1] > 0 and own.ip in IPv6Network(word, strict=False)


class Drawn:
    """A policy with addresses in its lists of hosts, drawn at random."""

    def __init__(self, seed: str) -> None:
        self.random = random.Random(seed)
        draw = self.random.choice
        count = self.random.randrange(8)
        self.known = [(draw(HOSTS), IPv6Interface((address(self.random), draw(LENGTHS)))) for _ in range(count)]
        self.has_alias = self.random.random() < 0.5
        self.lines: list[list[str | list[Member]]] = []
        if self.has_alias:
            self.lines.append(["Host_Alias SERVERS = ", self.members(False)])
        for _ in range(self.random.randint(1, 5)):
            if self.random.random() < 0.2:
                self.lines.append(["Defaults@", self.members(self.has_alias), " !lecture"])
            else:
                self.lines.append([f"{draw(USERS)} ", self.members(self.has_alias), " = ", draw(COMMANDS)])

    def member(self, with_alias: bool) -> Member:
        """Returns a member of a list of hosts."""
        sign = self.random.choice(("", "", "", "!", "!!!"))
        if self.random.random() < 0.3:
            return Member(sign, self.random.choice(["ALL", *HOSTS] + (["SERVERS"] if with_alias else [])))
        value = address(self.random)
        if self.known and self.random.random() < 0.6:
            own = self.random.choice(self.known)[1]
            value = self.random.choice((own.ip, own.network.network_address))
        return Member(sign, value if self.random.random() < 0.5 else (value, self.random.choice(LENGTHS)))

    def members(self, with_alias: bool) -> list[Member]:
        """Returns the members of a list of hosts."""
        return [self.member(with_alias) for _ in range(self.random.randint(1, 3))]

    def text(self, shown: Callable[[Member], Sequence[str]]) -> str:
        """Returns the policy, with its members as they are shown."""

        def written(part: str | list[Member]) -> str:
            return part if isinstance(part, str) else ", ".join(text for member in part for text in shown(member))

        return "".join("".join(map(written, line)) + "\n" for line in self.lines)

    def with_addresses(self) -> str:
        """Returns the policy as it is given to the program."""

        def shown(member: Member) -> list[str]:
            if isinstance(member.word, str):
                return [member.sign + member.word]
            if isinstance(member.word, IPv6Address):
                return [member.sign + spelled(self.random, member.word)]
            return [f"{member.sign}{spelled(self.random, member.word[0])}/{member.word[1]}"]

        return self.text(shown)

    def with_hosts(self) -> str:
        """Returns the policy with the hosts of each address written by hand."""

        def shown(member: Member) -> list[str]:
            if isinstance(member.word, str):
                return [member.sign + member.word]
            word = member.word
            found = dict.fromkeys(name for name, own in self.known if has(word, own))
            return [member.sign + name for name in found or [NOBODY]]

        return self.text(shown)


@needs_review
class Addresses(Case):
    """Answers to a policy with IPv6 addresses, and to the same with the hosts that have them."""

    def setUp(self) -> None:
        super().setUp()
        people = [(name, str(1000 * at), f"g{at}:{at}") for at, name in enumerate(USERS)]
        self.write("users", "".join(map(row, [("user", "uid", "groups"), *people])))
        self.write("hosts", "host,interfaces\n" + "".join(row((name, "")) for name in HOSTS))

    def answers(self, *more: str) -> list[tuple[int, str]]:
        """Returns what is printed of the policy `p` in each table."""
        words = ["p", "--users", "users", "--hosts", "hosts", *more]
        found = []
        for table in (["grants", *words], ["report", *words, "s=requests"], ["roots", *words, "--all"]):
            done = subprocess.run([REVIEW, *table], cwd=self.folder, capture_output=True, text=True, check=False)
            found.append((done.returncode, done.stdout))
        return found

    def test_their_hosts_have_the_same_answers(self) -> None:
        allowed = 0
        for number in range(POLICIES):
            drawn = Drawn(f"addresses.{number}")
            draw = random.Random(number)
            asks = [
                (str(at), draw.choice(USERS), draw.choice(HOSTS), "", "", draw.choice(COMMANDS), "")
                for at in range(1, REQUESTS + 1)
            ]
            self.write("requests", REQUESTS_HEADER + "".join(map(row, asks)) + f"close,{REQUESTS},,,,,\n")
            known = [(name, str(own.ip) if own.network.prefixlen == 128 else str(own)) for name, own in drawn.known]
            self.write("a", "".join(map(row, [("host", "address"), *known])))
            text = drawn.with_addresses()
            self.write("p", text)
            with self.subTest(text=text, known=known):
                found = self.answers("--addresses", "a")
                self.write("p", drawn.with_hosts())
                self.assertEqual(found, self.answers())
                self.assertEqual([status for status, _ in found], [0, 0, 0])
                allowed += found[1][1].count(",allow,")
        self.assertGreater(allowed, POLICIES)


if __name__ == "__main__":
    unittest.main()
