#!/usr/bin/env python3
"""Writes a large made-up case into a folder: a policy, users, hosts, and requests of several senders.

usage: case.py FOLDER [--rules N] [--aliases N] [--users N] [--hosts N] [--requests N] [--senders N] [--seed N]
               [--full N] [--chained N] [--grouped 0]

FOLDER gets sudoers, users.csv, hosts.csv, and requests-0.csv and so on, one for each sender. Behind the other rules stand as
many as --full says that let a user run any command as anybody, and as many as --chained says that let a user run any command
as the next one, in chains of five steps to root. With --grouped 0 no rule has a list of groups in its parentheses. The same
numbers always give the same bytes.
"""

import argparse
import os
import random
from collections.abc import Callable, Iterable, Iterator
from typing import NamedTuple


class Sizes(NamedTuple):
    """How large a case is, and the seed that draws it."""

    rules: int = 2000
    aliases: int = 400
    users: int = 5000
    hosts: int = 1000
    requests: int = 200_000
    senders: int = 4
    seed: int = 1
    full: int = 0
    chained: int = 0
    grouped: int = 1


def options() -> tuple[str, Sizes]:
    """Returns the folder and the sizes of the command line."""
    parser = argparse.ArgumentParser()
    parser.add_argument("folder")
    for name, value in Sizes()._asdict().items():
        parser.add_argument("--" + name, type=int, default=value)
    given = vars(parser.parse_args())
    return given.pop("folder"), Sizes(**given)


class Case:
    """The names from which the rows and rules are drawn."""

    def __init__(self, given: Sizes) -> None:
        self.given = given
        self.random = random.Random(given.seed)
        self.groups = [("group%d" % i, 2000 + i) for i in range(200)]
        self.commands = ["/usr/bin/command%d" % i for i in range(800)]

    def pick(self, *choices: str) -> str:
        """Draws one of some texts."""
        return self.random.choice(choices)

    def below(self, limit: int) -> int:
        """Draws a number below a limit."""
        return self.random.randrange(limit)

    def user(self) -> str:
        """Draws a user."""
        return "user%d" % self.below(self.given.users)

    def host(self) -> str:
        """Draws a host."""
        return "host%d.example.org" % self.below(self.given.hosts)

    def command(self) -> str:
        """Draws a command."""
        return self.random.choice(self.commands)

    def user_member(self) -> str:
        """Draws a member of a list of users."""
        return self.pick(
            self.user(), "%" + self.random.choice(self.groups)[0], "#%d" % (10000 + self.below(self.given.users))
        )

    def host_member(self) -> str:
        """Draws a member of a list of hosts."""
        return self.pick(
            "host%d" % self.below(self.given.hosts),
            "host%d*" % self.below(100),
            "10.%d.0.0/16" % self.below(256),
            self.host(),
        )

    def command_member(self) -> str:
        """Draws a member of a list of commands."""
        return self.pick(
            self.command(),
            self.command() + " -*",
            "/usr/bin/command%d*" % self.below(100),
            "!" + self.command(),
            "/opt/app%d/" % self.below(50),
        )

    def alias_lines(self, keyword: str, member: Callable[[], str]) -> Iterator[str]:
        """Yields the definitions of aliases of a kind."""
        for i in range(self.given.aliases):
            members = [member() for _ in range(self.random.randint(3, 20))]
            if i and self.random.random() < 0.3:
                members.append("%s%s_%d" % (self.pick("", "!"), keyword.upper(), self.below(i)))
            yield "%s_Alias %s_%d = %s" % (keyword, keyword.upper(), i, ", ".join(members))

    def alias_or(self, keyword: str, member: Callable[[], str]) -> str:
        """Draws an alias of a kind, or a member."""
        if self.random.random() < 0.5:
            return "%s_%d" % (keyword, self.below(self.given.aliases))
        return member()

    def rule(self) -> str:
        """Draws a rule."""
        users = self.alias_or("USER", self.user_member)
        hosts = self.pick("ALL", self.alias_or("HOST", self.host_member))
        runas = self.pick("", "(root) ", "(ALL) ", self.anybody())
        tag = self.pick("", "NOPASSWD: ", "NOEXEC: ")
        commands = [self.alias_or("CMND", self.command_member) for _ in range(2)]
        return "%s %s = %s%s%s" % (users, hosts, runas, tag, ", ".join(commands))

    def anybody(self) -> str:
        """Returns the parentheses for every user and, if rules may have lists of groups, every group."""
        return "(ALL:ALL) " if self.given.grouped else "(ALL) "

    def full_rule(self) -> str:
        """Draws a rule that lets a user run any command as anybody."""
        hosts = self.pick("ALL", self.alias_or("HOST", self.host_member))
        runas = self.pick("(ALL) ", self.anybody())
        return "%s %s = %s%sALL" % (self.user(), hosts, runas, self.pick("", "NOPASSWD: "))

    def chained_rule(self, i: int) -> str:
        """Returns the rule that lets a user run any command as the next one, or, at the end of a chain, as root."""
        return "user%d ALL = (%s) ALL" % (i, "root" if i % 5 == 4 else "user%d" % (i + 1))

    def policy(self) -> Iterator[str]:
        """Yields the lines of the policy."""
        yield from self.alias_lines("User", self.user_member)
        yield from self.alias_lines("Host", self.host_member)
        yield from self.alias_lines("Cmnd", self.command_member)
        for _ in range(self.given.rules):
            yield self.rule()
        for _ in range(self.given.full):
            yield self.full_rule()
        for i in range(self.given.chained):
            yield self.chained_rule(i)

    def user_rows(self) -> Iterator[str]:
        """Yields the rows of the users."""
        yield "user,uid,groups"
        yield "root,0,root:0"
        for i in range(self.given.users):
            groups = self.random.sample(self.groups, self.random.randint(1, 6))
            yield "user%d,%d,%s" % (i, 10000 + i, " ".join("%s:%d" % group for group in groups))

    def host_rows(self) -> Iterator[str]:
        """Yields the rows of the hosts."""
        yield "host,interfaces"
        for i in range(self.given.hosts):
            yield "host%d.example.org,10.%d.%d.%d/24" % (i, self.below(256), self.below(256), 1 + self.below(254))

    def request_rows(self, count: int) -> Iterator[str]:
        """Yields the rows of so many requests."""
        yield "number,user,host,runas_user,runas_group,command,arguments"
        for number in range(1, count + 1):
            command = self.command() if self.random.random() < 0.9 else "/opt/app%d/run" % self.below(60)
            yield "%d,%s,%s,%s,,%s,%s" % (
                number, self.user(), self.host(), self.pick("", "", "root"), command, self.pick("", "-v", "-x y")
            )
        yield "close,%d,,,,," % count


def write(folder: str, name: str, lines: Iterable[str]) -> None:
    """Writes the lines of a file of a folder."""
    with open(os.path.join(folder, name), "w") as file:
        for line in lines:
            file.write(line + "\n")


def main() -> None:
    """Writes the case."""
    folder, given = options()
    os.makedirs(folder, exist_ok=True)
    case = Case(given)
    write(folder, "sudoers", case.policy())
    write(folder, "users.csv", case.user_rows())
    write(folder, "hosts.csv", case.host_rows())
    for sender in range(given.senders):
        write(folder, "requests-%d.csv" % sender, case.request_rows(given.requests // given.senders))


if __name__ == "__main__":
    main()
