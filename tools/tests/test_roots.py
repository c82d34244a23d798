"""Tables of who can become root on policies drawn at random, beside those of a second body.

The body tries each step between all states: each known user, without an added group and with each known group. The variable
POLICIES says how many policies there are.
"""

import csv
import io
import itertools
import os
import random
import re
import unittest
from collections import Counter
from collections.abc import Iterator
from typing import NamedTuple

import listing
from drawn import Drawn
from listing import FITS, FITS_GROUP, GROUPS, KNOWN_GROUPS, written_out
from support import PROGRAM, REVIEW, needs_program, needs_review

POLICIES = int(os.environ.get("POLICIES", "100"))
REQUESTS = 25
USERS = [user for user in GROUPS if user != "root"]
HOSTS = sorted(listing.KNOWN_HOSTS)
HEADER = "user,host,target,level,password,place,tags,via,depends"
LEVELS = ("none", "listed", "all-but", "all")
PASSWORDS = ("none", "?", "own", "other")
# The group that each word of a list of users is for.
GROUP_OF = {"%adm": "adm", "%operator": "operator", "%#37": "operator"}


class State(NamedTuple):
    """A known user, with an added group or without one."""

    user: str
    added: str = ""

    @property
    def groups(self) -> set[str]:
        """Returns the groups that the user has there."""
        return GROUPS[self.user] | ({self.added} if self.added else set())

    def fits(self, kind: str, word: str) -> bool:
        """Returns whether a word of a list of users, or of users to run as, is for the user."""
        return self.user in FITS[kind][word] or GROUP_OF.get(word) in self.groups

    def last(self, policy: listing.Policy, kind: str, members: listing.Members) -> bool | None:
        """Returns whether the last word that is for the user allows, or `None` where no word is."""
        fitting = [not negated for negated, word in written_out(policy, kind, members) if self.fits(kind, word)]
        return fitting[-1] if fitting else None


STATES = [State(user, added) for added in ("", *sorted(KNOWN_GROUPS)) for user in GROUPS]


def place(state: State) -> tuple[bytes, bytes]:
    """Returns the place of a state among others: by the name of its user, and then by that of its added group, if any."""
    return os.fsencode(state.user), os.fsencode(state.added)


class Grant(NamedTuple):
    """A command of a rule, with its aliases written out."""

    runas: listing.Runas | None
    tags: str
    place: str
    is_free: bool
    negated: bool
    is_all: bool


class Given(NamedTuple):
    """What grants give: a level, how little is asked for, and the place and the tags of the last that allows.

    `ease` is 2 where no command needs a password, 1 where some may need none, and 0 where each needs one.
    """

    level: int = 0
    ease: int = 0
    place: str = ""
    tags: str = ""


class Row(NamedTuple):
    """A row of the table."""

    user: str
    host: str
    target: str
    level: str
    password: str
    place: str
    tags: str
    via: str
    depends: str


def given_by(grants: list[Grant]) -> Given:
    """Returns what grants give, from the first on."""
    level, place, tags = 0, "", ""
    # Which of the kinds of commands that are told apart ask for a password, or none: each listed one, and any other.
    listed: list[bool | None] = []
    other: bool | None = None
    for grant in grants:
        asks = None if grant.negated else not grant.is_free
        if grant.is_all:
            listed, other = [], asks
        else:
            listed.append(asks)
        if grant.negated:
            level = 0 if grant.is_all else min(level, 2)
        else:
            level = 3 if grant.is_all else max(level, 1)
            place, tags = grant.place, grant.tags
    kinds = [other, *listed]
    return Given(level, 2 if set(kinds) == {False} else int(False in kinds), place, tags)


def weight(password: str, policy: str) -> int:
    """Returns the place of a password among `PASSWORDS`; one's own is as another's where a runas has a list of groups, since it
    may be asked for with an added group."""
    place = PASSWORDS.index(password)
    return min(place, 2) if re.search(r"\([^)]*:", policy) else place


class Host:
    """A policy on a host."""

    def __init__(self, policy: listing.Policy, host: str) -> None:
        self.policy, self.host = policy, host
        self.grants = {state: list(self.grants_of(state)) for state in STATES}
        self.steps = {(one, other): self.step(one, other) for one in STATES for other in STATES}

    def grants_of(self, state: State) -> Iterator[Grant]:
        """Yields the grants whose lists allow a user on the host."""
        for number, rule in enumerate(self.policy.lines, 1):
            if isinstance(rule, listing.Rule) and state.last(self.policy, "User", rule.users):
                for section in rule.sections:
                    if listing.allows(self.policy, "Host", section.hosts, self.host):
                        yield from self.grants_in(section, f"p:{number}")

    def grants_in(self, section: listing.Section, place: str) -> Iterator[Grant]:
        """Yields the grants of a section."""
        runas = None
        tags: dict[str, bool] = {}
        for command in section.commands:
            runas = runas if command.runas is None else command.runas
            tags |= {tag.removeprefix("NO"): not tag.startswith("NO") for tag in command.tags}
            for negated, word in written_out(self.policy, "Cmnd", [command.member]):
                yield Grant(runas, listing.tags_shown(tags), place, tags.get("PASSWD") is False, negated, word == "ALL")

    def groups_allow(self, members: listing.Members, state: State, group: str) -> bool:
        """Returns whether a list of groups, or else the groups of a user, allow the group that is asked for, if any is."""
        found = [not negated for negated, word in written_out(self.policy, "Runas", members) if group in FITS_GROUP[word]]
        return not group or (found[-1] if found else group in state.groups)

    def allowed(self, runas: listing.Runas | None, state: State, asked: State | None, group: str) -> bool:
        """Returns whether a user may run as the user that is asked for, or, without one, as itself, with a group, if any."""
        target = asked or state
        is_own = target.user == state.user
        if runas is None:
            return target.user == "root" and self.groups_allow([], target, group)
        if runas.users is None:
            return is_own and self.groups_allow(runas.groups or [], state, group)
        listed = target.last(self.policy, "Runas", runas.users)
        if runas.groups is None:
            return listed is True and self.groups_allow([], target, group)
        return (is_own and bool(group) if listed is None else listed) and self.groups_allow(runas.groups, target, group)

    def step(self, one: State, other: State) -> Given:
        """Returns what a step gives: that of asking for the user by name, or that of asking for the group alone."""
        asked = [given_by([it for it in self.grants[one] if self.allowed(it.runas, one, State(other.user), other.added)])]
        if one.user == other.user and other.added:
            asked.append(given_by([it for it in self.grants[one] if self.allowed(it.runas, one, None, other.added)]))
        return max(asked, key=lambda given: given[:2])

    def asked(self, user: str, one: State, other: State) -> int:
        """Returns the place among `PASSWORDS` of that for which a step asks, in a chain that begins with a user."""
        ease = self.steps[one, other].ease
        return 2 - ease if ease else 2 + (one.user != user)

    def cost(self, user: str, one: State, other: State) -> int:
        """Returns how much a step asks for, in a chain that begins with a user: nothing, perhaps a password, one's own without an
        added group, or more."""
        ease = self.steps[one, other].ease
        return 2 - ease if ease else 2 + (one != State(user))

    def first(self, user: str, level: int, most: int) -> list[State]:
        """Returns the first of the shortest chains from a user to root, of a level or a better one, whose steps ask for no more;
        or none."""
        good = {pair for pair, it in self.steps.items() if it.level >= level and self.cost(user, *pair) <= most}
        left = dict.fromkeys((state for state in STATES if state.user == "root"), 0)
        last = set(left)
        while last:
            last = {one for one, other in good if other in last} - set(left)
            left |= dict.fromkeys(last, max(left.values()) + 1)
        chain = [State(user)]
        while left.get(chain[-1]):
            ahead = [other for one, other in good if one == chain[-1] and left.get(other) == left[one] - 1]
            chain.append(min(ahead, key=place))
        return chain[1:]

    def best(self) -> dict[str, tuple[str, int, list[State]]]:
        """Returns of each user that leads to root the best level, how much a chain of that level asks for at least, and the first
        of the shortest chains then."""
        best: dict[str, tuple[str, int, list[State]]] = {}
        for level, most, user in itertools.product((1, 2, 3), (3, 2, 1, 0), GROUPS):
            chain = self.first(user, level, most)
            if chain:
                best[user] = LEVELS[level], most, chain
        return best

    def shown(self, row: Row) -> tuple[str, str, str, str, list[State]]:
        """Returns the level, the password, the place, the tags and the states of the chain that a row shows."""
        states = [State(row.user)]
        for name in row.via.split(" > ") if row.via else []:
            user, _, added = name.partition("+")
            states.append(State(user or states[-1].user, added))
        if states[-1].user != "root":
            states.append(State("root"))
        steps = [self.steps[pair] for pair in zip(states, states[1:])]
        asked = [self.asked(row.user, *pair) for pair in zip(states, states[1:])]
        level, password = LEVELS[min(step.level for step in steps)], PASSWORDS[max(asked, default=0)]
        return level, password, steps[0].place, steps[0].tags, states[1:]


class Draw(listing.Draw):
    """A policy drawn at random whose rules are steps: most are for one user or group, as another user or with a group."""

    def one(self, *words: str) -> listing.Members:
        """Draws a list of one word; it may be negated behind `ALL`."""
        word = self.random.choice(words)
        return [listing.Member(0, "ALL"), listing.Member(1, word)] if self.random.random() < 0.1 else [listing.Member(0, word)]

    def runas(self) -> listing.Runas:
        """Draws whom to run as: a user, a group or both."""
        users = self.one("alice", "operator", "#11", "%#37", "root") if self.random.random() < 0.7 else None
        has_groups = users is None or self.random.random() < 0.2
        return listing.Runas(users, self.one("adm", "operator", "#37", "ALL") if has_groups else None)

    def commands(self) -> list[listing.Command]:
        """Draws the commands of a rule: most are `ALL`, some of them but for others."""
        tags = self.random.choice(("", "", "NOPASSWD", "NOPASSWD", "PASSWD")).split()
        every, other = listing.Member(0, "ALL"), self.members("Cmnd", 1)[0]
        members = self.random.choice(([every], [every], [every, other._replace(bangs=1)], [every, other], [other]))
        commands = [listing.Command(None, [], member) for member in members]
        return [commands[0]._replace(runas=self.runas() if self.random.random() < 0.9 else None, tags=tags), *commands[1:]]

    def lines(self) -> list[listing.Rule | str]:
        """Draws up to eight rules, behind the lines of the aliases of commands."""
        lines: list[listing.Rule | str] = []
        lines += [f"Cmnd_Alias {name} = {listing.joined(it)}" for name, it in self.aliases["Cmnd"].items()]
        for _ in range(self.random.randint(3, 9)):
            users = self.one("alice", "bob", "bob", "%adm", "%operator", "%#37")
            hosts = self.one("ALL", "ALL", "web1", "10.2.0.9")
            lines.append(listing.Rule(users, [listing.Section(hosts, self.commands())]))
        return lines


class Noted:
    """A policy some of whose rules are noted: they hold at some times alone."""

    def __init__(self, policy: listing.Policy, seed: int) -> None:
        self.lines = str(policy).splitlines()
        rules = [index for index, line in enumerate(self.lines) if not line.startswith("Cmnd_Alias")]
        self.noted = random.Random(seed).sample(rules, min(3, len(rules)))

    def whole(self) -> str:
        """Returns the policy, with an option of time at each rule that is noted."""
        lines = list(self.lines)
        for index in self.noted:
            lines[index] = re.sub(r"= (\([^)]*\) )?", r"\g<0>NOTAFTER=2027010100 ", lines[index], count=1)
        return "".join(f"{line}\n" for line in lines)

    def each(self) -> Iterator[str]:
        """Yields the policy for each choice of the noted rules that hold."""
        for held in itertools.product((True, False), repeat=len(self.noted)):
            out = {index for index, holds in zip(self.noted, held) if not holds}
            yield "".join("#\n" if index in out else f"{line}\n" for index, line in enumerate(self.lines))


@needs_review
class Roots(Drawn):
    """Tables of who can become root."""

    def table(self, *words: str) -> list[Row]:
        """Returns the rows of the table on the policy `p`."""
        header, *rows = csv.reader(io.StringIO(self.printed(REVIEW, "roots", *words), newline=""))
        self.assertEqual(",".join(header), HEADER)
        return [Row(*row) for row in rows]

    def check(self, host: Host, rows: list[Row], is_sure: bool) -> None:
        """Fails where the rows of a host are not those of the second body."""
        best = host.best()
        self.assertEqual(rows[0], Row("root", host.host, "root", "root", "none", "", "", "", ""))
        self.assertEqual([row.user for row in rows], [user for user in GROUPS if user in best or user == "root"])
        for row in rows[1:]:
            level, password, first_place, tags, chain = host.shown(row)
            wanted = password if is_sure or password == "none" else "?"
            self.assertEqual(row[2:7], ("root", level, wanted, first_place, tags))
            most = max((host.cost(row.user, *pair) for pair in itertools.pairwise([State(row.user), *chain])), default=0)
            self.assertEqual((row.level, most, chain), best[row.user])

    def seen(self, policy: listing.Policy, is_sure: bool) -> Iterator[str]:
        """Yields what there is in the table of a policy. Fails where it is not that of the second body."""
        self.write("p", str(policy))
        every, most = self.table("--all"), self.table()
        self.assertEqual([row for row in every if row.level != "listed"], most)
        for name in ("web1", "web2"):
            self.check(Host(policy, name), [row for row in every if row.host == name], is_sure)
        for row in every:
            yield from (row.level, row.password, "a group" if "+" in row.via else "", "two" if " > " in row.via else "")

    def bounded(self, noted: Noted) -> Iterator[str]:
        """Yields what each row depends on. Fails where a row says less than is so for one choice, or is not so for each."""
        whole = noted.whole()
        self.write("p", whole)
        most = {(row.user, row.host): row for row in self.table("--all")}
        for text in noted.each():
            self.write("p", text)
            rows = {(row.user, row.host): row for row in self.table("--all")}
            self.assertLessEqual(set(rows), set(most))
            for cell, bound in most.items():
                row = rows.get(cell)
                if row is None:
                    self.assertEqual(bound.depends, "time", (bound, text))
                elif bound.depends:
                    order = (*LEVELS, "root")
                    self.assertGreaterEqual(order.index(bound.level), order.index(row.level), (bound, row, text))
                    if bound.level == row.level:
                        self.assertLessEqual(weight(bound.password, whole), weight(row.password, whole), (bound, row, text))
                else:
                    self.assertEqual(bound.level, row.level, (bound, row, text))
                    self.assertEqual(weight(bound.password, whole), weight(row.password, whole), (bound, row, text))
        yield from (row.depends for row in most.values())

    def test_what_is_noted_is_bounded(self) -> None:
        seen: Counter[str] = Counter()
        for seed in range(POLICIES):
            policy = Draw(seed).policy
            with self.subTest(seed=seed, policy=str(policy)):
                seen.update(self.bounded(Noted(policy, seed)))
        self.assertGreater(min(seen["time"], seen[""]), 0, seen)

    def contradicted(self, policy: str, requests: list[listing.Request]) -> Iterator[str]:
        """Yields the levels, and what `sudo_audit` says there to requests of users for root. Fails where a grant of everything
        does not allow one, or one is allowed to a user whom nothing leads to root."""
        self.write("p", policy)
        rows = {(row.user, row.host): row for row in self.table("--all")}
        _, *answers = csv.reader(self.report(PROGRAM, "audit", policy, requests))
        for request, (_, _, verdict, *_) in zip(requests, answers, strict=True):
            row = rows.get((request.user, request.host))
            if row is None:
                self.assertIn(verdict, ("deny", "nomatch"), request)
            elif row.level == "all" and not row.via:
                self.assertEqual(verdict, "allow", (request, row))
            yield f"{row.level if row else 'none'} {verdict}"

    @needs_program
    def test_no_request_contradicts_a_level(self) -> None:
        seen: Counter[str] = Counter()
        for seed in range(POLICIES):
            drawn = listing.Draw(seed)
            choice = random.Random(seed).choice
            requests = [
                drawn.request()._replace(user=choice(USERS), host=choice(HOSTS), runas_user="root", runas_group="")
                for _ in range(REQUESTS)
            ]
            for policy in (Draw(seed).policy, drawn.policy):
                with self.subTest(seed=seed, policy=str(policy)):
                    seen.update(self.contradicted(str(policy), requests))
        self.assertGreater(min(seen[word] for word in ("all allow", "none deny", "none nomatch", "listed allow")), 0, seen)

    def test_the_rows_are_those_of_the_second_body(self) -> None:
        seen: Counter[str] = Counter()
        for seed in range(POLICIES):
            policies = {True: Draw(seed).policy, False: listing.Draw(seed).policy}
            for is_sure, policy in policies.items():
                with self.subTest(seed=seed, policy=str(policy)):
                    seen.update(self.seen(policy, is_sure))
        self.assertGreater(min(seen[word] for word in (*LEVELS[1:], *PASSWORDS, "?", "a group", "two")), 0, seen)


if __name__ == "__main__":
    unittest.main()
