"""Comparisons of policies with digests, times, roots and expressions, beside versions of both policies with each of them met or
not.

What a row says of a command is so in each version, and in a cell without a row no version answers otherwise. The variable
POLICIES says how many policies there are, and FIRST the number of the first one.
"""

import csv
import io
import itertools
import os
import random
import re
import unittest
from collections import Counter
from collections.abc import Iterator, Mapping, Sequence
from typing import NamedTuple

from drawn import NotedCase
from support import PROGRAM, REQUESTS_HEADER, needs_program, needs_review
from test_differences import HEADER, Said, change

POLICIES = int(os.environ.get("POLICIES", "40"))
FIRST = int(os.environ.get("FIRST", "0"))
MOST_NOTES = 4
USERS = ("root", "ann", "bob")
TARGETS = ("", *USERS)
GROUPS = ("", "staff")
LISTS = ("ann", "bob", "ann, bob", "ALL")
RUNAS = ("", "", "(bob)", "(ALL)")
TAGS = ("", "", "NOPASSWD", "PASSWD", "NOEXEC")
COMMANDS = ("ALL", "/opt/a", "/opt/a", "!/opt/a", "/opt/b", "/opt/*", "!/opt/b")
# Those of a command, by their kinds: an option holds for the later commands too, a digest and an expression for its own alone.
NOTES: Mapping[str, Sequence[str]] = {
    "time": ("NOTAFTER=2027010100", "NOTAFTER=2028010100"),
    "chroot": ("CHROOT=/x", "CHROOT=/y"),
    "digest": (
        "sha224:0GomF8mNN3wlDt1HD9XldjJ3SNgpFdbjO1+NsQ==",
        "sha224:d14a028c2a3a2bc9476102bb288234c415a2b01f828ea62ac5b3e42f",
    ),
    "regex": ("^/opt/.*$", "^/(opt|srv)/a$"),
}
OWN = ("digest", "regex")
PROBES = ("/opt/a", "/opt/b", "/opt/c", "/bin/sh")


class Command(NamedTuple):
    """A command of a rule: its runas and its tag, if they are new there, its notes by their kinds, and its word."""

    runas: str
    tag: str
    notes: Mapping[str, str]
    word: str

    def own(self) -> Mapping[str, str]:
        """Returns the notes that hold for this command alone; behind a sign no expression is read."""
        return {kind: note for kind, note in self.notes.items() if kind in OWN and (kind != "regex" or self.word[0] != "!")}

    def __str__(self) -> str:
        options = [self.notes[kind] for kind in ("time", "chroot") if kind in self.notes]
        tag = [f"{self.tag}:"] if self.tag else []
        own = self.own()
        digest = [own["digest"]] if "digest" in own else []
        path = [] if "regex" in own and self.word == "ALL" else [self.word]
        expression = [own["regex"]] if "regex" in own else []
        return " ".join([*([self.runas] if self.runas else []), *options, *tag, *digest, *path, *expression])


class Rule(NamedTuple):
    """A rule of a policy."""

    users: str
    commands: Sequence[Command]

    def __str__(self) -> str:
        return f"{self.users} ALL = {', '.join(map(str, self.commands))}\n"

    def where(self, met: Mapping[str, bool]) -> str:
        """Returns the line without notes, with the commands all of whose notes are met; a comment, if there is none."""
        runas, tags, options, left = "", set[str](), dict[str, str](), list[str]()
        for command in self.commands:
            runas = command.runas or runas
            if command.tag:
                tags = {tag for tag in tags if tag.removeprefix("NO") != command.tag.removeprefix("NO")} | {command.tag}
            options |= {kind: note for kind, note in command.notes.items() if kind not in OWN}
            notes = [*options.values(), *command.own().values()]
            if all(met[note] for note in notes):
                left.append(f"{runas} {''.join(f'{tag}: ' for tag in sorted(tags))}{command.word}")
        return f"{self.users} ALL = {', '.join(left)}\n" if left else "#\n"


class Cell(NamedTuple):
    """A user who asks for a target and a group, each empty if none is asked for."""

    user: str
    target: str
    group: str


class Row(NamedTuple):
    """A row of a comparison."""

    cells: Sequence[Cell]
    answer: str
    command: str
    arguments: str
    old: Said
    new: Said
    depends: str


class Draw:
    """A policy drawn at random, and that policy with one edit."""

    def __init__(self, seed: int) -> None:
        self.random = random.Random(seed)
        self.left = MOST_NOTES
        self.old = [self.rule() for _ in range(self.random.randint(1, 4))]

    def notes(self) -> Mapping[str, str]:
        """Draws the notes of a command: mostly none."""
        if not self.left or self.random.random() < 0.6:
            return {}
        self.left -= 1
        kind = self.random.choice([*NOTES])
        return {kind: self.random.choice(NOTES[kind])}

    def command(self) -> Command:
        """Draws a command."""
        draw = self.random.choice
        return Command(draw(RUNAS), draw(TAGS), self.notes(), draw(COMMANDS))

    def rule(self) -> Rule:
        """Draws a rule."""
        return Rule(self.random.choice(LISTS), [self.command() for _ in range(self.random.randint(1, 3))])

    def edited(self) -> list[Rule]:
        """Returns the policy with one edit: of a line, of its users, or of a command."""
        self.left = 1
        rules = list(self.old)
        at = self.random.randrange(len(rules))
        edit = self.random.choice(("less", "more", "swap", "users", "split", "command", "command", "command", "command"))
        if edit == "less":
            del rules[at]
        elif edit == "more":
            rules.insert(at, self.rule())
        elif edit == "swap":
            rules[0], rules[at] = rules[at], rules[0]
        elif edit == "users":
            rules[at] = rules[at]._replace(users=self.random.choice(LISTS))
        elif edit == "split":
            rules[at : at + 1] = [rules[at]._replace(users=user) for user in ("ann", "bob")]
        else:
            rules[at] = rules[at]._replace(commands=self.other_commands(rules[at].commands))
        return rules

    def other_commands(self, before: Sequence[Command]) -> Sequence[Command]:
        """Returns the commands with one left out, one more, two swapped, or one with another word, tag or note."""
        commands = list(before)
        at = self.random.randrange(len(commands))
        edit = self.random.choice(("less", "more", "swap", "word", "tag", "notes", "notes"))
        if edit == "less" and len(commands) > 1:
            del commands[at]
        elif edit in ("less", "more"):
            commands.insert(at, self.command())
        elif edit == "swap":
            commands[0], commands[at] = commands[at], commands[0]
        elif edit == "word":
            commands[at] = commands[at]._replace(word=self.random.choice(COMMANDS))
        elif edit == "tag":
            commands[at] = commands[at]._replace(tag=self.random.choice(TAGS))
        else:
            kind = self.random.choice([*NOTES])
            choices: Sequence[Mapping[str, str]] = ({}, {kind: self.random.choice(NOTES[kind])})
            commands[at] = commands[at]._replace(notes=self.random.choice(choices))
        return commands


def met_or_not(rules: Sequence[Rule]) -> Iterator[Mapping[str, bool]]:
    """Yields the notes of rules, each met or not, in each way."""
    notes = sorted({note for rule in rules for command in rule.commands for note in command.notes.values()})
    for met in itertools.product((True, False), repeat=len(notes)):
        yield dict(zip(notes, met))


def written(rules: Sequence[Rule]) -> str:
    """Returns the text of a policy."""
    return "".join(map(str, rules))


@needs_program
@needs_review
class Noted(NotedCase):
    """Comparisons of policies with notes, drawn at random, with the same ones after one edit."""

    def compared(self, old: str, new: str) -> list[Row]:
        """Returns the rows of a comparison of two policies."""
        return [self.row(*row) for row in self.comparison(old, new, HEADER)]

    def row(self, users: str, hosts: str, targets: str, groups: str, *row: str) -> Row:
        """Returns a row by its fields. Fails where it is not about the host."""
        self.assertEqual(hosts, "ALL")
        listed = [USERS if names == "ALL" else names.split(", ") for names in (users, targets)]
        listed.append(["staff" if groups else ""])
        answer, command, arguments = row[:3]
        cells = [Cell(*cell) for cell in itertools.product(*listed)]
        return Row(cells, answer, command, arguments, Said(*row[3:6]), Said(*row[6:9]), row[9])

    def said(self, policy: str, name: str, requests: Sequence[tuple[Cell, str, str]]) -> list[Said]:
        """Returns what `sudo_audit` says to requests under a policy, whose file has this name in places."""
        asked = [
            f"{number},{cell.user},web1,{cell.target},{cell.group},{command},{arguments}\n"
            for number, (cell, command, arguments) in enumerate(requests, 1)
        ]
        self.write("p", policy)
        self.write("requests", f"{REQUESTS_HEADER}{''.join(asked)}close,{len(requests)},,,,,\n")
        _, *rows = csv.reader(io.StringIO(self.printed(PROGRAM, "audit", "s=requests"), newline=""))
        return [Said(row[2], re.sub("^p:", f"{name}:", row[3]), row[4]) for row in rows]

    def check(self, old: Sequence[Rule], new: Sequence[Rule], rows: Sequence[Row]) -> None:
        """Fails where a version of the policies contradicts the rows of their comparison."""
        found = {cell for row in rows for cell in row.cells}
        without = [cell for cell in itertools.starmap(Cell, itertools.product(USERS, TARGETS, GROUPS)) if cell not in found]
        shown = [(row, cell) for row in rows if row.answer != "may" for cell in row.cells]
        witnesses = [(cell, row.command, row.arguments) for row, cell in shown]
        probes = [(cell, command, "") for cell in without for command in PROBES]
        for met in met_or_not([*old, *new]):
            before, after = ("".join(rule.where(met) for rule in rules) for rules in (old, new))
            with self.subTest(before=before, after=after):
                both = zip(self.said(before, "old", witnesses), self.said(after, "new", witnesses))
                for (row, cell), (was, now) in zip(shown, both):
                    self.assertEqual((row.old, row.new, row.answer), (was, now, change(was, now)), (cell, row))
                for was, now, probe in zip(self.said(before, "old", probes), self.said(after, "new", probes), probes):
                    self.assertEqual(change(was, now), "", probe)

    def test_no_choice_of_what_is_met_contradicts_a_comparison(self) -> None:
        seen: Counter[str] = Counter()
        for seed in range(FIRST, FIRST + POLICIES):
            draw = Draw(seed)
            old, new = draw.old, draw.edited()
            with self.subTest(seed=seed, old=written(old), new=written(new)):
                self.assertEqual(self.compared(written(old), written(old)), [])
                rows = self.compared(written(old), written(new))
                self.check(old, new, rows)
                self.assertEqual([row for row in rows if row.depends and row.answer != "may"], [])
                seen.update(f"{row.answer} {row.depends}" for row in rows for _ in row.cells)
        self.assertLessEqual({"gained ", "lost ", "other ", "may digest", "may time", "may chroot", "may regex"}, set(seen), seen)

    def test_a_split_rule_is_the_same(self) -> None:
        """A rule of two users, and one of each with the same notes: nothing changes."""
        for seed in range(FIRST, FIRST + POLICIES, 4):
            rule = Draw(seed).rule()._replace(users="ann, bob")
            apart = [rule._replace(users=user) for user in ("ann", "bob")]
            with self.subTest(seed=seed, rule=str(rule)):
                self.assertEqual(self.compared(str(rule), written(apart)), [])
                self.assertEqual(self.compared(written(apart), str(rule)), [])


if __name__ == "__main__":
    unittest.main()
