"""Comparisons of policies drawn at random with one edit: each row is so, and without a row nothing is answered otherwise.

The variable POLICIES says how many policies there are, FIRST the number of the first one, and PROBES how many requests of each
cell without a row: with 4000 policies and 100 probes there are some 100,000,000 requests.
"""

import csv
import io
import os
import re
import unittest
from collections import Counter
from typing import NamedTuple

import listing
import test_grants
from drawn import Drawn
from kulavemia.answers import Verdict
from kulavemia.compare import CHANGE_HEADER, kind_of
from support import PROGRAM, REQUESTS_HEADER, needs_program, needs_review

POLICIES = int(os.environ.get("POLICIES", "30"))
FIRST = int(os.environ.get("FIRST", "0"))
PROBES = int(os.environ.get("PROBES", "12"))
HEADER = (
    *("users", "hosts", "runas_user", "runas_group", "answer", "command", "arguments"),
    *("old", "old_place", "old_tags", "new", "new_place", "new_tags", "depends"),
)


class Cell(NamedTuple):
    """A user on a host who asks for a target and a group, each empty if none is asked for."""

    user: str
    host: str
    runas_user: str
    runas_group: str


class Request(NamedTuple):
    """A command with its arguments, asked for in a cell."""

    cell: Cell
    command: str
    arguments: str


class Said(NamedTuple):
    """What a policy says: a verdict, its place and its tags."""

    verdict: str
    place: str
    tags: str


class Row(NamedTuple):
    """A row of a comparison."""

    cells: tuple[Cell, ...]
    answer: str
    command: str
    arguments: str
    old: Said
    new: Said


def names(field: str, known: list[str]) -> list[str]:
    """Returns the names that a field lists, all or all but some where it begins with `ALL`; an empty one where none is."""
    first, *others = field.split(", ")
    if first != "ALL":
        return [first, *others]
    return [name for name in known if "!" + name not in others]


def groups_of(field: str, target: str) -> list[str]:
    """Returns the groups that a field lists for a target."""
    known = sorted(listing.KNOWN_GROUPS)
    kept: list[str] = []
    for part in ("(own)", "(others)"):
        if part in field:
            kept += [name for name in known if (name in listing.GROUPS[target]) == (part == "(own)")]
    listed = ", ".join(part for part in field.split(", ") if not part.startswith("("))
    return [*(names(listed, known) if listed or not kept else ()), *kept]


def cells_of(users: str, hosts: str, targets: str, groups: str) -> tuple[Cell, ...]:
    """Returns the cells of a row by its first four fields."""
    known = [*listing.GROUPS]
    return tuple(
        Cell(user, host, target, group)
        for user in names(users, known)
        for host in names(hosts, sorted(listing.KNOWN_HOSTS))
        for target in names(targets, known)
        for group in groups_of(groups, target)
    )


def all_cells() -> list[Cell]:
    """Returns all cells of the users and hosts of drawn policies."""
    return [
        Cell(user, host, target, group)
        for user in listing.GROUPS
        for host in sorted(listing.KNOWN_HOSTS)
        for target in ("", *listing.GROUPS)
        for group in ("", *sorted(listing.KNOWN_GROUPS))
    ]


def change(old: Said, new: Said) -> str:
    """Returns what the change from one verdict to another is called, or nothing where both say the same."""
    if (old.verdict, old.tags) == (new.verdict, new.tags):
        return ""
    if "allow" in (old.verdict, new.verdict) and old.verdict != new.verdict:
        return "gained" if new.verdict == "allow" else "lost"
    return "other"


class Draw(test_grants.Draw):
    """A policy drawn at random, with escapes, quotes and brackets in commands, and that policy with one edit."""

    def words(self, kind: str) -> list[str]:
        """Returns the words that lists are drawn from, apart from aliases: those of commands are drawn too."""
        return super().words(kind) if kind == "Cmnd" else listing.Draw.words(self, kind)

    def edited(self) -> str:
        """Returns the policy with one edit: of a line, of a list, of a command, or of what stands before it."""
        lines = list(self.policy.lines)
        at, rule = self.random.choice([(at, line) for at, line in enumerate(lines) if isinstance(line, listing.Rule)])
        edit = self.random.choice(("line", "users", "hosts", "command", "command", "command"))
        if edit == "line":
            one: list[list[listing.Rule | str]] = [[], [rule, self.drawn_rule()], [self.drawn_rule()]]
            lines[at : at + 1] = self.random.choice(one)
        elif edit == "users":
            lines[at] = rule._replace(users=self.members("User"))
        else:
            sections = list(rule.sections)
            where = self.random.randrange(len(sections))
            section = sections[where]
            sections[where] = section._replace(hosts=self.members("Host")) if edit == "hosts" else self.other_commands(section)
            lines[at] = rule._replace(sections=sections)
        return str(self.policy._replace(lines=lines))

    def drawn_rule(self) -> listing.Rule:
        """Draws a rule."""
        return listing.Rule(self.members("User"), [self.section()])

    def other_commands(self, section: listing.Section) -> listing.Section:
        """Returns the section with a command left out, one more, two swapped, or one edited."""
        commands = list(section.commands)
        at = self.random.randrange(len(commands))
        command = commands[at]
        edit = self.random.choice(("less", "more", "swap", "sign", "word", "tags", "runas"))
        if edit == "less" and len(commands) > 1:
            del commands[at]
        elif edit in ("less", "more"):
            commands.insert(at, self.command())
        elif edit == "swap":
            commands[0], commands[at] = commands[at], commands[0]
        elif edit == "sign":
            commands[at] = command._replace(member=command.member._replace(bangs=command.member.bangs + 1))
        elif edit == "word":
            commands[at] = command._replace(member=self.members("Cmnd", 1)[0])
        elif edit == "tags":
            commands[at] = command._replace(tags=[self.random.choice(("", "NO")) + self.random.choice(listing.PAIRS)])
        else:
            commands[at] = command._replace(runas=self.runas())
        return section._replace(commands=commands)

    def probes(self) -> list[tuple[str, str]]:
        """Draws commands with their arguments: most are those that a word of either policy is for."""
        named = sorted({command for commands in self.commands for command in commands} | listing.COMMANDS)
        drawn = self.random.sample(named, min(PROBES, len(named)))
        return [(command, arguments) for command, _, arguments in (word.partition(",") for word in drawn)]


def paired(old: Said, new: Said) -> tuple[str, ...]:
    """Returns both verdicts, both tags and both places."""
    return old.verdict, new.verdict, old.tags, new.tags, old.place, new.place


@needs_program
@needs_review
class Comparisons(Drawn):
    """Comparisons of policies drawn at random with the same ones after one edit."""

    def compared(self, old: str, new: str, *words: str) -> list[Row]:
        """Returns the rows of a comparison of two policies."""
        rows = self.comparison(old, new, HEADER, *words)
        return [Row(cells_of(*row[:4]), row[4], row[5], row[6], Said(*row[7:10]), Said(*row[10:13])) for row in rows]

    def said(self, policy: str, name: str, requests: list[Request]) -> list[Said]:
        """Returns what `sudo_audit` says to requests under a policy, whose file has this name in places."""
        out = io.StringIO(newline="")
        asked = [(number, *request.cell, *request[1:]) for number, request in enumerate(requests, 1)]
        csv.writer(out, lineterminator="\n").writerows(asked)
        self.write("p", policy)
        self.write("requests", f"{REQUESTS_HEADER}{out.getvalue()}close,{len(requests)},,,,,\n")
        _, *rows = csv.reader(io.StringIO(self.printed(PROGRAM, "audit", "s=requests"), newline=""))
        self.assertEqual(len(rows), len(requests))
        return [Said(row[2], re.sub("^p:", f"{name}:", row[3]), row[4]) for row in rows]

    def test_rows_are_so_and_nothing_else_differs(self) -> None:
        seen: Counter[str] = Counter()
        for seed in range(FIRST, FIRST + POLICIES):
            draw = Draw(seed)
            old, new = str(draw.policy), draw.edited()
            with self.subTest(seed=seed, old=old, new=new):
                rows = self.compared(old, new)
                self.assertEqual(self.compared(old, old), [])
                # Each witness, in each cell of its row.
                shown = [(row, cell) for row in rows if row.answer != "may" for cell in row.cells]
                requests = [Request(cell, row.command, row.arguments) for row, cell in shown]
                both = zip(self.said(old, "old", requests), self.said(new, "new", requests))
                for (row, cell), (before, after) in zip(shown, both):
                    self.assertEqual((row.old, row.new, row.answer), (before, after, change(before, after)), (cell, row))
                # Cells without a row.
                found = {cell for row in rows for cell in row.cells}
                without = [cell for cell in all_cells() if cell not in found]
                probes = [Request(cell, *probe) for cell in without for probe in draw.probes()]
                for before, after, request in zip(self.said(old, "old", probes), self.said(new, "new", probes), probes):
                    self.assertEqual(change(before, after), "", request)
                seen.update(row.answer for row in rows for _ in row.cells)
                seen.update({"same": len(without)})
        self.assertEqual(set(seen) - {"may"}, {"gained", "lost", "other", "same"})
        self.assertLessEqual(seen["may"] * 50, sum(seen.values()) - seen["same"], seen)

    def test_rows_of_a_user_on_a_host(self) -> None:
        for seed in range(FIRST, FIRST + POLICIES, 3):
            draw = Draw(seed)
            old, new = str(draw.policy), draw.edited()
            user, host = draw.random.choice([*listing.GROUPS]), draw.random.choice(sorted(listing.KNOWN_HOSTS))
            with self.subTest(seed=seed, old=old, new=new, user=user, host=host):
                wanted = self.found(self.compared(old, new), user, host)
                self.assertEqual(self.found(self.compared(old, new, f"--user={user}", f"--host={host}"), user, host), wanted)
                for row in self.compared(old, new, f"--user={user}", f"--host={host}"):
                    self.assertEqual({(cell.user, cell.host) for cell in row.cells}, {(user, host)})

    def test_requests_that_are_answered_otherwise(self) -> None:
        seen: Counter[str] = Counter()
        for seed in range(FIRST, FIRST + POLICIES):
            draw = Draw(seed)
            old, new = str(draw.policy), draw.edited()
            cells = draw.random.sample(all_cells(), 40)
            requests = [Request(cell, *probe) for cell in cells for probe in draw.probes()]
            with self.subTest(seed=seed, old=old, new=new):
                before, after = self.said(old, "old", requests), self.said(new, "new", requests)
                wanted = [
                    [kind, "s", str(number), *request.cell, *request[1:], *paired(was, now)]
                    for number, (request, was, now) in enumerate(zip(requests, before, after), 1)
                    if (kind := kind_of(Verdict(*was), Verdict(*now)))
                ]
                self.assertEqual(self.comparison(old, new, CHANGE_HEADER, "--requests", "s=requests"), wanted)
                seen.update(row[0] for row in wanted)
        self.assertLessEqual({"gained", "lost", "other"}, set(seen))

    def found(self, rows: list[Row], user: str, host: str) -> set[tuple[Cell, Row]]:
        """Returns what rows find in the cells of a user on a host."""
        return {
            (cell, row._replace(cells=()))
            for row in rows
            for cell in row.cells
            if (cell.user, cell.host) == (user, host)
        }


if __name__ == "__main__":
    unittest.main()
