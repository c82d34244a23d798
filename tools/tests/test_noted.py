"""Cells of policies with digests, times, roots and regular expressions, beside those of the same policies with each of these met
or not met.

The page never shows less than one of these gives, and where it is sure each of them gives the same. The variable POLICIES
says how many policies there are.
"""

import csv
import io
import itertools
import os
import random
import unittest
from collections import Counter
from collections.abc import Iterator, Sequence
from typing import NamedTuple

from drawn import Drawn
from support import REVIEW, needs_review
from kulavemia.grants import Grants
from kulavemia.roots import ALL_FREE, NONE, ROOT, Answer, Roots

POLICIES = int(os.environ.get("POLICIES", "40"))
MOST_NOTES = 4
USERS = ("root", "ann", "bob", "cid", "dora")
PEOPLE = "user,uid,groups\n" + "".join(f"{user},{at},{user}:{at}{' adm:50' * (at in (2, 3))}\n" for at, user in enumerate(USERS))
LISTS = ("ann", "bob", "cid", "dora", "%adm", "ALL")
RUNAS = ("", "", "(ann) ", "(bob) ", "(ALL) ", "(ALL, !root) ", "(: adm) ", "(cid : adm) ")
TAGS = ("", "", "NOPASSWD: ", "PASSWD: ")
COMMANDS = ("ALL", "ALL", "ALL", "/opt/a", "!/opt/a", "!ALL")
NOTES = ("", "", "", "NOTAFTER=2027010100 ", "CHROOT=/x ", "sha224:0GomF8mNN3wlDt1HD9XldjJ3SNgpFdbjO1+NsQ== ", "^")
# What is written for a command that has to fit an expression.
EXPRESSIONS = {"ALL": "^.*$", "/opt/a": "/opt/a ^-[a-z]+$"}


class Rule(NamedTuple):
    """A rule: what stands before its note, the note, if any, and what stands behind it."""

    start: str
    note: str
    end: str

    def noted(self) -> str:
        """Returns the line with its note: an option is before the tags, a digest before the command, an expression for it."""
        tag, _, command = self.end.rpartition(": ")
        if self.note == "^":
            return f"{self.start}{tag}{': ' * bool(tag)}{EXPRESSIONS[command]}\n"
        digest = self.note.startswith("sha")
        return f"{self.start}{tag}: {self.note}{command}\n" if digest and tag else f"{self.start}{self.note}{self.end}\n"


def drawn(seed: int) -> list[Rule]:
    """Returns the rules of a policy, some of which have a note."""
    draw = random.Random(seed)
    rules: list[Rule] = []
    for _ in range(draw.randint(2, 7)):
        has_room = sum(bool(rule.note) for rule in rules) < MOST_NOTES
        start = f"{draw.choice(LISTS)} ALL = {draw.choice(RUNAS)}"
        note, tag, command = draw.choice(NOTES) if has_room else "", draw.choice(TAGS), draw.choice(COMMANDS)
        rules.append(Rule(start, note if note != "^" or command in EXPRESSIONS else "", f"{tag}{command}"))
    return rules


def met_or_not(rules: Sequence[Rule]) -> Iterator[str]:
    """Yields the policy without notes as if each note were met, or were not, in each way."""
    for met in itertools.product(*((True, False) if rule.note else (True,) for rule in rules)):
        yield "".join(f"{rule.start}{rule.end}\n" for rule, is_met in zip(rules, met) if is_met)


@needs_review
class Noted(Drawn):
    """Pages of policies that are drawn at random."""

    def setUp(self) -> None:
        super().setUp()
        self.write("users", PEOPLE)
        self.write("hosts", "host,interfaces\nweb1,\n")

    def table(self, name: str, *words: str) -> list[list[str]]:
        """Returns the rows of a table on the policy `p`."""
        return list(csv.reader(io.StringIO(self.printed(REVIEW, name, *words), newline="")))[1:]

    def answers(self, policy: str) -> list[Answer]:
        """Returns what the page shows of each user."""
        self.write("p", policy)
        roots = Roots(USERS, ["web1"], Grants(self.table("grants"), USERS, ["web1"]), False)
        roots.take_all(self.table("roots", "--all"))
        answers = roots.answers()
        return [answers[row[0]] for row in roots.rows]

    def check(self, shown: Answer, given: Answer) -> None:
        """Fails where a cell shows less than what is given, or is sure of another answer."""
        self.assertGreaterEqual(shown.level, given.level)
        self.assertGreaterEqual(shown.is_unasked or shown.level == ALL_FREE, given.is_unasked or given.level == ALL_FREE)
        if not shown.depends:
            self.assertEqual(shown.level, given.level)
        self.assertEqual(bool(shown.depends), shown.mark.startswith("?"))

    def test_a_cell_is_the_most_that_may_be_so(self) -> None:
        seen: Counter[tuple[str, ...]] = Counter()
        for seed in range(POLICIES):
            rules = drawn(seed)
            shown = self.answers("".join(rule.noted() for rule in rules))
            for policy in met_or_not(rules):
                for user, answer, given in zip(USERS, shown, self.answers(policy)):
                    with self.subTest(seed=seed, user=user, policy=policy):
                        self.check(answer, given)
            seen.update(answer.depends for answer in shown if answer.level not in (NONE, ROOT))
        self.assertGreater(min(seen[kinds] for kinds in ((), ("digest",), ("time",), ("chroot",), ("regex",))), 0, seen)
        self.assertTrue(any(len(kinds) > 1 for kinds in seen), seen)


if __name__ == "__main__":
    unittest.main()
