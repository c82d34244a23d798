"""Requests compared under policies with digests, times, roots and expressions, beside versions of both policies with each of
them met or not.

A request without a row is answered alike by both policies in each version, and a row that depends on nothing says what each
version does. The variable POLICIES says how many policies there are, and FIRST the number of the first one.
"""

import csv
import io
import itertools
import os
import re
import unittest
from collections import Counter
from collections.abc import Iterator, Mapping, Sequence
from typing import NamedTuple

from drawn import NotedCase
from kulavemia.answers import Verdict
from kulavemia.compare import CHANGE_HEADER, MAY, kind_of
from support import PROGRAM, REQUESTS_HEADER, needs_program, needs_review
from test_differences import Said, paired
from test_noted_differences import GROUPS, OWN, PROBES, TARGETS, USERS, Draw, Rule, met_or_not, written

POLICIES = int(os.environ.get("POLICIES", "20"))
FIRST = int(os.environ.get("FIRST", "0"))
ASKED = [*itertools.product(USERS, ("web1",), TARGETS, GROUPS, PROBES, ("",))]
KINDS = ("digest", "time", "chroot", "regex")
NOTED_HEADER = (*CHANGE_HEADER, "depends")


class Row(NamedTuple):
    """A row of a comparison by requests: both verdicts with their tags and places, as they stand there."""

    change: str
    verdicts: tuple[str, ...]
    depends: str


def kind(old: Said, new: Said) -> str | None:
    """Returns which change there is between two verdicts, or `None` if both say the same."""
    return kind_of(Verdict(*old), Verdict(*new))


def are_noted(rules: Sequence[Rule]) -> bool:
    """Returns whether something is noted in rules, as they are written."""
    commands = [command for rule in rules for command in rule.commands]
    return any(command.own() or not set(command.notes) <= set(OWN) for command in commands)


def all_met(rules: Sequence[Rule]) -> Mapping[str, bool]:
    """Returns the notes of rules, each of them met."""
    return next(met_or_not(rules))


@needs_program
@needs_review
class NotedRequests(NotedCase):
    """Requests under policies with notes, drawn at random, and under the same ones after one edit."""

    def setUp(self) -> None:
        super().setUp()
        rows = "".join(f"{number},{','.join(asked)}\n" for number, asked in enumerate(ASKED, 1))
        self.write("requests", f"{REQUESTS_HEADER}{rows}close,{len(ASKED)},,,,,\n")

    def changed(self, old: str, new: str, is_noted: bool) -> dict[int, Row]:
        """Returns the rows of a comparison, by the numbers of their requests."""
        rows = self.comparison(old, new, NOTED_HEADER if is_noted else CHANGE_HEADER, "--requests", "s=requests")
        numbers = [int(row[2]) for row in rows]
        self.assertEqual(numbers, sorted(set(numbers)))
        return {number: self.row(number, row, is_noted) for number, row in zip(numbers, rows)}

    def row(self, number: int, row: Sequence[str], is_noted: bool) -> Row:
        """Returns a row by its fields. Fails where it is not about the request of this number."""
        self.assertEqual((row[1], tuple(row[3:9])), ("s", ASKED[number - 1]))
        return Row(row[0], tuple(row[9:15]), row[15] if is_noted else "")

    def said(self, policy: str, name: str) -> list[Said]:
        """Returns what `sudo_audit` says to the requests under a policy, whose file has this name in places."""
        self.write("p", policy)
        _, *rows = csv.reader(io.StringIO(self.printed(PROGRAM, "audit", "s=requests"), newline=""))
        return [Said(row[2], re.sub("^p:", f"{name}:", row[3]), row[4]) for row in rows]

    def both(self, old: Sequence[Rule], new: Sequence[Rule], met: Mapping[str, bool]) -> Iterator[tuple[Said, Said]]:
        """Yields what both policies say to each request, where these notes are met."""
        before, after = ("".join(rule.where(met) for rule in rules) for rules in (old, new))
        return zip(self.said(before, "old"), self.said(after, "new"))

    def check(self, old: Sequence[Rule], new: Sequence[Rule], rows: Mapping[int, Row]) -> None:
        """Fails if a version of the policies contradicts a row, or answers a request without a row otherwise."""
        for met in met_or_not([*old, *new]):
            with self.subTest(met=met):
                for number, (was, now) in enumerate(self.both(old, new, met), 1):
                    row = rows.get(number)
                    if row is None:
                        self.assertIsNone(kind(was, now), (ASKED[number - 1], was, now))
                    elif not row.depends:
                        self.assertEqual((row.change, row.verdicts), (kind(was, now), paired(was, now)), ASKED[number - 1])

    def check_verdicts(self, old: Sequence[Rule], new: Sequence[Rule], rows: Mapping[int, Row]) -> None:
        """Fails where a row has other verdicts than those where all is met, or a change that they do not show."""
        for number, (was, now) in enumerate(self.both(old, new, all_met([*old, *new])), 1):
            row = rows.get(number)
            if row is None:
                self.assertIsNone(kind(was, now))
            else:
                self.assertEqual((row.change, row.verdicts), (kind(was, now) or MAY, paired(was, now)))
                self.assertTrue(row.depends or row.change != MAY, row)
                self.assertEqual(row.depends.split(), [name for name in KINDS if name in row.depends.split()])

    def test_no_choice_of_what_is_met_contradicts_a_comparison(self) -> None:
        seen: Counter[str] = Counter()
        for seed in range(FIRST, FIRST + POLICIES):
            draw = Draw(seed)
            old, new = draw.old, draw.edited()
            with self.subTest(seed=seed, old=written(old), new=written(new)):
                self.assertEqual(self.changed(written(old), written(old), are_noted(old)), {})
                rows = self.changed(written(old), written(new), are_noted([*old, *new]))
                self.check_verdicts(old, new, rows)
                self.check(old, new, rows)
                seen.update(f"{row.change} {bool(row.depends)}" for row in rows.values())
        self.assertLessEqual({"gained False", "gained True", "lost False", "lost True", "may True"}, set(seen), seen)

    def test_a_split_rule_is_the_same(self) -> None:
        """A rule of two users, and one of each with the same notes: no request has a row."""
        for seed in range(FIRST, FIRST + POLICIES, 4):
            rule = Draw(seed).rule()._replace(users="ann, bob")
            apart = [rule._replace(users=user) for user in ("ann", "bob")]
            is_noted = are_noted([rule])
            with self.subTest(seed=seed, rule=str(rule)):
                self.assertEqual(self.changed(str(rule), written(apart), is_noted), {})
                self.assertEqual(self.changed(written(apart), str(rule), is_noted), {})


if __name__ == "__main__":
    unittest.main()
