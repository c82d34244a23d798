"""Marks for passwords on policies drawn at random, beside the second body: no user who may go unasked is without one.

The variable POLICIES says how many policies there are.
"""

import csv
import io
import os
import unittest
from collections import Counter
from collections.abc import Iterator

import listing
from drawn import Drawn
from support import REVIEW, needs_review
from test_roots import Draw, Host
from kulavemia.grants import Grant, Grants
from kulavemia.roots import Roots

POLICIES = int(os.environ.get("POLICIES", "100"))
USERS = list(listing.GROUPS)
HOSTS = ["web1", "web2"]


class Targets(unittest.TestCase):
    def test_whom_a_grant_may_run_as(self) -> None:
        for runas, eve, root in (
            ("", False, True),
            ("(eve)", True, False),
            ("(ann, eve)", True, False),
            ("(ann, ALL)", True, True),
            ("(ALL, !eve)", True, True),
            ("(%adm)", True, True),
            ("(#0)", True, True),
            (r"(e\ve)", True, True),
            ('("eve")', True, True),
            ("(eve : adm)", True, True),
            ("(eves)", False, False),
            ("()", False, False),
        ):
            grant = Grant("p:1", runas, "", "/a", "NOPASSWD", "")
            self.assertEqual((grant.may_be("eve"), grant.may_be("root")), (eve, root), runas)
            self.assertEqual(grant.has_group(), ":" in runas)


@needs_review
class Marks(Drawn):
    """The marks of a page on policies that are drawn at random."""

    def table(self, name: str, *words: str) -> list[list[str]]:
        """Returns the rows of a table on the policy `p`."""
        return list(csv.reader(io.StringIO(self.printed(REVIEW, name, *words), newline="")))[1:]

    def seen(self, policy: listing.Policy) -> Iterator[str]:
        """Yields how the mark of each user fits. Fails where a user may go unasked, and the mark does not say so."""
        self.write("p", str(policy))
        rows = self.table("roots", "--all")
        roots = Roots(USERS, HOSTS, Grants(self.table("grants"), USERS, HOSTS), False)
        roots.take_all(rows)
        asked = {(row[0], row[1]): row[4] for row in rows}
        answers = roots.answers()
        for at, host in enumerate(HOSTS):
            steps = Host(policy, host)
            for user, row in zip(USERS[1:], roots.rows[1:]):
                mark = answers[row[at]].mark
                says = mark.endswith("?") or mark == "A!"
                if steps.first(user, 1, 1):
                    self.assertTrue(says, f"{user} on {host}: {mark}")
                    yield "a lesser chain" if asked[user, host] not in ("none", "?") else "as the column"
                elif mark != "·":
                    self.assertTrue(says is False or mark in ("A?", "B?"), f"{user} on {host}: {mark}")
                    yield "careful" if says else "sure"

    def test_no_mark_says_less_than_the_policy_gives(self) -> None:
        seen: Counter[str] = Counter()
        for seed in range(POLICIES):
            policy = Draw(seed).policy
            with self.subTest(seed=seed, policy=str(policy)):
                seen.update(self.seen(policy))
        self.assertGreater(min(seen[kind] for kind in ("a lesser chain", "as the column", "sure")), 0, seen)
        # Where a lesser chain may begin by a group or by targets that are not names, the mark is careful.
        self.assertLess(seen["careful"], seen["sure"], seen)


if __name__ == "__main__":
    unittest.main()
