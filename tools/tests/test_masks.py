"""Tests of what sudo_review alone reads, on policies drawn at random."""

import random
from collections import Counter

from support import PROGRAM, REVIEW, Case, needs_program, needs_review

from differ.ask import Answer, Asker
from differ.draw import drawn_policy
from differ.forms import with_options
from differ.peer import Peer
from differ.review import Reviewer
from differ.world import Request

POLICIES = 150
REQUESTS = 10


@needs_program
@needs_review
class Options(Case):
    """Options of commands, put into policies that sudo_audit reads."""

    def setUp(self) -> None:
        super().setUp()
        self.asker = Asker(PROGRAM, Peer("", ""), self.folder)
        self.reviewer = Reviewer(REVIEW, self.asker)

    def classes(self) -> Counter[str] | None:
        """Returns the classes of the cautions on the policy that was written, `None` if it is refused."""
        found = self.reviewer.cautions()
        return None if found is None else Counter(caution.name for caution in found)

    def answers(self, requests: list[Request]) -> list[Answer] | None:
        """Returns the answers to requests under the policy that was written."""
        return self.asker.report(REVIEW, requests)

    def test_they_change_no_answer_and_hide_no_caution(self) -> None:
        read = 0
        for number in range(POLICIES):
            case, requests = drawn_policy(f"options.{number}", REQUESTS)
            self.asker.write(case)
            classes, answers = self.classes(), self.answers(requests)
            changed = with_options(case.text, random.Random(number))
            self.asker.write(case._replace(text=changed))
            other = self.classes()
            if classes is None or other is None or changed == case.text:
                continue
            read += 1
            with self.subTest(text=changed):
                self.assertEqual(set(other), set(classes))
                self.assertEqual(self.answers(requests), answers)
        self.assertGreater(read, POLICIES // 3)
