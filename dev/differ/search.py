"""Draws cases, asks both programs, and sorts how they differ."""

import itertools
import os
import tempfile
from collections import Counter
from collections.abc import Iterator
from concurrent.futures import ProcessPoolExecutor, as_completed
from typing import NamedTuple

from differ.ask import Answer, Asker, Case
from differ.constructs import Row, same_answer
from differ.draw import drawn_file, drawn_policy
from differ.peer import Peer
from differ.profile import FILES, GRANTS
from differ.shrink import Shrinker

REQUESTS_A_POLICY = 20
VERDICTS_A_TASK = 500
FILES_A_TASK = 100
MOST_PEELED = 8
MEMORY = "/dev/shm"
READ, REFUSED = Answer("read"), Answer("refused")


class Both(NamedTuple):
    """The answers of the program and of the peer."""

    here: Answer
    there: Answer

    def differ(self) -> bool:
        """Returns whether they are not the same."""
        return self.here != self.there

    def agree(self, rows: list[Row]) -> bool:
        """Returns whether both read the policy, and answer alike in what counts beside rows."""
        here, there = self
        for row in rows:
            here, there = row.counts(here), row.counts(there)
        return REFUSED not in self and here == there

    def still(self, before: "Both") -> bool:
        """Returns whether neither refuses a policy that it read before."""
        return all(now != REFUSED or then == REFUSED for now, then in zip(self, before))


class Difference(NamedTuple):
    """A difference, made small: where it was drawn, the case, and the answers."""

    seed: str
    case: Case
    both: Both


class Found(NamedTuple):
    """The result of a task: its verdicts and files, the differences that each row explained, examples, and new ones."""

    verdicts: int
    files: int
    explained: Counter[str]
    examples: dict[str, Difference]
    new: list[Difference]


class Search:
    """Compares cases in a folder, and keeps an example of each explained difference where that is asked for."""

    def __init__(self, asker: Asker, show: bool = False) -> None:
        self.asker = asker
        self.show = show
        self.last: Row | None = None
        self.verdicts = 0
        self.files = 0
        self.explained: Counter[str] = Counter()
        self.examples: dict[str, Difference] = {}
        self.new: list[Difference] = []

    def found(self) -> Found:
        """Returns what was found."""
        return Found(self.verdicts, self.files, self.explained, self.examples, self.new)

    def policy(self, seed: str) -> None:
        """Compares the verdicts under a policy, or whether it is read where one of both refuses it."""
        case, requests = drawn_policy(seed, REQUESTS_A_POLICY)
        self.asker.write(case)
        here = self.asker.audit(requests)
        answers = [self.asker.peer_verdict(case, asked) for asked in requests] if here is not None else []
        there = [answer for answer in answers if answer is not None]
        if here is None or len(there) < len(requests):
            self._compare(seed, case, self._read(case))
            return
        for asked, one, other in zip(requests, here, there):
            self.verdicts += 1
            self.sort(seed, case._replace(request=asked), Both(alike(one), alike(other)))

    def file(self, seed: str) -> None:
        """Compares whether a text is read."""
        case = drawn_file(seed)
        self._compare(seed, case, self._read(case))

    def _compare(self, seed: str, case: Case, both: Both) -> None:
        self.files += 1
        self.sort(seed, case, both)

    def sort(self, seed: str, case: Case, both: Both) -> None:
        """Counts a difference under the row that explains it, or keeps it."""
        if not both.differ():
            return
        row, left = self.row(case), case
        if row is None:
            row, left = self._peeled(case, both)
        if row is None:
            self.new.append(Difference(seed, left, self.asked(left)))
            return
        self.last = row
        self.explained[row.cell] += 1
        if self.show and row.cell not in self.examples:
            case = self.small(case, both, row)
            self.examples[row.cell] = Difference(seed, case, self.asked(case))

    def row(self, case: Case) -> Row | None:
        """Returns the row that explains the difference of a case."""
        return self._single(case) or self._after_others(case)

    def _peeled(self, case: Case, both: Both) -> tuple[Row | None, Case]:
        """Returns a row whose construct is the last to go, and what is left; without a row, a case that none explains.

        A small case may differ by another construct than the case that it was made from. The row that explains it
        explains that construct alone, which is therefore taken out of the whole case."""
        out: list[Row] = []
        for _ in range(MOST_PEELED):
            small = self.small(case, both)
            row = self.row(small)
            if row is None:
                return None, small
            out.append(row)
            changed = self._taken_out(case, both, out)
            if changed is None:
                return None, case
            case, both = changed, self.asked(changed)
            if both.agree(out):
                return row, case
        return None, case

    def _taken_out(self, case: Case, both: Both, out: list[Row]) -> Case | None:
        """Returns a case without the construct of the last row, `None` if the case does not have it."""
        still = None
        for changed in out[-1].change(case):
            if changed == case and (out[-1].counts is same_answer or out[-1] in out[:-1]):
                continue
            found = self.asked(changed)
            if found.agree(out):
                return changed
            still = changed if still is None and found.still(both) else still
        return still

    def _read(self, case: Case) -> Both:
        """Returns whether each of both reads a policy without an error."""
        self.asker.write(case)
        return Both(READ if self.asker.check() else REFUSED, READ if self.asker.peer_check() else REFUSED)

    def asked(self, case: Case) -> Both:
        """Returns the answers to a case."""
        if case.request is None:
            return self._read(case)
        self.asker.write(case)
        here = self.asker.audit([case.request])
        there = self.asker.peer_verdict(case, case.request)
        return Both(REFUSED if here is None else alike(here[0]), REFUSED if there is None else alike(there))

    def small(self, case: Case, both: Both, row: Row | None = None) -> Case:
        """Returns a small case that differs in the same way, and by the construct of a row where that is given."""

        def differs(tried: Case) -> bool:
            found = self.asked(tried)
            same = found.differ() and [answer.verdict for answer in found] == [answer.verdict for answer in both]
            return same and (row is None or self._goes(tried, row))

        return Shrinker(differs).shrunk(case)

    @staticmethod
    def rows(case: Case) -> tuple[Row, ...]:
        """Returns the rows that may explain a difference of a case."""
        return FILES if case.request is None else GRANTS

    def _single(self, case: Case) -> Row | None:
        """Returns the row whose construct alone makes the difference. That of the last difference is tried first."""
        last = [row for row in self.rows(case) if row is self.last]
        return next((row for row in (*last, *self.rows(case)) if self._goes(case, row)), None)

    def _goes(self, case: Case, row: Row) -> bool:
        """Returns whether the difference of a case goes when the construct of a row is taken out."""
        tried = (changed for changed in row.change(case) if changed != case or row.counts is not same_answer)
        return any(self.asked(changed).agree([row]) for changed in tried)

    def _after_others(self, case: Case) -> Row | None:
        """Returns the row with whose construct the difference goes, where those of other rows are out already."""
        out: list[Row] = []
        last = self.asked(case)
        for row in 2 * self.rows(case):
            for changed in row.change(case):
                if changed == case and row.counts is same_answer:
                    continue
                both = self.asked(changed)
                if both.agree([*out, row]):
                    return row
                if both.still(last):
                    case, last = changed, both
                    out.append(row)
                    break
        return None


def alike(answer: Answer) -> Answer:
    """Returns an answer as it is compared: which of two names is unknown does not count."""
    return Answer("unknown") if answer.verdict.startswith("unknown-") else answer


def memory() -> str | None:
    """Returns a folder in memory for the folders of cases, if there is one."""
    # Each case writes files anew; on a disk that is most of the time.
    return MEMORY if os.access(MEMORY, os.W_OK) and "TMPDIR" not in os.environ else None


def task(program: str, peer: Peer, show: bool, seed: str, policies: bool) -> Found:
    """Compares a number of verdicts or of files. What one of both refuses counts as a file."""
    with tempfile.TemporaryDirectory(prefix="differential-", dir=memory()) as folder:
        search = Search(Asker(program, peer, folder), show)
        numbers = itertools.count()
        while policies and search.verdicts < VERDICTS_A_TASK:
            search.policy(f"{seed}.{next(numbers)}")
        for number in range(0 if policies else FILES_A_TASK):
            search.file(f"{seed}.{number}")
        return search.found()


def tasks(verdicts: int, files: int, seed: int) -> list[tuple[str, bool]]:
    """Returns the seeds of the tasks, and whether each is of policies, for at least so many verdicts and files."""
    of_policies = [(f"{seed}.p{number}", True) for number in range(-(-verdicts // VERDICTS_A_TASK))]
    return of_policies + [(f"{seed}.f{number}", False) for number in range(-(-files // FILES_A_TASK))]


def search(program: str, peer: Peer, show: bool, planned: list[tuple[str, bool]], jobs: int) -> Iterator[Found]:
    """Yields what each task found, in the order in which they end."""
    pool = ProcessPoolExecutor(jobs)
    try:
        for done in as_completed([pool.submit(task, program, peer, show, *one) for one in planned]):
            yield done.result()
    finally:
        pool.shutdown(cancel_futures=True)
