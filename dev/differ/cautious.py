"""Measures the cautions of sudo_review against sudo.

Without cautions nothing is to differ; where something differs, a caution is to explain it; and no class is to warn where
nothing differs.
"""

import itertools
import os
import random
import tempfile
from collections import Counter
from collections.abc import Iterator, Sequence
from concurrent.futures import ProcessPoolExecutor
from functools import partial
from typing import NamedTuple

from differ import world
from differ.aimed import DRAWN, drawn
from differ.alone import alone_with, requests_for
from differ.ask import Answer, Asker, Case
from differ.assumed import unmet
from differ.classes import WAYS
from differ.draw import Draw, drawn_policy
from differ.forms import with_forms
from differ.peer import Peer
from differ.review import Caution, Reviewer
from differ.search import REFUSED, REQUESTS_A_POLICY, Both, Difference, Search, alike, memory
from differ.shrink import ENTRIES_AND_MEMBERS, Shrinker
from differ.world import Request

VERDICTS_A_TASK = 500
SAMPLE_A_TASK = 5
DRAWS_A_TASK = 10
AIMED_A_TASK = 50
TASKS_A_WAVE = 16
MOST_ASKED = 5
BY_CHANCE = 8
# The machines of this class have users in lower case: a capital letter of the policy is none of theirs.
OF_LETTERS = "case"
DEPENDS = "depends"


class Programs(NamedTuple):
    """The programs that are compared, and the one whose cautions are measured."""

    audit: str
    review: str
    peer: Peer


class Plain(NamedTuple):
    """What was found of policies without cautions.

    Verdicts are counted by what does not hold of the request and the machine; the empty name is that all holds. Those that
    depend on what is not judged are not compared, and counted by what that is.
    """

    policies: int = 0
    without: int = 0
    unread: int = 0
    verdicts: Counter[str] = Counter()
    differing: Counter[str] = Counter()
    found: tuple[tuple[str, Difference], ...] = ()
    depending: Counter[str] = Counter()

    def plus(self, more: "Plain") -> "Plain":
        """Returns what both found."""
        return Plain(
            self.policies + more.policies,
            self.without + more.without,
            self.unread + more.unread,
            self.verdicts + more.verdicts,
            self.differing + more.differing,
            self.found + more.found,
            self.depending + more.depending,
        )


class Sampled(NamedTuple):
    """What was found of policies with a difference: the classes that explain it, and what no caution explains.

    `together` counts the policies whose difference goes with the constructs of several classes alone, by how many they are."""

    policies: int = 0
    unread: int = 0
    explained: Counter[str] = Counter()
    together: Counter[int] = Counter()
    left: tuple[tuple[str, Difference], ...] = ()

    def plus(self, more: "Sampled") -> "Sampled":
        """Returns what both found."""
        explained, together = self.explained + more.explained, self.together + more.together
        policies, unread = self.policies + more.policies, self.unread + more.unread
        return Sampled(policies, unread, explained, together, self.left + more.left)


class Single(NamedTuple):
    """What was found of policies with one caution: by class how many, and of how many sudo judges a request otherwise.

    Parameters of Defaults lines count each by itself. Policies with further cautions, or none, are passed over."""

    policies: Counter[str] = Counter()
    otherwise: Counter[str] = Counter()
    alike: tuple[tuple[str, str], ...] = ()
    passed_over: int = 0

    def plus(self, more: "Single") -> "Single":
        """Returns what both found."""
        return Single(
            self.policies + more.policies,
            self.otherwise + more.otherwise,
            self.alike + more.alike,
            self.passed_over + more.passed_over,
        )


class Measure:
    """Measures in a folder."""

    def __init__(self, programs: Programs, folder: str, is_lower: bool = False) -> None:
        self.asker = Asker(programs.audit, programs.peer, folder, is_lower)
        self.is_lower = is_lower
        self.reviewer = Reviewer(programs.review, self.asker)
        self.search = Search(self.asker)

    def cautions(self, case: Case) -> set[str]:
        """Returns the classes of the cautions on a policy; of one that is refused there are none."""
        self.asker.write(case)
        return {caution.name for caution in self.reviewer.cautions() or ()}

    def asked(self, case: Case) -> Both:
        """Returns the answers to a case, the peer's under the lines that it reads."""
        assert case.request is not None
        self.asker.write(case)
        here = self.asker.audit([case.request])
        if here is None:
            return Both(REFUSED, REFUSED)
        return Both(alike(here[0]), alike(self.asker.peer_answer(case, case.request).answer))

    def plain(self, seed: str, forms: bool = False) -> Plain:
        """Compares verdicts under a policy, with forms that sudo_review alone reads or without, if it has no cautions.

        Those that depend on what is not judged are counted alone."""
        case, requests = drawn_policy(seed, REQUESTS_A_POLICY)
        if forms:
            case = case._replace(text=with_forms(case.text, random.Random(seed)))
        self.asker.write(case)
        cautions = self.reviewer.cautions()
        if cautions is None or any(caution.name != DEPENDS for caution in cautions):
            return Plain(policies=0 if cautions is None else 1)
        here = (self.asker.report(self.reviewer.program, requests) if forms else self.asker.audit(requests)) or ()
        verdicts: Counter[str] = Counter()
        differing: Counter[str] = Counter()
        depending: Counter[str] = Counter()
        found: list[tuple[str, Difference]] = []
        for asked, one in zip(requests, here):
            told = case._replace(request=asked)
            there = self.asker.peer_answer(case, asked)
            if not there.is_whole:
                return Plain(policies=1, without=1, unread=1)
            name, both = unmet(told), Both(alike(one), alike(there.answer))
            if one.depends:
                depending[one.depends] += 1
                continue
            verdicts[name] += 1
            if both.differ():
                differing[name] += 1
                found += [] if name else [("", Difference(seed, told, both)) if forms else self._unnamed(seed, told, both)]
        return Plain(1, 1, 0, verdicts, differing, tuple(found), depending)

    def _unnamed(self, seed: str, case: Case, both: Both) -> tuple[str, Difference]:
        """Returns a difference that no caution names, with the row of the profile that explains it if one does."""
        row = self.search.row(case)
        small = self.search.small(case, both, row)
        return row.cell if row else "", Difference(seed, small, self.search.asked(small))

    def sampled(self, seed: str) -> Sampled:
        """Looks for a difference under a policy with cautions, and for a caution that explains it."""
        case, requests = drawn_policy(seed, REQUESTS_A_POLICY)
        self.asker.write(case)
        here = self.asker.audit(requests) if self.reviewer.cautions() else None
        for asked, one in zip(requests, here or ()):
            told = case._replace(request=asked)
            if unmet(told):
                continue
            both = Both(alike(one), alike(self.asker.peer_answer(case, asked).answer))
            if both.differ():
                return self.explained(seed, told, both)
        return Sampled()

    def explained(self, seed: str, case: Case, both: Both) -> Sampled:
        """Returns which classes explain a difference: taken out of a small policy, they take it away."""
        small = self._small(case, both)
        named = self.cautions(small)
        explained = [name for name in named if self._goes(small, name)]
        if explained:
            return Sampled(1, explained=Counter(explained))
        several = self._several(small, sorted(named))
        if several:
            return Sampled(1, together=Counter([several]))
        if not self._is_read(small):
            return Sampled(1, unread=1)
        left = Difference(seed, small, self.asked(small))
        return Sampled(1, left=((", ".join(sorted(named)), left),))

    def _small(self, case: Case, both: Both) -> Case:
        """Returns a case with few entries and members that differs in the same way."""

        def differs(tried: Case) -> bool:
            found = self.asked(tried)
            return found.differ() and [answer.verdict for answer in found] == [answer.verdict for answer in both]

        return Shrinker(differs, ENTRIES_AND_MEMBERS).shrunk(case)

    def _goes(self, case: Case, name: str) -> bool:
        """Returns whether the difference of a case goes with the construct of a class."""
        for changed in WAYS[name](case):
            if changed == case:
                continue
            both = self.asked(changed)
            if REFUSED not in both and not both.differ() and name not in self.cautions(changed):
                return True
        return False

    def _several(self, case: Case, named: Sequence[str]) -> int:
        """Returns how many classes the difference of a case goes with: two or three, or 0 if it goes with no so few."""
        found = (count for count in (2, 3) if any(self._go(case, names) for names in itertools.permutations(named, count)))
        return next(found, 0)

    def _go(self, case: Case, names: Sequence[str]) -> bool:
        """Returns whether the difference of a case goes with the constructs of these classes, taken out one after the other."""
        name, *rest = names
        if not rest:
            return self._goes(case, name)
        changes = (changed for changed in WAYS[name](case) if changed != case)
        return any(self._go(changed, rest) for changed in changes if name not in self.cautions(changed))

    def singles(self, draw: Draw, enough: frozenset[str]) -> list[tuple[Caution, Case]]:
        """Returns policies with one caution, for each of those of a drawn one whose class has not enough."""
        case = Case(draw.text(), draw.files())
        self.asker.write(case)
        cautions = self.reviewer.cautions() or ()
        wanted = [(caution, alone_with(case, caution, cautions)) for caution in cautions if caution.label() not in enough]
        return [(caution, one) for caution, one in wanted if one is not None and self._labels(one) == [caution.label()]]

    def _labels(self, case: Case) -> list[str]:
        """Returns the labels of the cautions on a policy."""
        self.asker.write(case)
        return [caution.label() for caution in self.reviewer.cautions() or ()]

    def otherwise(self, case: Case, caution: Caution, draw: Draw, seed: str) -> Single:
        """Looks for a request that sudo judges otherwise, under a policy with one caution."""
        self.asker.write(case)
        requests = requests_for(draw, case, seed, world.users(self.is_lower))
        told = [one for one in requests if not unmet(case._replace(request=one))]
        here = self.asker.audit(told)
        if here is None:
            return Single()
        label = caution.label()
        for at in self._promising(case, caution.name, told, here):
            if self._is_otherwise(case._replace(request=told[at]), here[at], caution.name):
                return Single(Counter([label]), Counter([label]))
        # Where sudo skips a line for another reason, nothing is said of the class.
        if not any(self._is_read(one._replace(request=told[0])) for one in (case, *WAYS[caution.name](case))):
            return Single()
        return Single(Counter([label]), Counter(), ((label, case.text),))

    def _is_read(self, case: Case) -> bool:
        """Returns whether sudo reads the whole policy of a case."""
        assert case.request is not None
        self.asker.write(case)
        return self.asker.peer_answer(case, case.request).is_whole

    def _promising(self, case: Case, name: str, told: list[Request], here: list[Answer]) -> Iterator[int]:
        """Yields the numbers of requests that sudo may judge otherwise.

        First come those that the construct of the class decides, some for each way of taking it out, then some by chance."""
        for changed in WAYS[name](case):
            self.asker.write(changed)
            others = self.asker.audit(told) if changed != case else None
            decided = [at for at, (one, other) in enumerate(zip(here, others or ())) if alike(one) != alike(other)]
            yield from _spread(decided, MOST_ASKED)
        yield from _spread(range(len(told)), BY_CHANCE)

    def aimed(self, name: str, seed: str) -> Single:
        """Looks for a request that sudo judges otherwise, under a policy with one construct of a class."""
        case, requests = drawn(name, seed)
        self.asker.write(case)
        if [caution.name for caution in self.reviewer.cautions() or ()] != [name]:
            return Single(passed_over=1)
        told = [one for one in requests if not unmet(case._replace(request=one))]
        here = self.asker.audit(told) or ()
        there = (self.asker.peer_answer(case, asked).answer for asked in told)
        found = any(alike(one) != alike(other) for one, other in zip(here, there))
        alike_here = () if found else ((name, case.text),)
        return Single(Counter([name]), Counter([name] if found else []), alike_here)

    def _is_otherwise(self, case: Case, here: Answer, name: str) -> bool:
        """Returns whether sudo judges a request otherwise, and by the construct of the class."""
        assert case.request is not None
        self.asker.write(case)
        there = self.asker.peer_answer(case, case.request).answer
        return alike(here) != alike(there) and self._goes(case, name)


def _spread(numbers: Sequence[int], most: int) -> list[int]:
    """Returns at most so many of some numbers, from all parts of them."""
    step = max(1, -(-len(numbers) // most))
    return list(numbers[::step])


def _plain(programs: Programs, verdicts: int, forms: bool, seed: str) -> Plain:
    """Compares at least so many verdicts under policies without cautions."""
    with tempfile.TemporaryDirectory(prefix="differential-", dir=memory()) as folder:
        measure, total = Measure(programs, folder), Plain()
        for number in itertools.count():
            total = total.plus(measure.plain(f"{seed}.{number}", forms))
            if total.verdicts[""] >= verdicts:
                break
        return total


def _sampled(programs: Programs, policies: int, seed: str) -> Sampled:
    """Explains the differences of so many policies with cautions."""
    with tempfile.TemporaryDirectory(prefix="differential-", dir=memory()) as folder:
        measure, total = Measure(programs, folder), Sampled()
        for number in itertools.count():
            total = total.plus(measure.sampled(f"{seed}.{number}"))
            if total.policies >= policies:
                break
        return total


def _single(programs: Programs, enough: frozenset[str], draws: int, seed: str) -> Single:
    """Tries policies with one caution of so many draws, of classes that have not enough."""
    total = Single()
    with tempfile.TemporaryDirectory(prefix="differential-", dir=memory()) as folder:
        folders = [os.path.join(folder, name) for name in ("as-drawn", "lower")]
        for name in folders:
            os.mkdir(name)
        measures = [Measure(programs, name, bool(number)) for number, name in enumerate(folders)]
        for number in range(draws):
            drawn = f"{seed}.{number}"
            draw = Draw(drawn, 3)
            for caution, case in measures[0].singles(draw, enough):
                measure = measures[caution.name == OF_LETTERS]
                total = total.plus(measure.otherwise(case, caution, draw, drawn))
    return total


def _aimed(programs: Programs, policies: int, seed: str, name: str) -> Single:
    """Tries so many policies with one construct of a class, and at most four times as many draws."""
    total = Single()
    with tempfile.TemporaryDirectory(prefix="differential-", dir=memory()) as folder:
        measure = Measure(programs, folder, name == OF_LETTERS)
        for number in range(4 * policies):
            total = total.plus(measure.aimed(name, f"{seed}.{number}"))
            if total.policies[name] >= policies:
                break
    return total


def plain(pool: ProcessPoolExecutor, programs: Programs, verdicts: int, seed: int, forms: bool = False) -> Iterator[Plain]:
    """Yields what is found of policies without cautions, for at least so many verdicts."""
    each = min(verdicts, VERDICTS_A_TASK)
    seeds = [f"{seed}.v{number}" for number in range(-(-verdicts // max(1, each)))]
    yield from pool.map(partial(_plain, programs, each, forms), seeds)


def sampled(pool: ProcessPoolExecutor, programs: Programs, policies: int, seed: int) -> Iterator[Sampled]:
    """Yields what is found of policies with a difference, for at least so many."""
    each = min(policies, SAMPLE_A_TASK)
    seeds = [f"{seed}.s{number}" for number in range(-(-policies // max(1, each)))]
    yield from pool.map(partial(_sampled, programs, each), seeds)


def single(pool: ProcessPoolExecutor, programs: Programs, each: int, draws: int, seed: int) -> Iterator[Single]:
    """Yields what is found of policies with one caution: at least so many of each class, or as many as the draws give."""
    counted: Counter[str] = Counter()
    a_task = min(draws, DRAWS_A_TASK)
    wave = a_task * TASKS_A_WAVE
    for first in range(0, draws, max(1, wave)):
        enough = frozenset(label for label, policies in counted.items() if policies >= each)
        seeds = [f"{seed}.o{first + number}" for number in range(0, min(wave, draws - first), a_task)]
        for found in pool.map(partial(_single, programs, enough, a_task), seeds):
            counted += found.policies
            yield found


def aimed(pool: ProcessPoolExecutor, programs: Programs, each: int, seed: int) -> Iterator[Single]:
    """Yields what is found of policies with one construct of a class, so many of each class."""
    parts = [min(AIMED_A_TASK, each - first) for first in range(0, each, AIMED_A_TASK)]
    tasks = [(part, f"{seed}.a{number}", name) for name in DRAWN for number, part in enumerate(parts)]
    yield from pool.map(partial(_aimed, programs), *zip(*tasks)) if tasks else ()
