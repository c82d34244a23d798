"""Runs of the program over random cases, with several numbers of workers and limits of memory, until one goes wrong."""

import os
import resource
import shutil
import signal
import subprocess
import tempfile
import time
from collections import Counter
from collections.abc import Iterator, Sequence
from typing import NamedTuple

from kulavemia import limits
from kulavemia.command import PROGRAM, Fault
from kulavemia.progress import Progress
from soaking.case import HOSTS, POLICY, USERS, write

DONE, REFUSED_POLICY, FAILED = 0, 1, 4
WORKERS = range(1, limits.WORKERS + 1)
AUDITS = 3
MOST_MEMORY = 1 << 30
ROOM_FOR_WORDS = 1 << 20


class Question(NamedTuple):
    """Words of the command line, which are asked several times, and whether a number of workers may follow them."""

    name: str
    words: Sequence[str]
    has_workers: bool


class Run(NamedTuple):
    """A run: a question, how many workers it has where it may, and its limit of memory in bytes where it has one."""

    question: Question
    workers: int | None
    memory: int | None

    def words(self) -> list[str]:
        """Returns the words of the command line behind the program."""
        return [*self.question.words, *(["--workers", str(self.workers)] if self.workers else [])]

    def told(self) -> str:
        """Returns how the run is called."""
        workers = f" with {self.workers} workers" if self.workers else ""
        memory = f" and {self.memory} bytes of memory" if self.memory else ""
        return f"{self.question.name}{workers}{memory}"


class Ended(NamedTuple):
    """How a run ended: its status, negative by a signal and `None` at the time limit, and what it wrote."""

    status: int | None
    out: bytes
    err: bytes


class Wrong(Exception):
    """A run that went wrong, and how it ended."""

    def __init__(self, text: str, run: Run, ended: Ended) -> None:
        super().__init__(text)
        self.run = run
        self.ended = ended


def ended(program: str, run: Run, folder: str, seconds: float) -> Ended:
    """Runs the program in a folder, and returns how it ended."""

    def limit() -> None:
        resource.setrlimit(resource.RLIMIT_CORE, (0, 0))
        if run.memory:
            resource.setrlimit(resource.RLIMIT_AS, (run.memory, run.memory))

    try:
        done = subprocess.run(
            [program, *run.words()],
            cwd=folder,
            stdin=subprocess.DEVNULL,
            capture_output=True,
            timeout=seconds,
            preexec_fn=limit,
            check=False,
        )
    except subprocess.TimeoutExpired as expired:
        return Ended(None, expired.stdout or b"", expired.stderr or b"")
    return Ended(done.returncode, done.stdout, done.stderr)


def fault_of(ended: Ended, seconds: float) -> str:
    """Returns what is wrong with the end of a run by itself, empty if nothing is."""
    if ended.status is None:
        return f"no end within {seconds:g} s"
    if ended.status < 0:
        return f"ended by {signal.Signals(-ended.status).name}"
    return f"ended with status {ended.status}" if ended.status > FAILED else ""


def difference(first: Ended, second: Ended) -> str:
    """Returns how two runs of one question differ that both ended without status 4, empty if they do not."""
    if FAILED in (first.status, second.status):
        return ""
    if first.status != second.status:
        return f"ended with status {second.status}, and before with {first.status}"
    same = first.out == second.out or first.status not in (DONE, REFUSED_POLICY)
    return "" if same else "printed something else than before"


def least_memory(program: str, seconds: float) -> int | None:
    """Returns a limit of memory under which the program starts, with room for words; `None` if none is found."""
    low, high = 0, MOST_MEMORY
    question = Question("help", ["--help"], False)
    if ended(program, Run(question, None, None), "/", seconds).status != DONE:
        raise Fault(f"{program} --help does not end with status 0", PROGRAM)
    if ended(program, Run(question, None, high), "/", seconds).status != DONE:
        return None
    while high - low > 1 << 18:
        middle = (low + high) // 2
        if ended(program, Run(question, None, middle), "/", seconds).status == DONE:
            high = middle
        else:
            low = middle
    return high + ROOM_FOR_WORDS


class Soak:
    """Makes cases and runs, and counts how they end."""

    def __init__(self, program: str, seconds: float) -> None:
        self.program = program
        self.seconds = seconds
        self.memory = least_memory(program, seconds)
        self.rounds = 0
        self.compared = 0
        self.statuses: Counter[int] = Counter()

    def round(self, seed: int, keep: str) -> str:
        """Runs a case. Returns what went wrong, with the inputs in a folder `keep`; empty if nothing did."""
        folder = tempfile.mkdtemp(prefix="soak-")
        try:
            for question, runs in self._asked(seed, folder):
                self._same(question, runs, folder)
        except Wrong as wrong:
            shutil.copytree(folder, keep)
            self._tell(wrong, keep)
            return f"{wrong.run.told()}: {wrong}"
        finally:
            shutil.rmtree(folder)
        self.rounds += 1
        return ""

    def _asked(self, seed: int, folder: str) -> Iterator[tuple[Question, list[Run]]]:
        """Yields what is asked of a case, and the runs of each question. The first of them has no limit of memory."""
        case, sources = write(seed, folder)
        kind, name = case.alias()
        for question in (
            Question("check", ["check", POLICY], False),
            Question("expand", ["expand", POLICY, kind, name], False),
            Question("audit", ["audit", POLICY, "--users", USERS, "--hosts", HOSTS, *sources], True),
        ):
            counts: list[int | None] = [None, None]
            if question.has_workers:
                counts = [*case.random.sample(WORKERS, AUDITS)]
            runs = [Run(question, count, self._limit(case.random.uniform(-1, 6))) for count in counts]
            yield question, [runs[0]._replace(memory=None), *runs[1:]]

    def _limit(self, power: float) -> int | None:
        """Returns the least limit of memory, doubled `power` times; `None` if there is none, or the power is below 0."""
        return int(self.memory * 2**power) if self.memory and power >= 0 else None

    def _same(self, question: Question, runs: Sequence[Run], folder: str) -> None:
        """Runs all, and raises `Wrong` at the first that goes wrong."""
        answer: Ended | None = None
        for run in runs:
            found = ended(self.program, run, folder, self.seconds)
            text = fault_of(found, self.seconds) or (difference(answer, found) if answer else "")
            if text:
                raise Wrong(text, run, found)
            self.statuses[found.status or DONE] += 1
            self.compared += answer is not None and found.status != FAILED
            if answer is None and found.status != FAILED:
                answer = found

    def _tell(self, wrong: Wrong, keep: str) -> None:
        """Writes what the run printed, and how to run it again, beside its inputs."""
        limit = f"prlimit --as={wrong.run.memory} " if wrong.run.memory else ""
        said = f"# {wrong.run.told()}: {wrong}\n{limit}{' '.join([self.program, *wrong.run.words()])}\n"
        for name, data in (("again", said.encode()), ("out", wrong.ended.out), ("err", wrong.ended.err)):
            with open(os.path.join(keep, name), "wb") as file:
                file.write(data)

    def told(self) -> str:
        """Returns how much was run, in a line."""
        statuses = ", ".join(f"{count} with status {status}" for status, count in sorted(self.statuses.items()))
        runs = f"{sum(self.statuses.values())} runs: {statuses or 'none'}"
        return f"{self.rounds} cases; {runs}; {self.compared} compared"


def run_for(soak: Soak, seconds: float, seed: int, keep: str) -> str:
    """Runs cases with rising seeds for a time, at least one. Returns what went wrong, empty if nothing did."""
    start = time.monotonic()
    with Progress("soaking", max(1, int(seconds))) as progress:
        while True:
            found = soak.round(seed, keep)
            done = time.monotonic() - start
            if found or done >= seconds:
                return f"seed {seed}: {found}" if found else ""
            progress.at(int(done))
            seed += 1
