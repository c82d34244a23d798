"""The second program, sudo_review: its tables on a policy, as files that people open.

A folder of a review has cautions.csv, grants.csv, roots.csv and subjects.csv, with foreign text as it is shown.
"""

import contextlib
import os
import re
import subprocess
from collections import Counter
from collections.abc import Iterable, Iterator, Mapping, Sequence
from typing import BinaryIO, NamedTuple

from kulavemia import foreign, outputs
from kulavemia.command import DONE, PROGRAM, Fault, as_word
from kulavemia.policy import files_of
from kulavemia.program import Policy, Rows, named_by, said_by, want_plain, want_written
from kulavemia.requests import Source, batches, number_of
from kulavemia.rows import header_of, open_write, read_open
from kulavemia.rules import shown_line
from kulavemia.shown import Form, shown_records

CAUTIONS = "cautions"
GRANTS = "grants"
ROOTS = "roots"
SUBJECTS = "subjects"
RULES = "rules"
COMPARE = "compare"
HEADERS: Mapping[str, Sequence[str]] = {
    CAUTIONS: ("place", "class", "text", "line"),
    GRANTS: ("place", "users", "hosts", "runas", "sign", "command", "tags", "depends"),
    ROOTS: ("user", "host", "target", "level", "password", "place", "tags", "via", "depends"),
    SUBJECTS: ("place", "kind", "name", "what"),
    RULES: ("place", "commands", "allowed", "denied", "depends"),
    COMPARE: (
        "users",
        "hosts",
        "runas_user",
        "runas_group",
        "answer",
        "command",
        "arguments",
        "old",
        "old_place",
        "old_tags",
        "new",
        "new_place",
        "new_tags",
        "depends",
    ),
}
# The words of the command line behind the name of a table, and its statuses where it was printed whole.
_WORDS: Mapping[str, Sequence[str]] = {ROOTS: ["--all"]}
_FOUND = 5
_STATUSES: Mapping[str, Sequence[int]] = {name: (DONE, _FOUND) for name in (CAUTIONS, SUBJECTS, COMPARE)}
_CAUTION = r"({}):([0-9]+): caution: ([a-z-]+): ([^\n]*)\n"
_COUNT = re.compile(r"cautions: ([0-9]+)\n")
# One caution of this class stands for a whole policy, at whichever line is the first.
_OF_POLICY = "linked"


class Caution(NamedTuple):
    """A construct of a policy that sudo reads or judges otherwise: its place and class, the program's text, and the line."""

    place: str
    kind: str
    text: str
    line: str = ""


class Counted(NamedTuple):
    """The row of a rule behind its place: its commands, the requests that it allowed and denied, and what it depends on."""

    commands: int
    allowed: int
    denied: int
    depends: str


class Asked(NamedTuple):
    """The second program, and the policy that it is asked about."""

    program: str
    policy: Policy
    form: Form = Form()

    def write(self, folder: str) -> dict[str, int]:
        """Writes all tables but that of the rules into a folder, and returns how many rows each has."""
        outputs.folder(folder)
        cautions = self.cautions()
        with open_write(table_of(folder, CAUTIONS)) as file:
            file.write(self.form.head(HEADERS[CAUTIONS]))
            file.writelines(map(self.form.row, cautions))
        counts = {CAUTIONS: len(cautions)}
        for name in (GRANTS, ROOTS, SUBJECTS):
            counts[name] = self._write(name, table_of(folder, name))
        return counts

    def cautions(self) -> list[Caution]:
        """Returns the cautions on the policy, in the program's order."""
        with self._printed(CAUTIONS, ["--", self.policy.file]) as part:
            files = files_of(self.policy.file, self.policy.hostname)
            found = cautions_of(part.read().decode("utf-8", "surrogateescape"), list(files), self.program)
        lines = {f"{path}:{line.number}": shown_line(line) for path, lines in files.items() for line in lines}
        root = self.policy.root
        return [
            caution._replace(place=caution.place.removeprefix(root), line=without(root, lines.get(caution.place, "")))
            for caution in found
        ]

    def rules(self, sources: Sequence[Source], out: str, workers: int) -> None:
        """Writes how many requests each rule allowed and denied, in runs that the program takes."""
        counts: dict[str, Counted] = {}
        for batch in batches(sources):
            named = [f"{source.sender}={source.file}" for source in batch]
            words = [*self._directory(), "--workers", str(workers), "--", self.policy.file, *named]
            with self._printed(RULES, words) as part:
                for line, (place, *numbers, depends) in read_open(part, self.program, HEADERS[RULES]):
                    commands, allowed, denied = (number_of(self.program, line, number) for number in numbers)
                    before = counts.get(place, Counted(0, 0, 0, ""))
                    counts[place] = Counted(commands, before.allowed + allowed, before.denied + denied, depends)
        with open_write(out) as file:
            file.write(self.form.head(HEADERS[RULES]))
            for place, found in counts.items():
                file.write(self.form.row([place.removeprefix(self.policy.root), *map(str, found)]))

    def compared(self, old: "Asked", limit: float) -> Iterator[list[str]]:
        """Yields the rows of what the policy changes since another one, for every command.

        Raises `subprocess.TimeoutExpired` if the program needs more seconds than the limit, and `Fault` if it refuses.
        """
        words = [*self._directory(), "--", old.policy.file, self.policy.file]
        want_plain(old.policy.file, foreign.POLICY_CAP)
        with self._printed(COMPARE, words, limit) as part:
            for _, fields in read_open(part, self.program, HEADERS[COMPARE]):
                yield fields

    def _directory(self) -> list[str]:
        return ["--users", as_word(self.policy.users), "--hosts", as_word(self.policy.hosts)]

    def _write(self, name: str, path: str) -> int:
        """Writes a table as the program prints it, and returns how many rows it has."""
        words = [*self._directory(), *_WORDS.get(name, ()), "--", self.policy.file]
        with self._printed(name, words) as part, outputs.written(path) as file:
            file.write(self.form.head(HEADERS[name]).encode())
            rows = Rows(file, self.form, self.policy.root, header=HEADERS[name])
            rows.copy(part, self.program)
        return rows.count

    @contextlib.contextmanager
    def _printed(self, name: str, words: Sequence[str], limit: float | None = None) -> Iterator[BinaryIO]:
        """Yields what a command of the program prints. Raises `Fault` if it refuses, and `TimeoutExpired` beyond a limit."""
        self.policy.want_plain()
        with outputs.scratch() as part:
            line = [self.program, name, *self.policy.words(), *words]
            quiet = subprocess.DEVNULL
            done = subprocess.run(line, stdin=quiet, stdout=part, stderr=subprocess.PIPE, check=False, timeout=limit)
            part.seek(0)
            want_written(done)
            if done.returncode not in _STATUSES.get(name, (DONE,)):
                raise named_by(said_by(self.program, done, part.read(), self.policy.root), self.policy)
            yield part


def cautions_of(text: str, paths: Sequence[str], program: str) -> list[Caution]:
    """Returns the cautions that a text lists. A path may have any text, so lines are told by the paths of the policy."""
    longest = sorted(paths, key=len, reverse=True)
    caution = re.compile(_CAUTION.format("|".join(map(re.escape, longest))))
    found, at = [], 0
    while match := caution.match(text, at):
        found.append(Caution(f"{match[1]}:{match[2]}", match[3], match[4]))
        at = match.end()
    count = _COUNT.fullmatch(text, at)
    if count is None or int(count[1]) != len(found):
        raise Fault(f"{program}: its cautions cannot be read: {text[at:][:200]}", PROGRAM)
    return found


def only_in(these: Iterable[Caution], others: Iterable[Caution]) -> list[Caution]:
    """Returns those of some cautions whose construct is not among that of others, wherever it stands."""
    left = Counter(map(_construct, others))
    found = []
    for caution in these:
        if left[_construct(caution)]:
            left[_construct(caution)] -= 1
        else:
            found.append(caution)
    return found


def _construct(caution: Caution) -> Caution:
    return caution._replace(place="", line="" if caution.kind == _OF_POLICY else caution.line)


def unlike(old: Asked, new: Asked) -> list[str]:
    """Returns lines on the cautions that only one of two policies has."""
    before, now = old.cautions(), new.cautions()
    come = [f"{caution.place}: {caution.kind}: {caution.text}" for caution in only_in(now, before)]
    gone = [f"{caution.place}: {caution.kind}: {caution.text}, in the policy before" for caution in only_in(before, now)]
    return come + gone


def without(root: str, text: str) -> str:
    """Returns a text without a root folder, where there is one."""
    return text.replace(root, "") if root else text


def table_of(folder: str, name: str) -> str:
    """Returns the path of a table in a folder of a review."""
    return os.path.join(folder, f"{name}.csv")


def rows_of(folder: str, name: str) -> Iterator[list[str]]:
    """Yields the rows of a table in a folder of a review."""
    for _, fields in shown_records(table_of(folder, name), HEADERS[name]):
        yield fields


def rules_of(folder: str) -> Iterator[tuple[str, Counted]]:
    """Yields the places of the rules in a folder of requests with their counts; earlier tables have no column `depends`."""
    path = table_of(folder, RULES)
    *earlier, last = HEADERS[RULES]
    is_earlier = header_of(path) == earlier
    for line, (place, *numbers) in shown_records(path, earlier if is_earlier else [*earlier, last]):
        depends = "" if is_earlier else numbers.pop()
        commands, allowed, denied = (number_of(path, line, number) for number in numbers)
        yield place, Counted(commands, allowed, denied, depends)
