"""What the prover says of wrong bodies.

Those of a crate are tried together: one check of a copy of the crate that has them, and nothing else but contracts. That it
refuses a function counts where it proves the same function over the same contracts as it stands, and names a line of the
function at which something is not proved. Any other wrong body is tried by a check of the whole crate with it alone, as
`rt must-fail` would: one that turns no named function, or that the first check does not refuse so.
"""

import copy
import importlib.machinery
import importlib.util
import os
import re
import shutil
import signal
import sys
import tempfile
from collections.abc import Iterable, Iterator
from concurrent.futures import Future, ThreadPoolExecutor
from types import ModuleType
from typing import Any, NamedTuple

from wrong.functions import Function, functions_of, lines_of, take_out, text_of

JOBS = ["--jobs", "1"]
HOLES = re.compile(r"no holes|depends on a hole in ")
UNPROVED = re.compile(r"not proved|no proof")
NOTE = re.compile(r"(?:note: )?(?:\./)?(src/\S+\.rt):([0-9]+):[0-9]+: it is not proved ")
# An error in the proof of a function. The folder of one that calls itself has a plus before its name; that of a cycle of calls
# has the cycle's name, and its goals begin with those of its functions.
ERROR = re.compile(r"\./proofs/(\S*/)?(\+?)(\w+)/(?:Answers|Invariants)\.antt:[0-9]+:[0-9]+: error: (?:`(\w+)-)?")
# An error that says little of a contract: a proof names what a wrong body took away.
NAMING = re.compile(r"has no field|is not in scope|has no `|was not admitted")
WORD = re.compile(r"\w+")
SHOWN = 160


class Edit(NamedTuple):
    """A wrong body: its file, and the functions whose bodies it turns, none unless all that it turns lies in some."""

    path: str
    functions: tuple[Function, ...]


class Verdict(NamedTuple):
    """What a wrong body came to, whether it is refused, and whether a check of the whole crate said so."""

    path: str
    is_refused: bool
    text: str
    is_whole: bool


def load_rt(path: str) -> ModuleType:
    """Returns the module that the command `rt` is, since its checks are to be those of the gate."""
    loader = importlib.machinery.SourceFileLoader("rt", os.path.realpath(path))
    spec = importlib.util.spec_from_loader("rt", loader)
    assert spec is not None
    module = importlib.util.module_from_spec(spec)
    sys.dont_write_bytecode = True
    loader.exec_module(module)
    # The first call sets the handler of a signal, which the main thread alone may.
    module.rtlib.guarded()
    return module


def turned_by(path: str, folder: str) -> tuple[Function, ...]:
    """Returns the functions of a crate whose bodies an edit turns, none where a place of it lies elsewhere."""
    functions = [it for it in functions_of(folder) if it.name]
    found: dict[str, Function] = {}
    file = ""
    with open(path, encoding="utf-8") as it:
        lines = it.read().split("\n")
    for line in lines:
        head, _, text = line.partition(": ")
        if head == "file":
            file = text.strip()
        elif head == "old":
            source = text_of(folder, file) if os.path.isfile(os.path.join(folder, file)) else ""
            at = source.find(text)
            around = [it for it in functions if it.file == file and it.body <= at and at + len(text) <= it.end]
            if not around:
                return ()
            found[str(around[0].name)] = around[0]
    return tuple(found.values())


def words_of(folder: str, edit: Edit) -> set[str]:
    """Returns the words in the bodies of the functions that an edit turns."""
    return {word for it in edit.functions for word in WORD.findall(text_of(folder, it.file)[it.body : it.end])}


def names_of(edits: Iterable[Edit]) -> set[str]:
    """Returns the names of the functions that edits turn."""
    return {str(function.name) for edit in edits for function in edit.functions}


def groups_of(folder: str, edits: list[Edit]) -> list[list[Edit]]:
    """Returns edits in groups that one copy can have: no function is turned by two, and none calls another one that is, since
    nothing is said of a function that calls what is refused."""
    groups: list[list[Edit]] = []
    for edit in edits:
        own, words = names_of([edit]), words_of(folder, edit)
        for group in groups:
            others = names_of(group)
            called = {name.rpartition("::")[2] for name in others} & words
            calling = {name.rpartition("::")[2] for name in own} & {word for it in group for word in words_of(folder, it)}
            if not (own & others or called or calling):
                group.append(edit)
                break
        else:
            groups.append([edit])
    return groups


def is_in_proof(error: re.Match[str], name: str) -> bool:
    """Returns whether an error is one in the proof of a function."""
    *module, own = name.split("::")
    folder, plus, last, goal = error.groups(default="")
    return folder == "".join(f"{part}/" for part in module) and (last == own or plus == "+" and goal == own)


class Checked(NamedTuple):
    """The lines of a check of a copy, and the lines of each of its functions."""

    said: list[str]
    places: dict[str, tuple[str, range]]

    def of(self, name: str) -> str:
        """Returns what the check says of a function."""
        head = f"{name}: "
        return next((line.removeprefix(head) for line in self.said if line.startswith(head)), "")

    def refusal(self, crate: str, name: str) -> str | None:
        """Returns the line by which the check refuses a function, if there is one at its text or in its proof."""
        if not UNPROVED.match(self.of(f"fn {crate}::{name}")) or name not in self.places:
            return None
        file, lines = self.places[name]
        for line in self.said:
            if (match := NOTE.match(line)) and match[1] == file and int(match[2]) in lines:
                return line
            if (match := ERROR.match(line)) and is_in_proof(match, name) and not NAMING.search(line):
                return line
        return None


def check_of(rt: Any, crate: Any, names: set[str], edits: list[Edit]) -> Checked:
    """Checks the functions of these names in a copy of a crate that has the edits, and no other function."""
    with tempfile.TemporaryDirectory(prefix="wrong-bodies-") as room:
        for part in rt.rtlib.PARTS:
            if os.path.isdir(os.path.join(crate.folder, part)):
                shutil.copytree(os.path.join(crate.folder, part), os.path.join(room, part))
        for edit in edits:
            # (one that cannot be put beside the others is proved here, and then tried alone)
            for file, text in (rt.read_edit(edit.path, room)[0] or {}).items():
                with open(os.path.join(room, file), "w", encoding="utf-8") as it:
                    it.write(text)
        take_out(room, crate.name, names)
        places = {str(it.name): (it.file, lines_of(room, it)) for it in functions_of(room)}
        lone = copy.copy(crate)
        lone.folder = room
        flags = [*JOBS, "--allow-holes", *(word for name in sorted(names) for word in ("--only", name))]
        ran = rt.checked(lone, {}, flags, None)
        if ran.returncode == -signal.SIGKILL:
            # (most likely for memory)
            ran = rt.checked(lone, {}, flags, None)
        return Checked(ran.stdout.split("\n"), places)


class Trial:
    """The trial of the wrong bodies of a crate."""

    def __init__(self, rt: Any, crate: Any, paths: Iterable[str], pool: ThreadPoolExecutor) -> None:
        self.rt, self.crate, self.pool = rt, crate, pool
        edits = [Edit(path, turned_by(path, crate.folder)) for path in paths]
        grouped = [edit for edit in edits if edit.functions]
        self.whole = [self._try_whole(edit) for edit in edits if not edit.functions]
        self.proved = pool.submit(check_of, rt, crate, names_of(grouped), []) if grouped else None
        self.groups = [
            (group, pool.submit(check_of, rt, crate, names_of(group), group)) for group in groups_of(crate.folder, grouped)
        ]

    def _try_whole(self, edit: Edit) -> Future[Verdict]:
        """Begins to try an edit by a check of the whole crate."""
        return self.pool.submit(self._whole, edit)

    def _whole(self, edit: Edit) -> Verdict:
        """Tries an edit by a check of the whole crate."""
        kind, text = self.rt.must_fail(self.crate, edit.path, JOBS)
        return Verdict(edit.path, kind == self.rt.REFUSED, text, True)

    def together(self) -> Iterator[Verdict]:
        """Yields the verdicts on wrong bodies that were tried together, and begins to try the others alone."""
        for group, future in self.groups:
            assert self.proved is not None
            stands, turned = self.proved.result(), future.result()
            for edit in group:
                names = names_of([edit])
                are_sound = all(HOLES.match(stands.of(f"fn {self.crate.name}::{name}")) for name in names)
                lines = [line for name in sorted(names) if (line := turned.refusal(self.crate.name, name))]
                if are_sound and lines:
                    label = f"must-fail {self.crate.name}/{os.path.basename(edit.path)}"
                    yield Verdict(edit.path, True, f"{label}: refused, as it must be: {lines[0][:SHOWN]}", False)
                else:
                    self.whole.append(self._try_whole(edit))

    def alone(self) -> Iterator[Verdict]:
        """Yields the verdicts on the others, once `together` has ended."""
        for future in self.whole:
            yield future.result()


def verdicts(rt: Any, crates: Iterable[tuple[Any, list[str]]], jobs: int) -> Iterator[Verdict]:
    """Tries wrong bodies of crates, given by their paths, some at a time, and yields what each comes to."""
    with ThreadPoolExecutor(jobs) as pool:
        trials = [Trial(rt, crate, paths, pool) for crate, paths in crates]
        for trial in trials:
            yield from trial.together()
        for trial in trials:
            yield from trial.alone()
