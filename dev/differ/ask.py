"""Asks the program and the peer, and puts their answers into one form."""

import csv
import os
import re
import subprocess
from collections.abc import Sequence
from typing import NamedTuple

from differ import world
from differ.peer import INTERFACES, Peer
from differ.world import ENCODING, POLICY, Request
from kulavemia.command import PROGRAM, Fault

SENDER = "s"
SECONDS = 30
PAIRS = ("EXEC", "FOLLOW", "INTERCEPT", "LOG_INPUT", "LOG_OUTPUT", "MAIL", "PASSWD", "SETENV")
# Of the numbers that the peer prints, these two say that the tag with NO holds.
REVERSED = ("EXEC", "PASSWD")
PARSES = b"Parses OK\n"
CANNOT_READ = b"sudo_audit: cannot read "
TRIED = re.compile(rb"^\tcmnd  (allowed|denied)\n\tgrant (.*):(\d+) ([-\d ]+)$", re.MULTILINE)
UNKNOWN = re.compile(rb"unknown (user|group) ")
VERDICTS = {b"allowed": "allow", b"denied": "deny"}
NO_MATCH = "nomatch"
CONTINUED = re.compile(r"(?<!\\)(\\\\)*\\[ \t]*\r?$")
# A comment that is alone on its line is never continued.
COMMENT = re.compile(r"[ \t]*#(?!\d|include(dir)?[ \t])")


COLUMNS = ("verdict", "place", "tags", "depends")


class Answer(NamedTuple):
    """A verdict, with the place and the tags of the grant that decided, and what it depends on."""

    verdict: str
    place: str = ""
    tags: str = ""
    depends: str = ""

    def __str__(self) -> str:
        return " ".join(filter(None, self))


class Said(NamedTuple):
    """What the peer answers, and whether it reads the whole policy."""

    answer: Answer
    is_whole: bool


class Case(NamedTuple):
    """A policy, the files that it may include, and a request. Without a request the policy itself is what is asked."""

    text: str
    files: tuple[tuple[str, str], ...] = ()
    request: Request | None = None


class Asker:
    """Asks of cases in a folder."""

    def __init__(self, program: str, peer: Peer, folder: str, is_lower: bool = False) -> None:
        self.program = program
        self.peer = peer
        self.folder = folder
        self.written: tuple[str, ...] = ()
        world.write(folder, is_lower)

    def _run(
        self, words: Sequence[str], given: bytes, environment: dict[str, str]
    ) -> subprocess.CompletedProcess[bytes]:
        """Runs a process. Raises `Fault` if it does not end in time."""
        try:
            return subprocess.run(
                [word.encode(ENCODING) for word in words],
                cwd=self.folder,
                input=given,
                stdout=subprocess.PIPE,
                stderr=subprocess.STDOUT,
                env=environment,
                timeout=SECONDS,
                check=False,
                close_fds=False,
            )
        except subprocess.TimeoutExpired:
            raise Fault(f"{words[0]} did not end within {SECONDS} s; its input is {given!r}", PROGRAM) from None

    def write(self, case: Case) -> None:
        """Writes the policy and the files of a case, and removes those of the last one."""
        for name in self.written:
            os.unlink(os.path.join(self.folder, name))
        self.written = tuple(name for name, _ in case.files)
        for name, text in ((POLICY, case.text), *case.files):
            path = os.path.join(self.folder, name)
            os.makedirs(os.path.dirname(path), exist_ok=True)
            with open(path, "wb") as file:
                file.write(text.encode(ENCODING))

    def check(self) -> bool:
        """Returns whether the program reads the policy that was written and finds no error."""
        done = self._run([self.program, "check", POLICY], b"", {})
        return not self._refuses(done)

    def _refuses(self, done: subprocess.CompletedProcess[bytes]) -> bool:
        """Returns whether the program refused the policy. Raises `Fault` if it ended otherwise than it may."""
        refused = done.returncode == 1 or done.returncode == 4 and CANNOT_READ in done.stdout
        if done.returncode != 0 and not refused:
            raise _wrong(self.program, done, self._text())
        return refused

    def _text(self) -> bytes:
        with open(os.path.join(self.folder, POLICY), "rb") as file:
            return file.read()

    def peer_check(self) -> bool:
        """Returns whether visudo reads the policy that was written and finds no error."""
        done = self._run([self.peer.visudo, "-c", "-s", "-f", POLICY], b"", {"LC_ALL": "C"})
        return done.returncode == 0

    def audit(self, requests: list[Request]) -> list[Answer] | None:
        """Returns the program's answers under the policy that was written, `None` if it refuses the policy."""
        world.write_requests(self.folder, requests)
        words = [self.program, "audit", POLICY, "--users", world.USERS, "--hosts", world.HOSTS, "--workers", "1"]
        done = self._run([*words, f"{SENDER}={world.REQUESTS}"], b"", {})
        if self._refuses(done):
            return None
        body = list(csv.reader(done.stdout.decode(ENCODING).splitlines()))[1:]
        return [Answer(verdict, place, tags) for _, _, verdict, place, tags in body]

    def report(self, review: str, requests: list[Request]) -> list[Answer] | None:
        """Returns the answers of sudo_review under the policy that was written, `None` if it refuses the policy."""
        world.write_requests(self.folder, requests)
        words = [review, "report", POLICY, "--users", world.USERS, "--hosts", world.HOSTS, "--workers", "1"]
        done = self._run([*words, f"{SENDER}={world.REQUESTS}"], b"", {})
        if done.returncode == 1:
            return None
        if done.returncode != 0:
            raise _wrong(review, done, self._text())
        rows = csv.DictReader(done.stdout.decode(ENCODING).splitlines())
        # The standard error is read with the report: the line of the cautions has no verdict.
        return [Answer(*map(row.__getitem__, COLUMNS)) for row in rows if row["verdict"] is not None]

    def peer_verdict(self, case: Case, asked: Request) -> Answer | None:
        """Returns the peer's answer to a request, `None` if it does not read the whole policy."""
        said = self.peer_answer(case, asked)
        return said.answer if said.is_whole else None

    def peer_answer(self, case: Case, asked: Request) -> "Said":
        """Returns what the peer says to a request under the lines that it reads; those with faults it passes over."""
        words = [
            self.peer.testsudoers,
            "-U",
            str(os.getuid()),
            "-G",
            str(os.getgid()),
            "-p",
            world.PASSWD,
            "-P",
            world.GROUP,
        ]
        words += ["-h", asked.host]
        words += ["-u", asked.runas_user] if asked.runas_user else []
        words += ["-g", asked.runas_group] if asked.runas_group else []
        words += [asked.user, asked.command, *([asked.arguments] if asked.arguments else [])]
        given = {"LC_ALL": "C", INTERFACES: world.addresses_of(asked.host)}
        done = self._run(words, case.text.encode(ENCODING), given)
        if done.returncode < 0:
            raise _wrong(self.peer.testsudoers, done, self._text())
        unknown = UNKNOWN.search(done.stdout)
        is_whole = PARSES in done.stdout
        if unknown and not is_whole:
            return Said(Answer("unknown-" + ("target" if unknown[1] == b"user" else "group")), True)
        found = TRIED.search(done.stdout)
        if found is None:
            return Said(Answer(NO_MATCH), is_whole)
        path, line, numbers = found[2].decode(ENCODING), int(found[3]), found[4].split()
        return Said(_answer(VERDICTS[found[1]], path, line, numbers, case), is_whole)


def _wrong(program: str, done: subprocess.CompletedProcess[bytes], text: bytes) -> Fault:
    """Returns the fault of a run that ended as it must not."""
    said = done.stdout.decode(ENCODING).strip()
    return Fault(f"{program} ended with status {done.returncode}: {said}; the policy is {text!r}", PROGRAM)


def _answer(verdict: str, path: str, line: int, numbers: list[bytes], case: Case) -> Answer:
    """Returns the peer's answer in the form of the program's."""
    name = POLICY if path == "sudoers" else path.replace("//", "/")
    text = case.text if name == POLICY else dict(case.files)[os.path.normpath(name.removeprefix(f"{world.TOP}/"))]
    place = f"{name}:{first_line(text, line)}"
    if verdict != "allow":
        return Answer(verdict, place)
    tags = [
        ("NO" if (number == b"0") != (pair in REVERSED) else "") + pair
        for pair, number in zip(PAIRS, numbers)
        if number != b"-1"
    ]
    return Answer(verdict, place, " ".join(tags))


def first_line(text: str, line: int) -> int:
    """Returns the first of the lines that backslashes join up to a line."""
    lines = text.split("\n")
    while line > 1 and CONTINUED.search(lines[line - 2]) and not COMMENT.match(lines[line - 2]):
        line -= 1
    return line
