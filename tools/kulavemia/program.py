"""The proved programs: where they are, and how the first one is asked."""

import csv
import hashlib
import io
import itertools
import operator
import os
import shutil
import subprocess
import sys
import tempfile
from argparse import ArgumentParser
from collections.abc import Iterable, Sequence
from typing import IO, NamedTuple

from kulavemia import foreign, limits, outputs
from kulavemia.answers import DEPENDS, REPORT_HEADER, REVIEWED_HEADER, SHOWN_HEADER
from kulavemia.command import FAILED, PROGRAM, Fault, as_word
from kulavemia.hostname import words_of_hostname
from kulavemia.progress import Progress
from kulavemia.requests import Source, batches
from kulavemia.rows import row
from kulavemia.shown import Form

NAME = "sudo_audit"
REVIEW = "sudo_review"
_OPTIONS = {NAME: "--program", REVIEW: "--review"}
_COMMANDS = {NAME: "audit", REVIEW: "report"}
_HEADERS = {NAME: REPORT_HEADER, REVIEW: REVIEWED_HEADER}
REPOSITORY = os.path.dirname(os.path.dirname(os.path.dirname(os.path.realpath(__file__))))
_WRITE_FAILED = b"write failed"
_PIECE = 1 << 20
# Bytes of rows that are shown as they are; a quote is none of them, since its field may end in another piece.
_PLAIN = bytes({*b"\n", *range(0x20, 0x7F)} - {*b'"'})
# The fields of the second program's report that a report of these tools has.
_VERDICT, _PLACE, _TAGS, _DEPENDS = range(len(REVIEWED_HEADER) - 4, len(REVIEWED_HEADER))
_KEPT = operator.itemgetter(0, 1, _VERDICT, _PLACE, _TAGS)
MEANING = {PROGRAM: "the program is not there, or refuses; its own line is shown"}


class Policy(NamedTuple):
    """The policy by which requests are judged. Places in a copy below a root folder are shown without that folder.

    Without a file of netgroups, or of addresses, its path is empty; so is the host's name if the policy has no `%h`.
    """

    file: str
    users: str
    hosts: str
    root: str = ""
    netgroups: str = ""
    addresses: str = ""
    hostname: str = ""

    def words(self) -> list[str]:
        """Returns the words of a command line of `sudo_review` that say how the policy is read."""
        return words_of_reading(self.netgroups, self.addresses, self.hostname)

    def want_plain(self) -> None:
        """Raises `Fault` if a program would wait for one of the files, or read without end."""
        want_plain(self.file, foreign.POLICY_CAP)
        for path in filter(None, (self.users, self.hosts, self.netgroups, self.addresses)):
            want_plain(path, foreign.REQUESTS_CAP)


class Judge(NamedTuple):
    """The program that judges requests: its path, and which of the two it is."""

    path: str
    name: str = NAME

    def words(self, policy: Policy, sources: Iterable[Source], workers: int) -> list[str]:
        """Returns the words of the command line that judges the sources; no option is read behind `--`."""
        directory = ["--users", as_word(policy.users), "--hosts", as_word(policy.hosts)]
        if self.name == REVIEW:
            directory += policy.words()
        named = [f"{source.sender}={source.file}" for source in sources]
        return [self.path, _COMMANDS[self.name], *directory, "--workers", str(workers), "--", policy.file, *named]

    def header(self) -> Sequence[str]:
        """Returns the header of its report."""
        return _HEADERS[self.name]


def add_options(words: ArgumentParser) -> None:
    """Adds the options that say which program is asked, and how."""
    words.add_argument(
        "--program",
        metavar="PATH",
        help="the program sudo_audit (default: $SUDO_AUDIT, else that of PATH, the one beside this command, or the"
        " repository's own build)",
    )
    words.add_argument(
        "--workers", type=int, default=2, metavar="N", help=f"how many threads judge, 1 to {limits.WORKERS} (default 2)"
    )


def add_review_option(words: ArgumentParser) -> None:
    """Adds the option that says which second program is asked."""
    words.add_argument(
        "--review", metavar="PATH", help="the program sudo_review (default: $SUDO_REVIEW, else as for sudo_audit)"
    )


def add_netgroups_option(words: ArgumentParser) -> None:
    """Adds the option that names the file of netgroups."""
    words.add_argument(
        "--netgroups",
        metavar="FILE",
        help="netgroups.csv: the netgroups of the policy are read as their members; sudo_review alone takes it, and is wanted",
    )


def add_addresses_option(words: ArgumentParser) -> None:
    """Adds the option that names the file of the hosts' IPv6 addresses."""
    words.add_argument(
        "--addresses",
        metavar="FILE",
        help="addresses.csv: the IPv6 addresses of the policy are read as the hosts that have them; sudo_review alone takes it,"
        " and is wanted",
    )


def words_of_reading(netgroups: str, addresses: str, hostname: str) -> list[str]:
    """Returns the words of a command line of `sudo_review` that name the file of netgroups, that of addresses and the host, where
    they are not empty."""
    named = {"--netgroups": netgroups, "--addresses": addresses}
    words = [word for option, path in named.items() if path for word in (option, as_word(path))]
    return [*words, *words_of_hostname(hostname)]


def find(given: str | None, name: str = NAME) -> str:
    """Returns the path of the program of this name. Raises `Fault` if it is not there."""
    variable = name.upper()
    named = given or os.environ.get(variable)
    beside = os.path.join(os.path.dirname(os.path.abspath(sys.argv[0])), name)
    built = os.path.join(REPOSITORY, "crates", name, "out", name)
    found = shutil.which(named) if named else shutil.which(name) or shutil.which(beside) or shutil.which(built)
    if found:
        return found
    if named:
        raise Fault(f"{named}: no program", PROGRAM)
    raise Fault(f"no program {name}: build it, or name it by {_OPTIONS[name]} or ${variable}", PROGRAM)


def find_judge(given: str | None, review: str | None, second_alone: bool = False) -> Judge:
    """Returns the program that judges requests: the second one, which reads more, or the first where that is not there.

    A program that the command line or the environment names comes before one that is found. Raises `Fault` if there is
    none. Netgroups and the name of a host are read by the second one alone.
    """
    if second_alone:
        return Judge(find(review, REVIEW), REVIEW)
    named = (review, REVIEW), (given, NAME), (os.environ.get(REVIEW.upper()), REVIEW), (os.environ.get(NAME.upper()), NAME)
    name = next((name for path, name in named if path), None)
    if name is not None:
        return Judge(find(review if name == REVIEW else given, name), name)
    try:
        return Judge(find(None, REVIEW), REVIEW)
    except Fault:
        return Judge(find(None))


def sum_of(program: str) -> str:
    """Returns a sum of the program's bytes, to tell which one answered."""
    with open(program, "rb") as file:
        return hashlib.file_digest(file, "sha256").hexdigest()


def version_of(program: str) -> str:
    """Returns what the program says of its version, or nothing if it does not say."""
    done = subprocess.run([program, "--version"], stdin=subprocess.DEVNULL, stdout=subprocess.PIPE, check=False)
    first = os.fsdecode(done.stdout).partition("\n")[0]
    return first.strip() if done.returncode == 0 else ""


def said_by(program: str, done: subprocess.CompletedProcess[bytes], out: bytes, root: str) -> Fault:
    """Returns what the program said where it refused."""
    said = os.fsdecode(done.stderr or out).strip()
    first, *further = (said.replace(root, "") if root else said).split("\n")
    return Fault(first or f"{program} ended with status {done.returncode}", PROGRAM, further)


def with_hint(said: str) -> str:
    """Returns what the program said where it refused with its hint on the same line, as a row of a table has it."""
    return said.replace(f"\n{REVIEW}: hint: ", "; hint: ")


def named_by(said: Fault, policy: Policy) -> Fault:
    """Returns a program's refusal behind the path of the users or the hosts, of which it says only that they are these."""
    files = {"users": policy.users, "hosts": policy.hosts, "netgroups": policy.netgroups, "addresses": policy.addresses}
    for kind, path in files.items():
        if str(said).startswith((f"{NAME}: {kind}: ", f"{REVIEW}: {kind}: ")):
            return Fault(f"{path}: {said}", PROGRAM)
    return said


def check(program: str, policy: Policy) -> str:
    """Returns the findings of `sudo_review` on a policy. Raises `Fault` if it refuses the policy."""
    policy.want_plain()
    words = [program, "check", *policy.words(), "--", policy.file]
    done = subprocess.run(words, stdout=subprocess.PIPE, stderr=subprocess.PIPE, check=False)
    if done.returncode != 0:
        raise named_by(said_by(program, done, done.stdout, policy.root), policy)
    found = os.fsdecode(done.stdout)
    return found.replace(policy.root, "") if policy.root else found


def audit(
    judge: Judge, policy: Policy, sources: Sequence[Source], out: str, workers: int = 2, form: Form = Form()
) -> None:
    """Writes the report of all sources, in runs that the program takes. Raises `Fault` if it refuses."""
    policy.want_plain()
    for source in sources:
        want_plain(source.file, foreign.REQUESTS_CAP)
    total = len(sources)
    done = 0
    with outputs.written(out) as report, Progress("judging", total) as progress:
        report.write(form.head(SHOWN_HEADER).encode())
        for batch in batches(sources):
            _audit_batch(judge, policy, batch, Rows(report, form, policy.root, header=judge.header()), workers)
            done += len(batch)
            progress.at(done)


def want_plain(path: str, cap: int) -> None:
    """Raises `Fault` if a program would wait for a file, or read without end. It names a missing one itself."""
    if "\0" in path or foreign.exists(path):
        foreign.want_plain(path, cap)


def want_written(done: subprocess.CompletedProcess[bytes]) -> None:
    """Raises `Fault` with the folder of a program's output if it could not be written there."""
    if done.returncode == FAILED and _WRITE_FAILED in done.stderr:
        raise Fault(f"{tempfile.gettempdir()}: {os.fsdecode(done.stderr).strip()}", FAILED)


def _audit_batch(judge: Judge, policy: Policy, batch: Iterable[Source], rows: "Rows", workers: int) -> None:
    words = judge.words(policy, batch, workers)
    with outputs.scratch() as part:
        done = subprocess.run(words, stdout=part, stderr=subprocess.PIPE, check=False)
        part.seek(0)
        want_written(done)
        if done.returncode != 0:
            raise named_by(said_by(judge.path, done, part.read(), policy.root), policy)
        rows.copy(part, judge.path)


class Rows:
    """Copies rows of a program's tables, with foreign text as it is shown.

    Places are without a root folder, and senders stand behind a text. Of a report of the second program the fields are
    copied that a report of the first has, with `depends` as the verdict where it depends.
    """

    def __init__(
        self, out: IO[bytes], form: Form, root: str = "", before: str = "", header: Sequence[str] = REPORT_HEADER
    ) -> None:
        self.out = out
        self.form = form
        self.root = root
        self.before = before
        self.header = header
        self.is_reviewed = header == REVIEWED_HEADER
        self.count = 0

    def copy(self, part: IO[bytes], program: str) -> None:
        """Copies the rows of a table. Raises `Fault` at another header."""
        header = part.readline()
        if header != os.fsencode(row(self.header)):
            raise Fault(f"{program}: its report has the header {os.fsdecode(header).strip()}", PROGRAM)
        left = b"" if self.root or self.before or self.form.spreadsheet else self._copy_plain(part)
        self._copy_shown(itertools.chain(io.BytesIO(left), part))

    def _copy_plain(self, part: IO[bytes]) -> bytes:
        """Copies pieces of a table in which all is shown as it is, and returns the first other one."""
        while piece := part.read(_PIECE) + part.readline():
            if piece.translate(None, _PLAIN):
                return piece
            self.out.write(_kept_of(piece) if self.is_reviewed else piece)
            self.count += piece.count(b"\n")
        return b""

    def _copy_shown(self, lines: Iterable[bytes]) -> None:
        header = SHOWN_HEADER if self.is_reviewed else self.header
        place = next(at for at, name in enumerate(header) if name in ("line", "place"))
        for fields in csv.reader(line.decode("utf-8", "surrogateescape") for line in lines):
            if self.is_reviewed:
                fields = _kept(fields)
            if self.before:
                fields[0] = self.before + fields[0]
            fields[place] = fields[place].removeprefix(self.root)
            self.out.write(self.form.row(fields).encode())
            self.count += 1


def _kept(fields: list[str]) -> list[str]:
    """Returns the fields of a row of the second program's report that a report of these tools has."""
    sender, number, verdict, place, tags = _KEPT(fields)
    return [sender, number, DEPENDS if fields[_DEPENDS] else verdict, place, tags]


def _kept_of(piece: bytes) -> bytes:
    """Returns the rows of a piece of the second program's report, none of which has a quoted field, as `_kept` does."""
    found = []
    for line in piece.splitlines():
        fields = line.split(b",")
        if fields[_DEPENDS]:
            fields[_VERDICT] = DEPENDS.encode()
        found.append(b",".join(_KEPT(fields)))
    return b"".join(row + b"\n" for row in found)
