"""What the tables of a fleet's hosts were made of: the program, the files of each host, and what could not be gathered.

OUT/roots/HOST/files.csv has a row for the program and for each file, and OUT/roots/HOST/missing.csv what
tools/collect could not gather there.
"""

import os
from collections.abc import Iterable, Sequence
from typing import NamedTuple

from kulavemia.requests import number_of
from kulavemia.rows import open_write
from kulavemia.shown import Form, shown_records
from kulavemia.sums import File

FILES = "files.csv"
FILES_HEADER = ("role", "path", "bytes", "sha256")
MISSING = "missing.csv"
MISSING_HEADER = ("what",)

PROGRAM = "program"
POLICY = "policy"
USERS = "users"
HOSTS = "hosts"
NETGROUPS = "netgroups"


class Input(NamedTuple):
    """What the tables of a host were made of: a file and its role. The path of a program is what it says of its version."""

    role: str
    file: File


class Shared(NamedTuple):
    """A file that is the same on several hosts."""

    input: Input
    hosts: Sequence[str]


def write_inputs(folder: str, inputs: Iterable[Input], missing: Iterable[str], form: Form) -> None:
    """Writes what the tables of a host were made of, and what could not be gathered there."""
    with open_write(os.path.join(folder, FILES)) as file:
        file.write(form.head(FILES_HEADER))
        file.writelines(form.row((role, read.path, str(read.size), read.sum)) for role, read in inputs)
    with open_write(os.path.join(folder, MISSING)) as file:
        file.write(form.head(MISSING_HEADER))
        file.writelines(form.row((line,)) for line in missing)


def inputs_in(folder: str) -> list[Input]:
    """Returns what the tables of a host were made of."""
    path = os.path.join(folder, FILES)
    return [
        Input(role, File(name, number_of(path, line, size), digest))
        for line, (role, name, size, digest) in shown_records(path, FILES_HEADER)
    ]


def missing_in(folder: str) -> list[str]:
    """Returns what could not be gathered of a host."""
    return [what for _, (what,) in shown_records(os.path.join(folder, MISSING), MISSING_HEADER)]


def shared_by(inputs: Iterable[tuple[str, Sequence[Input]]], role: str) -> list[Shared]:
    """Returns the files of a role, each once with the hosts that have it, in the order of their paths."""
    found: dict[Input, list[str]] = {}
    for host, read in inputs:
        for one in read:
            if one.role == role:
                found.setdefault(one, []).append(host)
    return sorted((Shared(one, hosts) for one, hosts in found.items()), key=lambda shared: shared.input.file.path)
