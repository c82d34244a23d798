"""The figures that documents state: each has one value, and one document at most states it."""

import glob
import os
import re
import tomllib
from collections.abc import Iterator
from typing import NamedTuple

from counting.believed import Book
from counting.contracts import FUNCTION

MEASURED = os.path.join("dev", "measured.toml")
DOCUMENTS = ("*.md", "Makefile", "docs/*.md", "packaging/install.mk")
# What it says of a version was so then.
CHANGES = "CHANGELOG.md"
NUMBER = r"([0-9][0-9,]*)"


class Figure(NamedTuple):
    """A figure: what it counts, its value, and the words by which documents state it, with the number as their group."""

    what: str
    value: int
    stated: str


class Statement(NamedTuple):
    """A number that a document states."""

    document: str
    value: int


def counted_files(repository: str, *pattern: str) -> int:
    """Returns how many files below the crates match a pattern."""
    return len(glob.glob(os.path.join(repository, "crates", *pattern), recursive=True))


def lines_of(repository: str, *pattern: str) -> int:
    """Returns how many lines the files below the crates have that match a pattern."""
    lines = 0
    for path in glob.glob(os.path.join(repository, "crates", *pattern), recursive=True):
        with open(path, "rb") as file:
            lines += sum(1 for _ in file)
    return lines


def figures(repository: str, book: Book) -> list[Figure]:
    """Returns the figures of the repository."""
    with open(os.path.join(repository, MEASURED), "rb") as file:
        measured = tomllib.load(file)
    crates = os.listdir(os.path.join(repository, "crates"))
    tried = counted_files(repository, "*", "must-fail", "*.edit")
    further = counted_files(repository, "*", "must-fail-further", "*.edit")
    return [
        Figure("crates", len(crates), rf"\b{NUMBER} crates\b"),
        Figure("crates for tests alone", sum(map(is_of_tests, crates)), rf"\b{NUMBER} crates for tests\b"),
        Figure("exported functions", sum(it.kind == FUNCTION for it in book.contracts), rf"\b{NUMBER} exported functions\b"),
        Figure("wrong bodies that make test tries", tried, rf"\b{NUMBER} wrong bodies\b"),
        Figure("further wrong bodies", further, rf"\bthe other {NUMBER}\b"),
        Figure("wrong bodies in all", tried + further, rf"\ball {NUMBER} wrong bodies\b"),
        Figure("lines of code", lines_of(repository, "*", "src", "**", "*.rt"), rf"\b{NUMBER} lines of code\b"),
        Figure("lines of definitions", lines_of(repository, "*", "specs", "**", "*.antt"), rf"\b{NUMBER} lines of `specs/`"),
        Figure("lines of proofs", lines_of(repository, "*", "proofs", "**", "*.antt"), rf"\b{NUMBER} lines of proofs\b"),
        Figure("lines to believe", book.counted(book.believed()).lines, rf"\b{NUMBER} lines of definitions to believe\b"),
        Figure("minutes of a first build", measured["first_build"]["minutes"], rf"\b{NUMBER} minutes on four idle processors"),
        Figure("minutes of the last measured gate", measured["gate"]["minutes"], rf"\b{NUMBER} minutes on four processors\b"),
        Figure("its minutes of a processor", measured["gate"]["of_a_processor"], rf"\b{NUMBER} minutes of a processor\b"),
    ]


def is_of_tests(crate: str) -> bool:
    """Returns whether a crate has tests, or what tests use, and nothing of the program."""
    return crate.endswith("_trials") or crate == "limited_memory"


def documents(repository: str) -> list[str]:
    """Returns the paths of the documents that may state figures, from the repository."""
    paths = [path for pattern in DOCUMENTS for path in glob.glob(os.path.join(repository, pattern))]
    return sorted({os.path.relpath(path, repository) for path in paths} - {CHANGES})


def statements(repository: str, figure: Figure) -> Iterator[Statement]:
    """Yields where documents state a figure."""
    for document in documents(repository):
        with open(os.path.join(repository, document), encoding="utf-8") as file:
            text = " ".join(file.read().split())
        for number in re.findall(figure.stated, text):
            yield Statement(document, int(number.replace(",", "")))
