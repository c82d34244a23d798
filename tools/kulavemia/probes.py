"""The answers to probes, as a table of users by hosts: which programs of a list are allowed as root, as an illustration."""

from collections.abc import Iterable, Sequence
from typing import Any, NamedTuple

from kulavemia.answers import ALLOW, DEPENDS, Answer
from kulavemia.command import Fault
from kulavemia.numbering import Numbering, runs
from kulavemia.text import visible


class Said(NamedTuple):
    """A program of a cell that is allowed, or may be, by its number, and the number of the place."""

    program: int
    place: int
    tags: str
    is_sure: bool = True


class Probes:
    """Gathers answers. Those of a user must stand together."""

    def __init__(self, places: Numbering[str]) -> None:
        self.places = places
        self.users: Numbering[str] = Numbering()
        self.hosts: Numbering[str] = Numbering()
        self.programs: Numbering[tuple[str, str, str]] = Numbering()
        self.cells: Numbering[tuple[Said, ...]] = Numbering()
        self.rows: Numbering[tuple[int, ...]] = Numbering()
        self.row_of: list[int] = []
        self.user = ""
        self.host = ""
        self.cell: list[Said] = []
        self.row: dict[int, int] = {}
        self.count = 0

    def take_all(self, answers: Iterable[Answer]) -> None:
        """Takes all answers."""
        for answer in answers:
            self.take(answer)
        self._end_user()

    def take(self, answer: Answer) -> None:
        """Takes an answer."""
        request, verdict = answer.request, answer.verdict
        if request.user != self.user:
            self._end_user()
            self.user = request.user
        if request.host != self.host:
            self._end_cell()
            self.host = request.host
        self.count += 1
        kind = answer.key[0] if answer.key else ""
        program = self.programs.of((kind, request.command, request.arguments))
        if verdict.verdict in (ALLOW, DEPENDS):
            self.cell.append(Said(program, self.places.of(verdict.place), verdict.tags, verdict.verdict == ALLOW))

    def _end_cell(self) -> None:
        if self.host:
            host = self.hosts.of(self.host)
            before = self.row.get(host)
            if before is not None and self.cell:
                raise Fault(f"the probes of {self.user} on {self.host} do not stand together")
            self.row.setdefault(host, self.cells.of(tuple(self.cell)))
        self.host = ""
        self.cell = []

    def _end_user(self) -> None:
        self._end_cell()
        if self.user:
            if self.users.of(self.user) != len(self.row_of):
                raise Fault(f"the probes of {self.user} do not stand together")
            empty = self.cells.of(())
            last = max(self.row) if self.row else -1
            self.row_of.append(self.rows.of(tuple(self.row.get(host, empty) for host in range(last + 1))))
        self.user = ""
        self.row = {}

    def data(self) -> dict[str, Any]:
        """Returns the table as the page's script reads it."""
        return {
            "users": [visible(user) for user in self.users.list()],
            "hosts": [visible(host) for host in self.hosts.list()],
            "programs": [[visible(part) for part in program] for program in self.programs.list()],
            "cells": [_grouped(cell) for cell in self.cells.list()],
            "rows": [runs(row) for row in self.rows.list()],
            "rowOf": self.row_of,
            "empty": self.cells.of(()),
        }


def _grouped(cell: Sequence[Said]) -> list[list[Any]]:
    """Returns a cell's answers with the programs of one place and tags together, and a mark behind those that may be allowed."""
    found: dict[tuple[int, str, bool], list[int]] = {}
    for program, place, tags, is_sure in cell:
        found.setdefault((place, tags, is_sure), []).append(program)
    return [[place, tags, programs, *([] if is_sure else [1])] for (place, tags, is_sure), programs in found.items()]
