"""How the construct of a row of docs/PROFILE.md is taken out of a policy: changes of one kind of piece alone."""

import re
from collections.abc import Callable, Iterator, Sequence
from typing import NamedTuple

from differ.ask import Answer, Case
from differ.pieces import Piece, pieces_of

Change = Callable[[Case], Iterator[Case]]
NOTHING = "\xfe"


def same_answer(answer: Answer) -> Answer:
    """Returns the answer as it is."""
    return answer


class Row(NamedTuple):
    """A row of the profile: its first cell, how its construct is taken out, and what of an answer counts."""

    cell: str
    change: Change
    counts: Callable[[Answer], Answer] = same_answer


def mapped(case: Case, change: Callable[[str], str]) -> Case:
    """Returns a case whose texts are changed."""
    return case._replace(text=change(case.text), files=tuple((name, change(text)) for name, text in case.files))


def pieces_changed(change: Callable[[Piece], str]) -> Change:
    """Returns a change of each piece."""

    def of_text(text: str) -> str:
        return "".join(map(change, pieces_of(text)))

    def changed(case: Case) -> Iterator[Case]:
        yield mapped(case, of_text)

    return changed


def swapped(roles: str, kinds: str, pattern: str, *replacements: str | Callable[[re.Match[str]], str]) -> Change:
    """Returns a change of what a pattern finds in pieces of these roles and kinds (`*` for all) to each replacement."""
    wanted = re.compile(pattern, re.DOTALL)

    def with_one(case: Case, replacement: str | Callable[[re.Match[str]], str]) -> Case:
        def of_piece(piece: Piece) -> str:
            taken = (roles == "*" or piece.role in roles.split()) and (kinds == "*" or piece.kind in kinds.split())
            return wanted.sub(replacement, piece.text) if taken else piece.text

        return next(pieces_changed(of_piece)(case))

    def changed(case: Case) -> Iterator[Case]:
        for replacement in replacements:
            yield with_one(case, replacement)

    return changed


def replaced(pattern: str, *replacements: str | Callable[[re.Match[str]], str]) -> Change:
    """Returns a change of what a pattern finds in the whole text to each of the replacements."""
    wanted = re.compile(pattern, re.MULTILINE)

    def with_one(case: Case, replacement: str | Callable[[re.Match[str]], str]) -> Case:
        return mapped(case, lambda text: wanted.sub(replacement, text))

    def changed(case: Case) -> Iterator[Case]:
        for replacement in replacements:
            yield with_one(case, replacement)

    return changed


def where(holds: Callable[[Case], bool], change: Change) -> Change:
    """Returns a change that is made of cases for which something holds."""

    def changed(case: Case) -> Iterator[Case]:
        if holds(case):
            yield from change(case)

    return changed


def in_turn(*changes: Change) -> Change:
    """Returns several changes, each of them tried."""

    def changed(case: Case) -> Iterator[Case]:
        for change in changes:
            yield from change(case)

    return changed


def after(first: Change, change: Change) -> Change:
    """Returns a change that is made of what another makes of a case."""

    def changed(case: Case) -> Iterator[Case]:
        for one in first(case):
            yield from change(one)

    return changed


def together(changes: Sequence[Change]) -> Change:
    """Returns the changes made one after the other, each in its last way."""

    def changed(case: Case) -> Iterator[Case]:
        for change in changes:
            *_, case = case, *change(case)
        yield case

    return changed
