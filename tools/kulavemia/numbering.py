"""Numbers in place of things that stand in a page often."""

from collections.abc import Hashable, Sequence
from typing import Generic, TypeVar

Key = TypeVar("Key", bound=Hashable)


class Numbering(Generic[Key]):
    """Gives each new thing the next number."""

    def __init__(self) -> None:
        self.numbers: dict[Key, int] = {}

    def of(self, thing: Key) -> int:
        """Returns the number of a thing."""
        return self.numbers.setdefault(thing, len(self.numbers))

    def list(self) -> list[Key]:
        """Returns the things in the order of their numbers."""
        return list(self.numbers)


def runs(row: Sequence[int]) -> list[int]:
    """Returns a row as cells and how often each stands there in turn."""
    found: list[int] = []
    for cell in row:
        if found and found[-2] == cell:
            found[-1] += 1
        else:
            found += [cell, 1]
    return found
