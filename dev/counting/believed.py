"""What a reader must believe: the definitions that contracts cite, by however many steps."""

from collections import Counter
from collections.abc import Iterable
from typing import NamedTuple

from counting.contracts import STATED, Contract, contracts
from counting.definitions import Definition, Module, Name, modules


class Lines(NamedTuple):
    """How many lines definitions have, and how many definitions they are."""

    lines: int
    definitions: int


class Book:
    """The definitions of all crates, and which of them each cites."""

    def __init__(self, read: Iterable[Module], stated: Iterable[Contract]) -> None:
        self.contracts = list(stated)
        self.definitions: dict[Name, Definition] = {}
        self.of_bodies: set[Name] = set()
        self.crates: dict[Name, str] = {}
        self._by_word: dict[Name, Name] = {}
        scopes = {}
        for module in read:
            for definition in module.definitions:
                name = definition.name
                self.definitions[name], scopes[name], self.crates[name] = definition, module.scope, module.crate
                self.of_bodies |= {name} if module.is_of_bodies else set()
                self._by_word |= {Name(module.name, word): name for word in (name.name, *definition.constructors)}
        self.cited = {name: self._defined(one.cited(scopes[name])) - {name} for name, one in self.definitions.items()}

    def _defined(self, names: Iterable[Name]) -> set[Name]:
        """Returns the definitions that make these names; names of other libraries have none here."""
        return {self._by_word[name] for name in names if name in self._by_word}

    def from_contracts(self, stated: Iterable[Contract]) -> set[Name]:
        """Returns the definitions that contracts cite, by however many steps."""
        waiting = [name for contract in stated for name in self._defined(contract.cited)]
        seen: set[Name] = set()
        while waiting:
            if (name := waiting.pop()) not in seen:
                seen.add(name)
                waiting += self.cited[name]
        return seen

    def counted(self, names: Iterable[Name]) -> Lines:
        """Returns the size of definitions."""
        sizes = [len(self.definitions[name].lines) for name in names]
        return Lines(sum(sizes), len(sizes))

    def of(self, crate: str, function: str) -> Lines:
        """Returns the size of what the contract of an exported function cites."""
        stated = [one for one in self.contracts if (one.crate, one.name) == (crate, function) and one.kind != STATED]
        if not stated:
            raise KeyError(f"{crate} exports no function {function}")
        return self.counted(self.from_contracts(stated))

    def believed(self) -> set[Name]:
        """Returns all definitions that a reader must believe."""
        return self.from_contracts(self.contracts)

    def by_crate(self) -> dict[str, int]:
        """Returns how many lines of each crate a reader must believe."""
        lines: Counter[str] = Counter()
        for name in self.believed():
            lines[self.crates[name]] += len(self.definitions[name].lines)
        return dict(sorted(lines.items()))

    def uncited(self) -> list[Name]:
        """Returns the definitions that no contract cites, though they stand beside those that contracts cite."""
        return sorted(set(self.definitions) - self.believed() - self.of_bodies)


def book(crates: str) -> Book:
    """Returns the definitions and the contracts of all crates below a folder."""
    return Book(modules(crates), contracts(crates))
