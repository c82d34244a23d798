"""The definitions in `specs/` of the crates, and which other definitions each of them cites.

A file of definitions is a module. A block begins with a word as `abbrev` or `pub record`, and ends where the next one begins;
its lines are those without blank lines and comments. What a name means is decided by the imports of its module: the same
name may stand in several modules. A name that is bound where it stands, as a parameter is, cites nothing.
"""

import glob
import os
import re
from collections.abc import Iterable, Iterator
from typing import NamedTuple

_HEAD = re.compile(r"(?P<indent> *)(?:abbrev|unfoldable|opaque|pub record|pub data|record|data)\b(?: pub)? (?P<name>\S+)")
_IMPORT = re.compile(r"(?:pub )?(?:ghost )?use ([\w.]+?)(?:\.\{([^}]*)\}|(?: as (\w+))?)\s*;?$", re.DOTALL)
_OTHER = re.compile(r" *(?:pub mod|module)\b")
_FIXITY = re.compile(r" *infix[lr]?\b")
_CONSTRUCTOR = re.compile(r" +([A-Z]\w*) :")
_TOKEN = re.compile(r"[^\W\d][\w']*(?:\.[^\W\d][\w']*)*|[^\s\w(){}\[\],;.'\"]+")
_STRING = re.compile(r'"(?:[^"\\]|\\.)*"')
_LABEL = re.compile(r"[{;]\s*(\w+)\s*=(?![=])")
_FUNCTION = re.compile(r"λ\s*([\w' ]+?)\s*\.")
_TYPED = re.compile(r"[({]\s*([\w' ]+?)\s*:(?!:)")
_LET = re.compile(r"\blet\s+(\w+)\b")
_FIELD = re.compile(r"^ +pub (\w+) :", re.MULTILINE)
_EQUATION = re.compile(r"(?<![=<>!≡])=(?!=)")


class Name(NamedTuple):
    """A name in a module."""

    module: str
    name: str


class Scope:
    """What the names of a text mean by its imports: names of modules by the words that stand for them."""

    def __init__(self) -> None:
        self.names: dict[str, Name] = {}
        self.modules: dict[str, str] = {}

    def add(self, line: str) -> None:
        """Takes an import, which may be written on several lines."""
        found = _IMPORT.match(line.strip())
        if found is None:
            raise ValueError(f"an import that is not understood: {line}")
        module, listed, alias = found.groups()
        if listed is None:
            self.modules[alias or module.rpartition(".")[2]] = module
        for item in filter(None, map(str.strip, (listed or "").split(","))):
            name, _, other = item.partition(" as ")
            self.names[plain(other or name)] = Name(module, plain(name))

    def meant(self, word: str) -> Name | None:
        """Returns the name that a word means, or `None` if no import has it."""
        first, _, rest = word.partition(".")
        if rest and first in self.modules:
            return Name(self.modules[first], rest.partition(".")[0])
        return self.names.get(first)


class Definition(NamedTuple):
    """A block that defines a name, with the further names that it makes, and its lines."""

    name: Name
    constructors: tuple[str, ...]
    lines: tuple[str, ...]

    def clauses(self) -> Iterator[str]:
        """Yields the signature and each equation, or the whole block where its parts follow from one another."""
        indent = len(self.lines[0]) - len(self.lines[0].lstrip())
        if re.match(r" *(?:pub )?(?:record|data)\b", self.lines[0]):
            yield "\n".join(self.lines)
            return
        clause: list[str] = []
        for line in self.lines:
            is_new = len(line) - len(line.lstrip()) == indent and line.strip() != "}"
            if is_new and clause:
                yield "\n".join(clause)
                clause = []
            clause.append(line)
        yield "\n".join(clause)

    def cited(self, scope: Scope) -> set[Name]:
        """Returns the names that the block cites, itself aside."""
        found = {name for clause in self.clauses() for name in names_in(clause, scope, parameters_of(clause))}
        return found - {self.name}


class Module(NamedTuple):
    """A file of definitions: its name, its crate, its imports and its definitions."""

    name: str
    crate: str
    scope: Scope
    definitions: tuple[Definition, ...]

    @property
    def is_of_bodies(self) -> bool:
        """Returns whether the module is for the proofs of bodies alone."""
        return ".specs.Body." in self.name


def plain(name: str) -> str:
    """Returns the symbol of an operator that is written with the places of its operands, or the name itself."""
    return name.strip("◌") or name


def without_comment(line: str) -> str:
    """Returns a line without the comment at its end."""
    return re.sub(r"(?:^|\s)--(?:\s.*)?$", "", line).rstrip()


def parameters_of(clause: str) -> set[str]:
    """Returns the names that the left side of an equation binds, or none where the clause is no equation."""
    left = _EQUATION.split(clause, 1)[0]
    if _HEAD.match(clause) or left == clause:
        return set()
    return {word for word in re.findall(r"[^\W\d][\w']*", left)[1:] if word[0].islower() or len(word) == 1}


def bound_in(clause: str) -> list[tuple[int, str]]:
    """Returns each name that a clause binds on its way, and the place from where on it is bound."""
    found = [(match.start(), match[1]) for form in (_LET, _FIELD) for match in form.finditer(clause)]
    for form in (_FUNCTION, _TYPED):
        found += [(match.start(), word) for match in form.finditer(clause) for word in match[1].split()]
    return found


def names_in(text: str, scope: Scope, bound: Iterable[str] = ()) -> Iterator[Name]:
    """Yields the names that a clause cites: words that imports or its module have, and nothing on the way binds."""
    clause = _STRING.sub(lambda match: " " * len(match[0]), text)
    labels = {match.start(1) for match in _LABEL.finditer(clause)}
    first: dict[str, int] = dict.fromkeys(bound, -1)
    for at, word in bound_in(clause):
        first[word] = min(at, first.get(word, at))
    for match in _TOKEN.finditer(clause):
        head = match[0].partition(".")[0]
        if match.start() in labels or first.get(head, len(clause)) <= match.start():
            continue
        if meant := scope.meant(match[0]):
            yield meant


def module_of(crate: str, folder: str, path: str) -> Module:
    """Reads a file of definitions, given the folder of its crate."""
    name = ".".join(["Rattle", crate, *os.path.relpath(path, folder).removesuffix(".antt").split(os.sep)])
    with open(path, encoding="utf-8") as file:
        lines = [without_comment(line) for line in file.read().splitlines()]
    scope = Scope()
    definitions = tuple(_definition(name, block) for block in _blocks(filter(str.strip, lines), scope))
    for definition in definitions:
        for word in (definition.name.name, *definition.constructors):
            scope.names[word] = Name(name, word)
    return Module(name, crate, scope, definitions)


def _blocks(lines: Iterable[str], scope: Scope) -> list[list[str]]:
    """Returns the lines of each definition of a module, and takes its imports into a scope."""
    blocks: list[list[str]] = []
    waiting = ""
    fixity: list[str] = []
    for line in lines:
        if waiting or re.match(r"(?:pub )?use\b", line):
            waiting += line
            if waiting.count("{") == waiting.count("}"):
                scope.add(waiting)
                waiting = ""
        elif _HEAD.match(line):
            # (how an operator binds is written before its definition)
            blocks.append([line, *fixity])
            fixity = []
        elif _FIXITY.match(line):
            fixity.append(line)
        elif blocks and not _OTHER.match(line):
            blocks[-1].append(line)
    return blocks


def _definition(module: str, lines: list[str]) -> Definition:
    """Returns the definition of a block."""
    head = _HEAD.match(lines[0])
    assert head is not None
    is_data = re.match(r" *(?:pub )?data\b", lines[0])
    makes = [match[1] for line in lines[1:] if is_data and (match := _CONSTRUCTOR.match(line))]
    return Definition(Name(module, plain(head["name"])), tuple(makes), tuple(lines))


def modules(crates: str) -> list[Module]:
    """Returns the modules in `specs/` of all crates below a folder."""
    found = []
    for crate in sorted(os.listdir(crates)):
        folder = os.path.join(crates, crate)
        paths = glob.glob(os.path.join(folder, "specs", "**", "*.antt"), recursive=True)
        found += [module_of(crate, folder, path) for path in sorted(paths)]
    return found
