"""The contracts of the crates' exported functions, and the definitions that they cite."""

import glob
import os
import re
from collections.abc import Iterable, Iterator
from typing import NamedTuple

from counting.definitions import Name, Scope, names_in

_EXPORT = re.compile(r"^pub use ([\w:]+?)(?:::\{([^}]*)\})?;", re.MULTILINE)
_EXPORTED_MODULE = re.compile(r"^pub mod (\w+);", re.MULTILINE)
_COMMENT = re.compile(r"^\s*//.*$", re.MULTILINE)
_TRAIT = re.compile(r"^(?:pub(?:\(\w+\))? )?trait (\w+)", re.MULTILINE)
_OWNER = re.compile(r"^(?:pub(?:\(\w+\))? )?(?:unsafe )?(impl|trait)\b([^{]*)\{", re.MULTILINE)
_GHOST_USE = re.compile(r"^( *)ghost use [^;]*;", re.MULTILINE)
_FUNCTION = re.compile(r"^( *)(pub )?(?:const )?fn (\w+)", re.MULTILINE)
_PART = re.compile(r"\b(?:requires|ensures)\b\s*\w*\s*\{|[\[\](){};]")
# What a type shows of itself in contracts, and what a trait promises. The last two serve proofs of bodies alone.
_GHOST = re.compile(r"^ +(?:pub )?ghost (?!use\b)(?!invariant\b)(?!coded\b)(\w+)(?::| =) *\{", re.MULTILINE)


FUNCTION, OF_TRAIT, STATED = "function", "function of a trait", "stated"


class Contract(NamedTuple):
    """What an exported function, type or trait promises: its name, its kind, and the names that it cites."""

    crate: str
    name: str
    kind: str
    cited: frozenset[Name]


class Owner(NamedTuple):
    """The block of an `impl` or a trait: where it stands, its type or trait, and the trait that a type has by it."""

    start: int
    end: int
    name: str
    trait: str | None


class Exports(NamedTuple):
    """What other crates see of a crate: the words that it exports, the modules that it shows whole, and its own traits."""

    words: frozenset[str]
    modules: frozenset[str]
    traits: frozenset[str]

    def show(self, owner: Owner) -> bool:
        """Returns whether other crates see a block: its trait, where that is one of the crate's own, or else its type."""
        if owner.trait in self.traits:
            return owner.trait in self.words
        return owner.name in self.words


def exports_of(root: str, texts: Iterable[str]) -> Exports:
    """Returns what a crate exports, given the text of its root file and those of all its files."""
    words: set[str] = set()
    for path, listed in _EXPORT.findall(root):
        words.update(re.findall(r"\w+", listed) if listed else [path.rpartition("::")[2]])
    traits = {name for text in texts for name in _TRAIT.findall(text)}
    return Exports(frozenset(words), frozenset(_EXPORTED_MODULE.findall(root)), frozenset(traits))


def braced(text: str, start: int) -> int:
    """Returns the place behind the brace that closes the one at a place."""
    depth = 0
    for at in range(start, len(text)):
        depth += {"{": 1, "}": -1}.get(text[at], 0)
        if depth == 0:
            return at + 1
    raise ValueError("a brace that is not closed")


def clauses_of(text: str, start: int) -> Iterator[str]:
    """Yields the clauses of the function whose name ends at a place, up to its body or its semicolon."""
    depth, at = 0, start
    while found := _PART.search(text, at):
        at = found.end()
        if len(found[0]) > 1:
            end = braced(text, at - 1)
            yield text[at : end - 1]
            at = end
        elif found[0] in "{;" and depth == 0:
            return
        else:
            depth += {"[": 1, "(": 1, "]": -1, ")": -1}.get(found[0], 0)


def owners_of(text: str) -> list[Owner]:
    """Returns the blocks of a file that have methods."""
    owners = []
    for match in _OWNER.finditer(text):
        kind, head = match[1], match[2].split(" where ")[0].replace("->", "")
        while head != (shorter := re.sub(r"<[^<>]*>", "", head)):
            head = shorter
        name, trait = _names_of(kind, head)
        owners.append(Owner(match.start(), braced(text, match.end() - 1), name, trait))
    return owners


def _names_of(kind: str, head: str) -> tuple[str, str | None]:
    """Returns the type or trait of a block, and the trait that the type has by it, given its head without generics."""
    if kind == "trait":
        name = re.findall(r"\w+", head)[0]
        return name, name
    words = re.findall(r"\w+", head)
    return words[-1], words[words.index("for") - 1] if "for" in words else None


class Source:
    """A file of code of a crate."""

    def __init__(self, crate: str, path: str, text: str, exports: Exports) -> None:
        self.text = _COMMENT.sub("", text)
        self.crate = crate
        self.exports = exports
        self.is_shown = os.path.basename(path).removesuffix(".rt") in exports.modules
        self.owners = owners_of(self.text)

    def owner_at(self, at: int) -> Owner | None:
        """Returns the block that a place is in, if it is in one."""
        return next((owner for owner in self.owners if owner.start <= at < owner.end), None)

    def scope_at(self, owner: Owner | None) -> Scope:
        """Returns what names mean in a block, or outside all of them."""
        scope = Scope()
        for match in _GHOST_USE.finditer(self.text):
            if not match[1] or owner and owner.start <= match.start() < owner.end:
                scope.add(match[0])
        return scope

    def cited(self, texts: list[str], owner: Owner | None) -> frozenset[Name]:
        """Returns what clauses cite."""
        scope = self.scope_at(owner)
        return frozenset(name for text in texts for name in names_in(text, scope))

    def contracts(self) -> Iterator[Contract]:
        """Yields the contracts of the exported functions, and what exported types and traits state."""
        for match in _FUNCTION.finditer(self.text):
            owner = self.owner_at(match.start())
            is_seen = self.is_shown or (self.exports.show(owner) if owner else match[3] in self.exports.words)
            if is_seen and (match[2] or owner and owner.trait):
                name = f"{owner.name}::{match[3]}" if owner else match[3]
                cited = self.cited(list(clauses_of(self.text, match.end())), owner)
                yield Contract(self.crate, name, FUNCTION if match[2] else OF_TRAIT, cited)
        for match in _GHOST.finditer(self.text):
            owner = self.owner_at(match.start())
            if owner and self.exports.show(owner):
                stated = self.text[match.end() : braced(self.text, match.end() - 1) - 1]
                yield Contract(self.crate, f"{owner.name}::{match[1]}", STATED, self.cited([stated], owner))


def contracts(crates: str) -> list[Contract]:
    """Returns the contracts of all crates below a folder."""
    found: list[Contract] = []
    for crate in sorted(os.listdir(crates)):
        texts = {}
        for path in sorted(glob.glob(os.path.join(crates, crate, "src", "**", "*.rt"), recursive=True)):
            with open(path, encoding="utf-8") as file:
                texts[path] = file.read()
        exports = exports_of(texts.get(os.path.join(crates, crate, "src", "lib.rt"), ""), texts.values())
        for path, text in texts.items():
            found += Source(crate, path, text, exports).contracts()
    return found
