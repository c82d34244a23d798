"""The functions of a crate's source, as `rt fmt` writes them, and how most of them are taken out of a copy of the crate.

The proof of a function cites the contracts of those that it calls, and never their bodies. So what a function that is taken
out leaves is its contract: its body says that control never comes there, and its proof is a hole.
"""

import glob
import os
import re
from collections.abc import Container, Iterator, Mapping
from typing import NamedTuple

# A function, by the indentation of it and of its body. A body on the line of the head is one without clauses before it; one
# that is empty is a law's.
_LAW = r"\n\1\{\}| \{\}\n|;\n"
_CLAUSE = r"\n *(?:ghost|requires|ensures|where)\b"
FUNCTION = re.compile(
    r"^( *)(?:pub(?:\([a-z]+\))? )?fn (\w+)"
    rf"(?:(?:(?!{_CLAUSE}|{_LAW}|\n\1\{{).)*? |(?:(?!{_LAW}).)*?\n\1)"
    r"\{\n(.*?)^\1\}",
    re.MULTILINE | re.DOTALL,
)
TYPE = re.compile(r"^(?:pub(?:\([a-z]+\))? )?(?:struct|enum) (\w+)", re.MULTILINE)
OWNER = re.compile(r"^(?:impl\b|(?:pub(?:\([a-z]+\))? )?trait\b)[^{]*", re.MULTILINE)
CYCLE = re.compile(r"#\[cycle\(\w+\)\]\n(?: *(?:#\[|//).*\n)*\Z")
OF_TYPE = re.compile(r"impl\s+(\w+)\s*")
# The functions of a trait are named by the type and the trait, where that has no arguments.
OF_TRAIT = re.compile(r"impl(?:<.*>)? (\w+) for (\w+)(?:<.*>)?\s*")
BODY = "unreachable!()"
PROOF = """use Rattle.{crate}.proofs.{path}.Statement.{{statement}}

pub {name}_spec : {{M : Type 1}} → statement M
{name}_spec = ?
"""
# The other files of a function's proof, which a hole has no use for.
ANSWERS = ("Answers.antt", "Invariants.antt")


class Function(NamedTuple):
    """A function: its name below its crate, `None` for some of traits, its file below the crate's folder, and its places there.
    One of a trait stays in each copy, as does one of a cycle of calls, whose proof is one with those of others."""

    name: str | None
    stays: bool
    file: str
    indent: str
    start: int
    body: int
    end: int


def text_of(folder: str, file: str) -> str:
    """Returns the text of a file of a crate."""
    with open(os.path.join(folder, file), encoding="utf-8") as it:
        return it.read()


def module_of(file: str) -> list[str]:
    """Returns the names that lead to the module that a file is."""
    return [part for part in file.removeprefix("src/").removesuffix(".rt").split("/") if part != "lib"]


def owner_of(text: str, file: str, homes: Mapping[str, list[str]]) -> tuple[list[str], bool]:
    """Returns the names that lead to the owner of the functions at the end of a text, none where they are not known, and whether
    that is a trait. A type's begin with the module that is its home."""
    head = ["", *OWNER.findall(text)][-1]
    if found := OF_TRAIT.fullmatch(head):
        return [*module_of(file), found[2] + found[1]], True
    while (less := re.sub(r"<[^<>]*>", "", head)) != head:
        head = less
    found = OF_TYPE.fullmatch(head)
    return ([*homes.get(found[1], module_of(file)), found[1]], False) if found else ([], True)


def functions_in(text: str, file: str, homes: Mapping[str, list[str]]) -> Iterator[Function]:
    """Yields the functions that have a body, in a file of a crate."""
    for match in FUNCTION.finditer(text):
        owner, of_trait = owner_of(text[: match.start()], file, homes) if match[1] else (module_of(file), False)
        name = "::".join([*owner, match[2]]) if owner or not match[1] else None
        stays = of_trait or CYCLE.search(text, 0, match.start()) is not None
        yield Function(name, stays, file, match[1], match.start(), match.start(3), match.end())


def functions_of(folder: str) -> list[Function]:
    """Returns the functions of a crate that have a body."""
    files = sorted(glob.glob("src/**/*.rt", root_dir=folder, recursive=True))
    texts = {file: text_of(folder, file) for file in files}
    homes = {name: module_of(file) for file, text in texts.items() for name in TYPE.findall(text)}
    return [function for file, text in texts.items() for function in functions_in(text, file, homes)]


def take_out(folder: str, crate: str, kept: Container[str]) -> None:
    """Takes all functions but those of these names out of a copy of a crate, and but those that always stay."""
    for function in reversed(functions_of(folder)):
        if function.name is None or function.stays or function.name in kept:
            continue
        text = text_of(folder, function.file)
        left = f"{function.indent}    {BODY}\n{function.indent}}}"
        with open(os.path.join(folder, function.file), "w", encoding="utf-8") as it:
            it.write(text[: function.body] + left + text[function.end :])
        path = function.name.split("::")
        proof = os.path.join(folder, "proofs", *path)
        os.makedirs(proof, exist_ok=True)
        for name in ANSWERS:
            if os.path.exists(os.path.join(proof, name)):
                os.unlink(os.path.join(proof, name))
        with open(os.path.join(proof, "Proof.antt"), "w", encoding="utf-8") as it:
            it.write(PROOF.format(crate=crate, path=".".join(path), name=path[-1]))


def lines_of(folder: str, function: Function) -> range:
    """Returns the numbers of the lines on which a function stands, with those right above that belong to it."""
    text = text_of(folder, function.file)
    above = text.rfind("\n\n", 0, function.start) + 1
    return range(text.count("\n", 0, above) + 1, text.count("\n", 0, function.end) + 2)
