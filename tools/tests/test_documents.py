"""Tests of the documents: what they name is there.

Each function, clause and definition of the tables of README.md and docs/PROOFS.md, each file and each word behind it in
docs/LAYERS.md, and each relative link. The examples print what is shown.
"""

import glob
import os
import re
import subprocess
import tempfile
import unittest
from collections.abc import Iterator

from support import PROGRAM, REVIEW, needs_program, needs_review

REPOSITORY = os.path.dirname(os.path.dirname(os.path.dirname(os.path.realpath(__file__))))
CRATES = os.path.join(REPOSITORY, "crates")
DOCUMENTS = ["README.md", "CONTRIBUTING.md"] + sorted(
    os.path.relpath(path, REPOSITORY) for path in glob.glob(os.path.join(REPOSITORY, "docs", "*.md"))
)
WIDEST = 160
CODE = re.compile(r"`([^`]+)`")
LINK = re.compile(r"(?<!!)\[[^\]]*\]\(([^)\s]+)\)")
DEFINITIONS = re.compile(r"((?:`\w+`(?:, )?)+) \((?:(\w+)/)?(\w+)\)")
FILE = re.compile(r"^[\w.-]+(?:/[\w.*-]+)+$")
NAMED_IN_FILE = re.compile(r"`([\w.-]+(?:/[\w.-]+)+)`: ((?:`[\w:]+`(?:, )?)+)")
FUNCTION = r"^( *)(?:pub(?:\([a-z]+\))? )?fn {name}\b.*?^\1\{{"


def text_of(path: str) -> str:
    """Returns the text of a file of the repository."""
    with open(os.path.join(REPOSITORY, path), encoding="utf-8") as file:
        return file.read()


def prose_of(document: str) -> list[str]:
    """Returns the lines of a document, with the lines of its blocks of code left empty."""
    lines, fenced = [], False
    for line in text_of(document).splitlines():
        fence = line.startswith("```")
        fenced ^= fence
        lines.append("" if fence or fenced or line.startswith("    ") else line)
    return lines


def rows_of(document: str, columns: list[str]) -> Iterator[tuple[str, list[str]]]:
    """Yields the heading above and the cells of each row of the tables that have these columns."""
    heading, inside = "", False
    for line in prose_of(document):
        if line.startswith("#"):
            heading = line.lstrip("# ")
        cells = [cell.strip() for cell in line.strip("|").split(" | ")] if line.startswith("|") else []
        cells = [cell.strip("| ") for cell in cells]
        if cells == columns:
            inside = True
        elif not cells:
            inside = False
        elif inside and not set("".join(cells)) <= set("-|: "):
            yield heading, cells


def sources_of(crate: str, folder: str, ending: str) -> list[str]:
    """Returns the paths of the files of a folder of a crate."""
    return sorted(glob.glob(os.path.join(CRATES, crate, folder, "**", "*" + ending), recursive=True))


def contracts_of(crate: str, name: str) -> list[str]:
    """Returns the contracts, before the bodies, of the functions of this name, `Type::name` or `name`."""
    kind, _, function = name.rpartition("::")
    found: list[str] = []
    for path in sources_of(crate, "src", ".rt"):
        text = text_of(path)
        if kind and not re.search(rf"\b(?:impl|trait)\b[^{{]*\b{kind}\b", text):
            continue
        pattern = FUNCTION.format(name=function)
        found += [match.group(0) for match in re.finditer(pattern, text, re.MULTILINE | re.DOTALL)]
    return found


def has_clause(contract: str, clause: str) -> bool:
    """Returns whether a contract ensures a clause of this name; the clause without a name is `unnamed`."""
    name = r"\s*" if clause == "unnamed" else rf"\s+{clause}\s*"
    return re.search(rf"\bensures{name}\{{", contract) is not None


def declares(crate: str, file: str, word: str) -> bool:
    """Returns whether a file of definitions of a crate declares a word."""
    pattern = rf"^(?:abbrev|unfoldable|record|data|opaque)[a-z ]* {word} :|^(?:pub )?record {word}\b"
    pattern += rf"|^[a-z ]*\b{word}\b[^=\n]* : "
    paths = [path for path in sources_of(crate, "specs", ".antt") if os.path.basename(path) == file + ".antt"]
    return any(re.search(pattern, text_of(path), re.MULTILINE) for path in paths)


def stands_in(path: str, word: str) -> bool:
    """Returns whether a file of code or of definitions has an item of this name."""
    if path.endswith(".antt"):
        return declares(path.split(os.sep)[1], os.path.basename(path)[:-5], word)
    return re.search(rf"\b(?:fn|struct|enum|trait|const) {word}\b", text_of(path)) is not None


def path_of(name: str) -> str:
    """Returns the path of a file that a document names, from the repository or from its crates."""
    crate = name.split("/")[0]
    return os.path.join("crates", name) if os.path.isdir(os.path.join(CRATES, crate)) else name


def anchors_of(document: str) -> set[str]:
    """Returns the anchors of the headings of a document."""
    headings = [line.lstrip("#").strip() for line in prose_of(document) if line.startswith("#")]
    return {re.sub(r"[^\w -]", "", heading.lower()).replace(" ", "-") for heading in headings}


class Contracts(unittest.TestCase):
    """The names in the tables of contracts."""

    def holds(self, crate: str, functions: str, clauses: str, definitions: str) -> None:
        """Fails where a function, a clause or a definition of a row is not there."""
        for name in CODE.findall(functions):
            first, _, rest = name.partition("::")
            owner, name = (first, rest) if os.path.isdir(os.path.join(CRATES, first)) else (crate, name)
            contracts = contracts_of(owner, name)
            self.assertTrue(contracts, f"{owner} has no function {name}")
            for clause in CODE.findall(clauses) or [clauses]:
                self.assertTrue(any(has_clause(one, clause) for one in contracts), f"{owner}, {name}: no clause {clause}")
            for words, other, file in DEFINITIONS.findall(definitions):
                for word in CODE.findall(words):
                    self.assertTrue(declares(other or owner, file, word), f"{other or owner}: no {word} in {file}")

    def test_the_readme(self) -> None:
        rows = list(rows_of("README.md", ["Guarantee", "Function", "Clauses", "Definitions"]))
        self.assertEqual(len(rows), 25)
        for _, (_, functions, clauses, definitions) in rows:
            self.holds("", functions, clauses, definitions)

    def test_the_proofs(self) -> None:
        rows = list(rows_of("docs/PROOFS.md", ["Claim", "Function", "Clauses", "Definitions"]))
        self.assertGreater(len(rows), 60)
        for crate, (claim, functions, clauses, definitions) in rows:
            with self.subTest(crate=crate, claim=claim):
                self.holds(crate, functions, clauses, definitions)


class Files(unittest.TestCase):
    """The files and links that documents name."""

    def test_named_files(self) -> None:
        for document in DOCUMENTS:
            for name in CODE.findall("\n".join(prose_of(document))):
                top = name.split("/")[0]
                if not FILE.match(name) or not re.search(r"\.(rt|antt|md|py|1|edit)$", name):
                    continue
                if top in os.listdir(CRATES) + ["docs", "tools", "dev", "packaging", "bench", "crates"]:
                    with self.subTest(document=document, name=name):
                        self.assertTrue(glob.glob(os.path.join(REPOSITORY, path_of(name))))

    def test_words_of_named_files(self) -> None:
        for document in DOCUMENTS:
            for name, words in NAMED_IN_FILE.findall("\n".join(prose_of(document))):
                for word in CODE.findall(words):
                    with self.subTest(document=document, file=name, word=word):
                        self.assertTrue(stands_in(path_of(name), word), f"{name} has no {word}")

    def test_links(self) -> None:
        for document in DOCUMENTS:
            for target in LINK.findall("\n".join(prose_of(document))):
                if re.match(r"[a-z]+:", target):
                    continue
                path, _, anchor = target.partition("#")
                path = os.path.normpath(os.path.join(os.path.dirname(document), path)) if path else document
                with self.subTest(document=document, target=target):
                    self.assertTrue(os.path.exists(os.path.join(REPOSITORY, path)))
                    if anchor:
                        self.assertIn(anchor, anchors_of(path))

    def test_no_document_unpacks_a_tar_by_itself(self) -> None:
        pages = [f"docs/man/{name}" for name in os.listdir(os.path.join(REPOSITORY, "docs", "man"))]
        for document in [*DOCUMENTS, *pages, "tools/collect", "tools/gather"]:
            self.assertNotRegex(text_of(document), r"\btar -?x|\btar [^\n]* -x|--extract", document)

    def test_widths(self) -> None:
        for document in DOCUMENTS:
            wide = [number for number, line in enumerate(prose_of(document), 1) if len(line) > WIDEST]
            self.assertEqual(wide, [], document)


def lines_of_manual(page: str) -> list[str]:
    """Returns the lines of a manual page, with the characters that they stand for in place of their names."""
    characters = (("\\(ga", "`"), ("\\(ha", "^"), ("\\-", "-"), ("\\&", ""), ("\\e", "\\"))
    text = text_of(page)
    for name, character in characters:
        text = text.replace(name, character)
    return text.splitlines()


def examples_of(lines: list[str]) -> Iterator[tuple[str, str]]:
    """Yields each command that an indented block of a document shows behind `$`, with the lines that follow it."""
    command: str | None = None
    shown: list[str] = []
    for line in [*lines, "end"]:
        inside = line.startswith("    ")
        if command and (not inside or line.startswith("    $ ")):
            yield command, "".join(shown)
            command = None
        if line.startswith("    $ "):
            command, shown = line[6:], []
        elif inside:
            shown.append(line[4:] + "\n")


class Examples(unittest.TestCase):
    """The examples of the programs in documents."""

    def shows(self, lines: list[str]) -> int:
        """Fails where a program prints something else than the lines show, on the files that they show."""
        ran = 0
        programs = {"sudo_audit": PROGRAM, "sudo_review": REVIEW}
        with tempfile.TemporaryDirectory() as folder:
            for command, shown in examples_of(lines):
                word, *words = command.split()
                if word == "cat":
                    path = os.path.join(folder, words[0])
                    os.makedirs(os.path.dirname(path), exist_ok=True)
                    with open(path, "w", encoding="utf-8") as file:
                        file.write(shown)
                elif word in programs:
                    ran += 1
                    done = subprocess.run([programs[word], *words], cwd=folder, capture_output=True, text=True, check=False)
                    self.assertEqual(done.stdout + done.stderr, shown, command)
        return ran

    @needs_program
    def test_the_readme(self) -> None:
        self.assertEqual(self.shows(text_of("README.md").splitlines()), 1)

    @needs_program
    def test_the_definitions(self) -> None:
        self.assertEqual(self.shows(text_of("docs/DEFINITIONS.md").splitlines()), 3)

    @needs_review
    def test_the_review(self) -> None:
        self.assertEqual(self.shows(text_of("docs/REVIEW.md").splitlines()), 22)

    @needs_review
    def test_the_manual_page_of_the_review(self) -> None:
        page = "\n".join(lines_of_manual("docs/sudo_review.1"))
        block = page.partition("\n.SH EXAMPLES\n.nf\n")[2].partition("\n.fi\n")[0]
        self.assertEqual(self.shows([f"    {line}" for line in block.splitlines()]), 6)


if __name__ == "__main__":
    unittest.main()
