"""Tables of whole runs, in the folder `runs/`.

What a run prints is shown as the exit status, the output and, after `!`, the error output, with `;` or a newline for the end
of each line. A table has cases; it may name the program, by default `sudo_audit`, and the `words` with which it is asked about
requests. A case has files, beside those of the whole table, and one kind of rows:

- `runs`: words of the command line, and what is shown.
- `texts`: texts of the file `of`, and what is shown. `faults`: the same, with the fault of the policy `p` alone.
- `cuts`: the first and the last number of characters that are left of the file `of`, and what is shown; all numbers stand
  there.
- `asks`: the rows of the requests file `of`, without their numbers, and the report on each.
- `verdicts`: a policy, which goes on after the text `before`, with `;` for the end of a line, then ` | ` and the row of a
  request, and the report on it.
- `sources`: requests files, each as `SENDER: NUMBER=WORD .. close=COUNT`, with `|` between them, and what is shown.
- `cautions`: texts of the file `of`, and the cautions on each, as `PATH:LINE: CLASS` or `PATH:LINE: CLASS: SUBJECT` with `; `
  between them; the table has the text of each of its `classes`.
- `shows`: what the only run shows.
"""

import os
import shlex
import subprocess
import tempfile
import tomllib
from collections.abc import Iterator
from typing import Any, NamedTuple

from support import PROGRAM, REQUESTS_HEADER, REVIEW, TESTS, Case

TABLES = os.path.join(TESTS, "runs")
KINDS = {"runs", "texts", "faults", "cuts", "asks", "verdicts", "sources", "cautions", "shows"}
PROGRAMS = {"sudo_audit": PROGRAM, "sudo_review": REVIEW}
REPORT = "0 sender,number,verdict,line,tags;"
AUDIT = "audit p --users users --hosts hosts"


class Run(NamedTuple):
    """A run: the words, the files that differ from those of the case, and what is shown."""

    words: str
    files: dict[str, str]
    shows: str


def read_table(name: str) -> dict[str, Any]:
    """Returns the table of this name."""
    with open(os.path.join(TABLES, f"{name}.toml"), "rb") as file:
        return tomllib.load(file)


def files_of(case: dict[str, Any], table: dict[str, Any]) -> dict[str, str]:
    """Returns the files of a case of a table."""
    return {**table.get("files", {}), **case.get("files", {})}


def cut_off(text: str, length: int, shows: str) -> tuple[str, str]:
    """Returns the first characters of a text, and what is shown with the column after them for `end`."""
    front = text[:length]
    return front, shows.replace(":end:", f":{len(front.rpartition(chr(10))[2]) + 1}:")


def asked(asks: dict[str, str]) -> tuple[str, str]:
    """Returns a requests file of these rows, and what is shown of the sender `s`."""
    rows = "".join(f"{number},{row}\n" for number, row in enumerate(asks, 1))
    answers = "".join(f"s,{number},{answer};" for number, answer in enumerate(asks.values(), 1))
    return f"{REQUESTS_HEADER}{rows}close,{len(asks)},,,,,\n", f"{REPORT}{answers}"


def parts(words: str, requests: dict[str, str]) -> tuple[list[str], dict[str, str]]:
    """Returns the words for the requests files of a row, and these files."""
    names, files = [], {}
    for at, source in enumerate(words.split("|") if words else []):
        sender, _, rows = source.strip().partition(":")
        text = REQUESTS_HEADER
        for number, word in (row.split("=") for row in rows.split()):
            text += f"close,{word},,,,,\n" if number == "close" else f"{number},{requests[word]}\n"
        names.append(f"{sender}=part{at}")
        files[f"part{at}"] = text
    return names, files


def cautioned(cautions: str, texts: dict[str, str]) -> str:
    """Returns what is shown of cautions, with the text of each class."""
    lines = []
    for caution in cautions.split("; ") if cautions else []:
        place, name, *subject = caution.split(": ")
        lines.append(": ".join([place, "caution", name, *subject, texts[name]]) + ";")
    return f"{5 if lines else 0} {''.join(lines)}cautions: {len(lines)};"


def runs_of(case: dict[str, Any], table: dict[str, Any]) -> Iterator[Run]:
    """Yields the runs of a case of a table."""
    words, of, asking = case.get("run", ""), case.get("of", ""), table.get("words", AUDIT)
    if "shows" in case:
        yield Run(words, {}, case["shows"])
    for line, shows in case.get("runs", {}).items():
        yield Run(line, {}, shows)
    for text, shows in case.get("texts", {}).items():
        yield Run(words, {of: text}, shows)
    for text, fault in case.get("faults", {}).items():
        yield Run(words, {of: text}, f"1 ! {table.get('program', 'sudo_audit')}: p:{fault};")
    for text, cautions in case.get("cautions", {}).items():
        yield Run(words, {of: text}, cautioned(cautions, table["classes"]))
    for first, last, shows in case.get("cuts", []):
        for length in range(first, last + 1):
            front, told = cut_off(files_of(case, table)[of], length, shows)
            yield Run(words, {of: front}, told)
    if "asks" in case:
        text, shows = asked(case["asks"])
        yield Run(words, {of: text}, shows)
    for policy_and_row, answer in case.get("verdicts", {}).items():
        policy, _, row = policy_and_row.partition(" | ")
        text, shows = asked({row: answer})
        yield Run(f"{asking} s=requests", {"p": case.get("before", "") + policy.replace(";", "\n"), "requests": text}, shows)
    for line, shows in case.get("sources", {}).items():
        names, texts = parts(line, table.get("requests", {}))
        yield Run(shlex.join([*asking.split(), *names]), texts, shows)


class Shown(Case):
    """A test of what runs of a program show, in a folder of its own."""

    program = PROGRAM

    def write_all(self, files: dict[str, str]) -> None:
        """Writes files."""
        for path, text in files.items():
            self.write(path, text)

    def shown(self, *words: str | bytes) -> str:
        """Runs the program, and returns what it printed, on one line."""
        done = subprocess.run([self.program, *words], cwd=self.folder, capture_output=True, check=False, timeout=60)
        out, err = (os.fsdecode(text).replace("\n", ";") for text in (done.stdout, done.stderr))
        return f"{done.returncode} {out}" + (f"! {err}" if err else "")


class TableCase(Shown):
    """A test of the runs of a table."""

    def check_table(self, name: str) -> None:
        """Checks each run of a table."""
        table = read_table(name)
        self.program = PROGRAMS[table.get("program", "sudo_audit")]
        for case in table["cases"]:
            self.assertEqual(len(KINDS & case.keys()), 1, case["title"])
            self.assertLessEqual(case.keys(), KINDS | {"title", "files", "run", "of", "before"}, case["title"])
            files = files_of(case, table)
            with self.subTest(case["title"]), tempfile.TemporaryDirectory() as self.folder:
                self.write_all(files)
                runs = list(runs_of(case, table))
                self.assertTrue(runs, "a case without runs")
                if "cuts" in case:
                    lengths = [len(run.files[case["of"]]) for run in runs]
                    self.assertEqual(lengths, list(range(len(files[case["of"]]) + 1)), "not each length")
                for run in runs:
                    self.write_all(run.files)
                    with self.subTest(words=run.words, files=run.files):
                        self.assertEqual(self.shown(*shlex.split(run.words)), run.shows.replace("\n", ";"))
