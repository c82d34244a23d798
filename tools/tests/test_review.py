"""Tests of `sudo_review`: its tables, the classes of cautions wherever they are listed, and its reports beside `sudo_audit`'s."""

import csv
import io
import os
import re
import shlex
import subprocess
import tempfile
import unittest
from collections import Counter
from collections.abc import Iterator

from drawn import NOTICE
from support import EXAMPLES, PROGRAM, REQUESTS_HEADER, REVIEW, needs_program, needs_review
from tables import REPORT, Run, Shown, TableCase, files_of, read_table, runs_of
from test_documents import CODE, lines_of_manual, rows_of, text_of

HEADER = [*"sender,number,user,host,runas_user,runas_group,command,arguments,verdict,place,tags,depends".split(",")]
COUNTS = "place,commands,allowed,denied,depends".split(",")
AUDITED = REPORT.removeprefix("0 ").rstrip(";").split(",")
CLASSES: dict[str, str] = read_table("cautions")["classes"]
MARK = re.compile(r"\(`([a-z-]+)`\)$")
INCLUDED = re.compile(r"^the file `/([^`]+)`")
INCLUDES = re.compile(r"^( *[@#]include \"?)/")


@needs_review
class Tables(TableCase):
    """The runs of each table of sudo_review."""

    def test_table_cautions(self) -> None:
        self.check_table("cautions")

    def test_table_compare(self) -> None:
        self.check_table("compare")

    def test_table_expanded(self) -> None:
        self.check_table("expanded")

    def test_table_grants(self) -> None:
        self.check_table("grants")

    def test_table_addresses(self) -> None:
        self.check_table("addresses")

    def test_table_hostname(self) -> None:
        self.check_table("hostname")

    def test_table_masks(self) -> None:
        self.check_table("masks")

    def test_table_netgroups(self) -> None:
        self.check_table("netgroups")

    def test_table_report(self) -> None:
        self.check_table("report")

    def test_table_review(self) -> None:
        self.check_table("review")

    def test_table_roots(self) -> None:
        self.check_table("roots")

    def test_table_rules(self) -> None:
        self.check_table("rules")

    def test_table_subjects(self) -> None:
        self.check_table("subjects")

    def test_table_who(self) -> None:
        self.check_table("who")


def classes_of_source() -> dict[str, str]:
    """Returns the classes that the definitions of the program list, in their order, with their texts."""
    source = text_of("crates/review_cautions/specs/Classes.antt")
    names = dict(re.findall(r'^class_name (\w+) = codes "([^"]*)"', source, re.MULTILINE))
    texts = dict(re.findall(r'^class_text (\w+) =\s+codes "([^"]*)"', source, re.MULTILINE))
    listed = re.search(r"^classes = (.*?) ∷ \[\]", source, re.MULTILINE | re.DOTALL)
    return {names[word]: texts[word] for word in re.findall(r"\w+", listed[1] if listed else "")}


def classes_of_manual() -> dict[str, str]:
    """Returns the classes that the manual page lists, in their order, with their texts."""
    page = "\n".join(lines_of_manual("docs/sudo_review.1"))
    section = page.partition("\n.SH CAUTIONS\n")[2].partition("\n.SH ")[0]
    return dict(re.findall(r"^\.TP\n\.B (.*)\n\.RS\n\.nf\n(.*)\n\.fi$", section, re.MULTILINE))


def marked_rows() -> Iterator[tuple[str, str, str]]:
    """Yields the example of each row of the profile that names a class, what it is here, and the class."""
    for first in ("Policy", "Policy and request", "Rule and request of alice, who has the group `adm`"):
        for heading, cells in rows_of("docs/PROFILE.md", [first, "Here", "sudo"]):
            found = MARK.search(cells[1])
            if found or heading == "Defaults that decide":
                yield cells[0], cells[1], found[1] if found else "defaults"


def policy_of(cell: str) -> str:
    """Returns the policy that a cell shows: its lines, or the first text that it shows."""
    lines = CODE.findall(cell)
    text = "\n".join(lines if cell.startswith("lines ") else lines[:1]).replace("<TAB>", "\t").replace("<CR>", "\r")
    return text + ("\r\n" if "with CR LF" in cell else "\n") + ("\n" if "and an empty line" in cell else "")


class Classes(Shown):
    """The classes of cautions are those of the table of runs."""

    program = REVIEW

    def names_class(self, example: str, here: str, name: str) -> None:
        """Fails where the program has no caution of a class on the policy that a cell shows; `here`: the file it includes."""
        self.write("p", INCLUDES.sub(r"\1", policy_of(example)))
        self.write_all(dict.fromkeys(INCLUDED.findall(here), ""))
        self.assertIn(f": caution: {name}: ", self.shown("cautions", "p"))

    def test_the_program(self) -> None:
        self.assertEqual(list(classes_of_source().items()), list(CLASSES.items()))

    def test_the_manual_page(self) -> None:
        self.assertEqual(list(classes_of_manual().items()), list(CLASSES.items()))

    def test_each_has_a_case_with_and_without(self) -> None:
        cases = {case["title"]: case.get("cautions", {}) for case in read_table("cautions")["cases"]}
        self.assertEqual(list(cases)[: len(CLASSES)], list(CLASSES))
        for name in CLASSES:
            shown = cases[name].values()
            self.assertTrue(any(f": {name}" in cautions for cautions in shown) and "" in shown, name)

    def test_the_page(self) -> None:
        rows = list(rows_of("docs/REVIEW.md", ["Class", "Example", "Here", "sudo"]))
        self.assertEqual([CODE.findall(cells[0]) for _, cells in rows], [[name] for name in CLASSES])

    @needs_review
    def test_the_examples_of_the_page(self) -> None:
        for _, (name, example, here, _) in rows_of("docs/REVIEW.md", ["Class", "Example", "Here", "sudo"]):
            with self.subTest(example):
                self.names_class(example, here, name.strip("`"))

    def test_the_profile(self) -> None:
        # The reader refuses what notes stand for: that is no construct which it reads otherwise than sudo.
        self.assertEqual({name for _, _, name in marked_rows()} | {"depends"}, set(CLASSES))

    @needs_review
    def test_the_examples_of_the_profile(self) -> None:
        for example, here, name in marked_rows():
            with self.subTest(example):
                self.names_class(example, here, name)


def rows_of_csv(text: str) -> list[list[str]]:
    """Returns the records of a text in CSV; a byte order mark and empty lines are none."""
    return [row for row in csv.reader(io.StringIO(text.removeprefix("\ufeff"), newline="")) if row]


@needs_review
class Reports(Shown):
    """Reports beside those of audits."""

    program = REVIEW

    def requests_of(self, words: list[str]) -> dict[tuple[str, str], list[str]]:
        """Returns the requests of the files that words name, each by its sender and its number."""
        found = {}
        for word in words:
            sender, is_named, path = word.partition("=")
            if is_named and not sender.startswith("-"):
                for row in rows_of_csv(self.read(path)):
                    found[sender, row[0]] = row
        return found

    def as_audit(self, report: str, words: list[str]) -> str:
        """Returns a report as an audit prints it, and checks that it has the requests of the words."""
        header, *rows = rows_of_csv(report)
        self.assertEqual(header, HEADER)
        asked = self.requests_of(words)
        out = io.StringIO(newline="")
        writer = csv.writer(out, lineterminator="\n")
        writer.writerow(AUDITED)
        for sender, number, *fields, verdict, place, tags, depends in rows:
            self.assertEqual([number, *fields], asked[sender, number])
            self.assertEqual(depends, "")
            writer.writerow([sender, number, verdict, place, tags])
        return out.getvalue()

    def counts(self, report: str, words: list[str]) -> None:
        """Fails where the counts of the rules are not those of a report."""
        done = subprocess.run([REVIEW, "rules", *words[1:]], cwd=self.folder, capture_output=True, check=True, timeout=60)
        header, *rows = rows_of_csv(os.fsdecode(done.stdout))
        self.assertEqual(header, COUNTS)
        counted: Counter[tuple[str, str]] = Counter()
        for place, _, allowed, denied, _ in rows:
            counted[place, "allow"] += int(allowed)
            counted[place, "deny"] += int(denied)
        answers = (row[HEADER.index("verdict") :] for row in rows_of_csv(report)[1:])
        self.assertEqual(+counted, Counter((place, verdict) for verdict, place, *_ in answers if place))

    def agrees(self, run: Run) -> None:
        """Fails where a report is not the audit that a run shows, or the counts of the rules are not the report's."""
        words = ["report", *shlex.split(run.words)[1:]]
        done = subprocess.run([REVIEW, *words], cwd=self.folder, capture_output=True, check=False, timeout=60)
        out, err = os.fsdecode(done.stdout), os.fsdecode(done.stderr)
        if done.returncode == 0:
            self.assertRegex(err, rf"\A{NOTICE.pattern}\Z")
            shown = f"0 {self.as_audit(out, words)}"
            self.counts(out, words)
        else:
            shown = f"{done.returncode} {out}! {err}".replace("sudo_review: ", "sudo_audit: ")
        self.assertEqual(shown.replace("\n", ";"), run.shows.replace("\n", ";"))

    def test_audits_of_tables(self) -> None:
        tried = 0
        for name in ("audit", "verdict", "worked", "cut"):
            table = read_table(name)
            for case in table["cases"]:
                with self.subTest(case["title"]), tempfile.TemporaryDirectory() as self.folder:
                    self.write_all(files_of(case, table))
                    for run in runs_of(case, table):
                        if run.words.startswith("audit "):
                            tried += 1
                            self.write_all(run.files)
                            with self.subTest(words=run.words, files=run.files):
                                self.agrees(run)
        self.assertGreater(tried, 500)

    @needs_program
    def test_the_example(self) -> None:
        self.folder = EXAMPLES
        senders = ["web=web.csv", "ops=ops-odd.csv", "ops=ops-even.csv"]
        words = ["sudoers", "--users", "users.csv", "--hosts", "hosts.csv", *senders]
        audit, report = (
            subprocess.run([program, command, *words], cwd=EXAMPLES, capture_output=True, text=True, check=True)
            for program, command in ((PROGRAM, "audit"), (REVIEW, "report"))
        )
        self.assertEqual(self.as_audit(report.stdout, words), audit.stdout)
        self.assertGreater(len(audit.stdout.splitlines()), 20)

    def test_each_number_of_workers_gives_the_same(self) -> None:
        words = ["sudoers", "--users", "users.csv", "--hosts", "hosts.csv", "ops=ops-odd.csv", "ops=ops-even.csv"]
        self.folder = EXAMPLES
        shown = {self.shown("report", *words, "--workers", str(workers)) for workers in (1, 2, 3, 16)}
        self.assertEqual(len(shown), 1)

    def test_the_line_of_cautions_has_their_number_and_classes(self) -> None:
        self.folder = EXAMPLES
        cautions = self.shown("cautions", "sudoers")
        names = re.findall(r": caution: ([a-z-]+): ", cautions)
        self.assertTrue(cautions.startswith("5 ") and cautions.endswith(f";cautions: {len(names)};"), cautions)
        report = self.shown("report", "sudoers", "--users", "users.csv", "--hosts", "hosts.csv")
        listed = ", ".join(dict.fromkeys(names))
        self.assertEqual(report, f"0 {','.join(HEADER)};! sudo_review: {len(names)} cautions ({listed});")


@needs_review
class Streams(Shown):
    """Output that cannot be written."""

    program = REVIEW

    def setUp(self) -> None:
        super().setUp()
        self.write("p", "Alice ALL = ALL\n")
        self.write("users", "user,uid,groups\nroot,0,root:0\nalice,1,alice:1\n")
        self.write("hosts", "host,interfaces\nweb1,\n")
        self.write("requests", f"{REQUESTS_HEADER}1,alice,web1,,,/bin/ls,\nclose,1,,,,,\n")
        words = ("p", "--users", "users", "--hosts", "hosts")
        self.runs = {("cautions", "p"): 5, ("grants", *words): 0, ("roots", *words): 0, ("subjects", *words): 5}
        self.runs |= {(command, *words, "s=requests"): 0 for command in ("report", "rules")}
        self.write("old", "Alice ALL = /bin/ls\n")
        self.runs |= {("compare", "old", *words): 0}

    def ended(self, redirected: str, *words: str) -> tuple[int, str, str]:
        """Returns how a run ends, some of whose streams the shell directs elsewhere."""
        shell = ["sh", "-c", f'exec "$0" "$@" {redirected}', REVIEW, *words]
        done = subprocess.run(shell, cwd=self.folder, capture_output=True, text=True, check=False, timeout=60)
        return done.returncode, done.stdout, done.stderr

    def test_an_output_that_is_full_or_closed(self) -> None:
        for words in (*self.runs, ("--help",), ("--version",)):
            for redirected in (">/dev/full", ">&-"):
                with self.subTest(words=words, redirected=redirected):
                    status, out, err = self.ended(redirected, *words)
                    told = "sudo_review: write failed after 0 bytes\n" if words in self.runs else ""
                    self.assertEqual((status, out, err), (4, "", told))

    def test_an_error_output_that_is_full_or_closed(self) -> None:
        for words, status in self.runs.items():
            for redirected in ("2>/dev/full", "2>&-"):
                with self.subTest(words=words, redirected=redirected):
                    self.assertEqual(self.ended(redirected, *words), (status, self.ended("", *words)[1], ""))

    def test_both(self) -> None:
        for words in self.runs:
            self.assertEqual(self.ended(">/dev/full 2>/dev/full", *words), (4, "", ""))


if __name__ == "__main__":
    unittest.main()
