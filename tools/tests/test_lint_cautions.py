"""Cautions of sudo_review as warnings of tools/lint."""

import json
import os
import shutil
import subprocess
import unittest

from sarif_form import faults_of
from support import PROGRAM, TOOLS, Case, needs_program, needs_review
from kulavemia.lint.answers import RULES

CASE = "caution: case: a name has a capital letter: letter case counts here, not for sudo"
LINKED = "caution: linked: a command is below a folder that is a link on most machines"


@needs_program
@needs_review
class Cautions(Case):
    def setUp(self) -> None:
        super().setUp()
        self.write("p", "# one\nAnn ALL = \\\n  /bin/ls\n")

    def lint(self, *words: str, status: int = 0) -> str:
        """Returns what the tool prints."""
        return self.run_tool("lint", *words, status=status)[0]

    def test_a_caution_is_a_warning_at_its_place(self) -> None:
        lines = self.lint("p").splitlines()
        self.assertEqual(lines[:2], [f"p:2: warning: {CASE}", "    2 | Ann ALL = \\"])
        self.assertTrue(lines[2].startswith(f"p:2: warning: {LINKED}"))
        self.assertEqual(lines[-1], "p: ok")

    def test_options(self) -> None:
        self.assertEqual(self.lint("--no-cautions", "p"), "p: ok\n")
        self.assertEqual(self.lint("--without", "linked", "--without", "case", "--strict-cautions", "p"), "p: ok\n")
        self.assertTrue(self.lint("--without", "linked", "--strict-cautions", "p", status=1).endswith("p: refused\n"))
        self.lint("--without", "x", "p", status=2)
        os.chmod(self.write("stub", "#!/bin/sh\necho sudo_review: out of memory >&2\nexit 4\n"), 0o755)
        said = self.lint("--review", self.path("stub"), "p", status=4)
        self.assertIn("p: error: no cautions: sudo_review: out of memory", said)

    def test_findings_come_before_cautions(self) -> None:
        self.write("p", "Ann ALL = /opt/x\nUser_Alias A = ann\n")
        lines = [line for line in self.lint("p").splitlines() if ": warning: " in line]
        self.assertEqual(lines, ["p:2: warning: unused User_Alias A", f"p:1: warning: {CASE}"])
        self.write("p", "Ann ALL = /opt/x\nbob ALL = A\n")
        self.assertIn(CASE, self.lint("p", status=1))

    def test_of_a_file_that_is_refused_there_are_none(self) -> None:
        self.write("p", "Ann ALL =\n")
        self.assertNotIn("caution", self.lint("p", status=1))

    def test_what_the_second_program_alone_reads(self) -> None:
        self.write("p", "ann ALL = CWD=/srv /opt/x, A\nCmnd_Alias A = list\nUser_Alias B = ann\n")
        self.assertEqual(self.lint("p"), "p:3: warning: unused User_Alias B\n    3 | User_Alias B = ann\np: ok\n")
        self.assertIn("p:1: error: unsupported option", self.lint("--no-cautions", "p", status=1))
        self.write("p", "ann ALL = CWD=/srv CHROOT=/srv /opt/x\n")
        self.assertIn("p:1: warning: caution: depends: chroot: ", self.lint("p"))
        self.write("p", "ann ALL = CWD=/srv CHROOT=srv /opt/x\n")
        self.assertIn("p:1: error: unsupported option", self.lint("p", status=1))

    def test_a_fault_that_the_second_program_alone_reaches(self) -> None:
        self.write("p", "ann ALL = CHROOT=/srv /opt/x\nbob ALL = NOPASSWD:\\\n  = ALL\n")
        lines = self.lint("p", status=1).splitlines()
        self.assertEqual(lines[0], "p:3:3: error: syntax error, expected command")
        self.assertEqual(lines[-2:], ["      = sudo_review: p:2:20: syntax error, expected command", "p: refused"])
        self.write("p", "ann ALL = CHROOT=/srv /opt/x\nbob ALL = NOPASWD: /opt/x\n")
        self.assertIn("p:2:20: error: syntax error, expected member\n", self.lint("p", status=1))

    def test_formats(self) -> None:
        found = json.loads(self.lint("--format", "json", "p"))["files"][0]
        self.assertEqual((found["status"], found["ok"]), (0, True))
        self.assertEqual([finding["rule"] for finding in found["findings"]], ["caution-case", "caution-linked"])
        self.assertEqual([finding["severity"] for finding in found["findings"]], ["warning", "warning"])
        log = json.loads(self.lint("--format", "sarif", "p"))
        self.assertEqual(faults_of(log), [])
        self.assertEqual([result["ruleId"] for result in log["runs"][0]["results"]], ["caution-case", "caution-linked"])
        self.assertIn(f"::warning file=p,line=2,title=caution-case::{CASE}", self.lint("--format", "github", "p"))

    def test_an_included_file_that_leads_out(self) -> None:
        self.write("out/secret", "Root ALL = ALL\n")
        self.write("in/p", f"@include {self.path('out', 'secret')}\n")
        self.assertNotIn("Root", self.lint("in/p", status=4))
        self.assertIn(f"out/secret:1: warning: {CASE}", self.lint("--follow", "in/p"))

    def test_the_second_program_is_not_there(self) -> None:
        for words, status in (((), 0), (("--strict-cautions",), 4), (("--review", "gone"), 4)):
            with self.subTest(words):
                self.without_review(words, status)

    def without_review(self, words: tuple[str, ...], status: int) -> None:
        """Runs a copy of the tool in a repository where the second program is not built."""
        repository = os.path.dirname(TOOLS)
        shutil.copytree(TOOLS, self.path("repository", "tools"), dirs_exist_ok=True, ignore=shutil.ignore_patterns("tests"))
        shutil.copy(os.path.join(repository, "VERSION"), self.path("repository"))
        environment = {"PATH": "/usr/bin:/bin", "SUDO_AUDIT": os.path.abspath(PROGRAM)}
        line = [self.path("repository", "tools", "lint"), *words, "p"]
        done = subprocess.run(line, cwd=self.folder, env=environment, capture_output=True, text=True, check=False)
        self.assertEqual(done.returncode, status, done.stderr)
        if not status:
            self.assertEqual(done.stdout, "p: ok\n")
            self.assertIn("lint: sudo_review is not there: cautions are not looked for", done.stderr)

    def test_each_class_is_a_rule(self) -> None:
        self.assertIn("caution-blank-after-backslash", RULES)
        self.assertIn("caution-defaults", RULES)


if __name__ == "__main__":
    unittest.main()
