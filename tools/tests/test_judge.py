"""Which program judges requests, and what is taken of the second one's report."""

import io
import os
import subprocess
import unittest
from unittest import mock

from fleet_case import FleetCase
from support import EXAMPLES, PROGRAM, REVIEW, Case, needs_program, needs_review
from kulavemia import program
from kulavemia.answers import REPORT_HEADER, REVIEWED_HEADER, Verdict
from kulavemia.command import Fault
from kulavemia.compare import kind_of
from kulavemia.program import NAME, Judge, Policy, Rows, audit, find_judge
from kulavemia.requests import named_sources
from kulavemia.rows import row
from kulavemia.shown import Form

SOURCES = [f"web={EXAMPLES}/web.csv", f"ops={EXAMPLES}/ops-odd.csv", f"ops={EXAMPLES}/ops-even.csv"]


class Find(Case):
    def test_what_is_named_comes_before_what_is_found(self) -> None:
        paths = {}
        for name in ("given", "review", "bin/sudo_audit", "bin/sudo_review", "of-review", "of-audit"):
            paths[name] = self.write(name, "#!/bin/sh\n")
            os.chmod(paths[name], 0o755)
        environment = {"PATH": self.path("bin")}
        with mock.patch.dict(os.environ, environment, clear=True), mock.patch.object(program, "REPOSITORY", self.folder):
            self.assertEqual(find_judge(None, None), Judge(paths["bin/sudo_review"], program.REVIEW))
            os.environ["SUDO_AUDIT"] = paths["of-audit"]
            self.assertEqual(find_judge(None, None), Judge(paths["of-audit"], NAME))
            os.environ["SUDO_REVIEW"] = paths["of-review"]
            self.assertEqual(find_judge(None, None), Judge(paths["of-review"], program.REVIEW))
            self.assertEqual(find_judge(paths["given"], None), Judge(paths["given"], NAME))
            self.assertEqual(find_judge(paths["given"], paths["review"]), Judge(paths["review"], program.REVIEW))
            with self.assertRaisesRegex(Fault, "no program"):
                find_judge(None, self.path("gone"))
            os.environ.update(SUDO_AUDIT="", SUDO_REVIEW="")
            os.unlink(paths["bin/sudo_review"])
            self.assertEqual(find_judge(None, None), Judge(paths["bin/sudo_audit"], NAME))


class Reports(Case):
    def copied(self, rows: list[list[str]], form: Form = Form(), root: str = "") -> tuple[str, int]:
        """Returns what is copied of rows of the second program's report, and their number."""
        text = row(REVIEWED_HEADER) + "".join(map(row, rows))
        out = io.BytesIO()
        copied = Rows(out, form, root, header=REVIEWED_HEADER)
        copied.copy(io.BytesIO(text.encode()), "sudo_review")
        return out.getvalue().decode(), copied.count

    def test_the_fields_of_a_report(self) -> None:
        first = ["s", "1", "ann", "h", "", "", "/x", "", "allow", "/p:1", "NOPASSWD", ""]
        other = ["s", "2", "ann", "h", "", "", "/x", "", "nomatch", "", "", "digest"]
        quoted = ["s", "3", "ann", "h", "", "", "/x", "a,b", "deny", "/r/p:2", "", ""]
        wanted = "s,1,allow,/p:1,NOPASSWD\ns,2,depends,,\n"
        self.assertEqual(self.copied([first, other]), (wanted, 2))
        self.assertEqual(self.copied([first, other, quoted]), (wanted + "s,3,deny,/r/p:2,\n", 3))
        self.assertEqual(self.copied([first, other, quoted], root="/r"), (wanted + "s,3,deny,/p:2,\n", 3))
        self.assertEqual(self.copied([other], Form(True)), ("s,2,depends,,\n", 1))

    def test_another_header_is_refused(self) -> None:
        with self.assertRaisesRegex(Fault, "its report has the header sender,number,verdict"):
            Rows(io.BytesIO(), Form(), header=REVIEWED_HEADER).copy(io.BytesIO(row(REPORT_HEADER).encode()), "x")

    def test_an_answer_that_depends_is_a_change(self) -> None:
        for old, new, kind in (
            ("nomatch", "depends", "gained"),
            ("allow", "depends", "lost"),
            ("depends", "allow", "gained"),
            ("depends", "deny", "lost"),
            ("depends", "depends", "may"),
        ):
            self.assertEqual(kind_of(Verdict(old, "", ""), Verdict(new, "", "")), kind, f"{old} {new}")

    @needs_program
    @needs_review
    def test_both_programs_give_one_report(self) -> None:
        policy = Policy(f"{EXAMPLES}/sudoers", f"{EXAMPLES}/users.csv", f"{EXAMPLES}/hosts.csv")
        for name, path in ((NAME, PROGRAM), (program.REVIEW, REVIEW)):
            audit(Judge(path, name), policy, named_sources(SOURCES), self.path(name))
        self.assertEqual(self.read(NAME), self.read(program.REVIEW))
        self.assertGreater(len(self.rows(NAME)), 10)

    @needs_program
    @needs_review
    def test_compare_takes_either(self) -> None:
        words = ["old", f"{EXAMPLES}/sudoers", "--users", f"{EXAMPLES}/users.csv", "--hosts", f"{EXAMPLES}/hosts.csv"]
        self.write("old", "root ALL = ALL\n")
        found = [
            self.run_tool("compare", *words, option, path, *SOURCES, status=1)
            for option, path in (("--program", PROGRAM), ("--review", REVIEW))
        ]
        (by_audit, said), (by_review, told) = found
        self.assertEqual(by_audit, by_review)
        self.assertIn("gained,", by_audit)
        # sudo_review alone names cautions, and compare warns of those on one of the two policies.
        lines = told.splitlines()
        self.assertEqual(said.splitlines(), [line for line in lines if not line.startswith("compare: warning: ")])
        self.assertEqual([": defaults: noexec: " in line for line in lines], [False, True, False])


@needs_program
@needs_review
class Fleets(FleetCase):
    program = PROGRAM

    def test_both_programs_give_one_report(self) -> None:
        self.host("web1", "root ALL = ALL\njen ALL = NOPASSWD: /usr/bin/id\n")
        self.host("web2", "what\n")
        reports = []
        for option, path in (("--program", PROGRAM), ("--review", REVIEW)):
            words = ["fleet", "--out", "out", option, path]
            self.run_tool("fleet", *words, "--part", "1/1", status=0)
            self.run_tool("fleet", *words, "--join", status=1)
            reports.append((self.read("out", "report.csv"), self.read("out", "status.csv").replace(program.REVIEW, NAME)))
        self.assertEqual(reports[0], reports[1])
        self.assertIn("web1/web1,1,allow,/etc/sudoers:2,NOPASSWD\n", reports[0][0])

    def test_results_of_the_other_program_are_made_again(self) -> None:
        self.host("web1")
        for option, path, judged in (("--program", PROGRAM, 1), ("--review", REVIEW, 1), ("--review", REVIEW, 0)):
            words = ["fleet", "fleet", "--out", "out", option, path, "--part", "1/1"]
            done = subprocess.run(
                [os.path.join(os.path.dirname(EXAMPLES), "tools", words[0]), *words[1:]],
                cwd=self.folder, capture_output=True, text=True, check=True)
            self.assertIn(f"{judged} shards of 1 hosts", done.stderr)


if __name__ == "__main__":
    unittest.main()
