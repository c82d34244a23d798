"""Tests that what tools/lint writes as SARIF is of the form of SARIF 2.1.0, as far as sarif_form.py has it."""

import copy
import json
import unittest
from typing import Any

from support import Case
from kulavemia.lint.answers import FAILED, RULES, Finding, Report, report_of
from kulavemia.lint.formats import Context, as_sarif
from lint_cases import CASES
from sarif_form import faults_of

PATHS = (
    "a b:1%",
    "\udcff/\u202e",
    "größe",
    "x\n::error::y",
    "../up",
    "/etc/sudoers",
    "a//b/./c",
    "-x",
    "a?b#c",
    "a[1]^`{}|\\",
)


class Sarif(Case):
    def log(self, *reports: Report, status: int = 1) -> Any:
        """Returns the log of reports."""
        return json.loads(as_sarif(list(reports), Context("0.1.0", status, self.folder)))

    def test_each_recorded_answer(self) -> None:
        for name, case in CASES.items():
            with self.subTest(name):
                self.write("case", case.policy)
                path = self.path("case")
                output, complaint = (text.replace("case:", f"{path}:") for text in (case.output, case.complaint))
                log = self.log(report_of(path, case.status, output, complaint), status=case.status)
                self.assertEqual(faults_of(log), [])
                self.assertEqual(len(log["runs"][0]["results"]), len(case.places))

    def test_each_rule_level_and_path(self) -> None:
        findings = [
            Finding(path, line, column, level, rule, "text \x1b \udcff \u2028")
            for path in PATHS
            for line, column in ((None, None), (1, None), (16_777_216, 1))
            for level, rule in zip(("error", "warning", "note") * len(RULES), RULES)
        ]
        log = self.log(Report("x", FAILED, tuple(findings)), status=FAILED)
        self.assertEqual(faults_of(log), [])
        self.assertEqual(len(log["runs"][0]["results"]), len(findings))
        self.assertEqual({result["level"] for result in log["runs"][0]["results"]}, {"error", "warning", "note"})

    def test_nothing_to_tell(self) -> None:
        self.assertEqual(faults_of(self.log(status=0)), [])

    def test_other_forms_are_refused(self) -> None:
        self.write("case", CASES["joined twice"].policy)
        good = self.log(report_of(self.path("case"), 1, "", f"sudo_audit: {self.path('case')}:1:32: bad quote\n"))
        self.assertEqual(faults_of(good), [])
        result = ("runs", 0, "results", 0)
        place = (*result, "locations", 0, "physicalLocation")
        for path, value in (
            (("version",), "2.0.0"),
            (("further",), 1),
            (("runs", 0, "tool", "driver", "name"), ""),
            (("runs", 0, "tool", "driver", "rules", 1, "id"), "syntax-error"),
            (("runs", 0, "columnKind"), "bytes"),
            (("runs", 0, "invocations", 0, "executionSuccessful"), "yes"),
            ((*result, "level"), "fatal"),
            ((*result, "ruleIndex"), 4),
            ((*result, "message"), {}),
            ((*result, "message", "text"), "\udcff"),
            ((*place, "artifactLocation", "uri"), "a b"),
            ((*place, "artifactLocation", "uri"), "file:///x"),
            ((*place, "artifactLocation", "uri"), "../x"),
            ((*place, "region", "startLine"), 0),
            ((*place, "region", "startColumn"), True),
            ((*place, "region"), {"startColumn": 1}),
        ):
            with self.subTest(path):
                log = copy.deepcopy(good)
                inner = log
                for name in path[:-1]:
                    inner = inner[name]
                inner[path[-1]] = value
                self.assertNotEqual(faults_of(log), [])


if __name__ == "__main__":
    unittest.main()
