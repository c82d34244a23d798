"""The second program, as it is asked for its tables; here a script stands for it."""

import os
import shlex
import unittest

from support import REQUESTS_HEADER, Case
from kulavemia import review
from kulavemia.command import PROGRAM, Fault
from kulavemia.program import Policy
from kulavemia.requests import Source
from kulavemia.review import Asked
from kulavemia.shown import Form

# It prints the file that has the name of the command, with the status of the file `status`, and keeps the words that it got.
STUB = """#!/bin/sh
printf '%s\\n' "$@" >>{0}/words
cat {0}/$1.out
exit "$(cat {0}/$1.status 2>/dev/null || echo 0)"
"""


class Tables(Case):
    def setUp(self) -> None:
        super().setUp()
        self.write("-p", "alice ALL = ALL\n@includedir d\n")
        self.write("d/a: caution: case: x\ny", "bob ALL = ALL\n")
        self.write("users.csv", "user,uid,groups\n")
        self.write("hosts.csv", "host,interfaces\n")
        for name, header in review.HEADERS.items():
            self.write(f"{name}.out", ",".join(header) + "\n")
        self.write("cautions.out", "cautions: 0\n")
        os.chmod(self.write("stub", STUB.format(shlex.quote(self.folder))), 0o755)
        self.asked = self.asking()

    def asking(self, root: str = "", form: Form = Form()) -> Asked:
        """Returns how the program is asked."""
        policy = Policy(self.path("-p"), self.path("users.csv"), self.path("hosts.csv"), root)
        return Asked(self.path("stub"), policy, form)

    def test_what_is_written_is_read_back(self) -> None:
        self.write("subjects.out", "place,kind,name,what\np:1,user,\x1b[31m,unknown\n")
        self.write("subjects.status", "5")
        self.write("grants.out", ",".join(review.HEADERS["grants"]) + "\n" + 'p:1,"a, b",ALL,,,=x\x1b,,\n' * 3)
        for form in (Form(), Form(True)):
            counts = self.asking(form=form).write(self.path("out"))
            self.assertEqual(counts, {"cautions": 0, "grants": 3, "roots": 0, "subjects": 1})
            self.assertEqual(list(review.rows_of(self.path("out"), "subjects")), [["p:1", "user", "\x1b[31m", "unknown"]])
            self.assertEqual(list(review.rows_of(self.path("out"), "grants"))[0][5], "=x\x1b")
            self.assertNotIn("\x1b", self.read("out", "subjects.csv"))

    def test_the_words(self) -> None:
        self.asked.write(self.path("out"))
        words = self.read("words").split("\n")
        self.assertIn("--all", words)
        self.assertEqual(words.count("--"), 4)

    def test_places_are_without_the_root_folder(self) -> None:
        self.write("roots.out", ",".join(review.HEADERS["roots"]) + f"\na,h,root,all,own,{self.folder}/etc/sudoers:1,,,\n")
        place = f"{self.folder}/-p"
        self.write("cautions.out", f"{place}:1: caution: case: a name\ncautions: 1\n")
        self.write("cautions.status", "5")
        self.asking(self.folder).write(self.path("out"))
        self.assertEqual(list(review.rows_of(self.path("out"), "roots"))[0][5], "/etc/sudoers:1")
        self.assertEqual(list(review.rows_of(self.path("out"), "cautions")), [["/-p:1", "case", "a name", "alice ALL = ALL"]])

    def test_names_of_files_that_look_like_cautions(self) -> None:
        main, other = self.path("-p"), self.path("d/a: caution: case: x\ny")
        text = f"{other}:1: caution: join: lines\n{main}:1: caution: defaults: targetpw: decides\ncautions: 2\n"
        self.write("cautions.out", text)
        self.write("cautions.status", "5")
        wanted = [
            (f"{other}:1", "join", "lines", "bob ALL = ALL"),
            (f"{main}:1", "defaults", "targetpw: decides", "alice ALL = ALL"),
        ]
        self.assertEqual([tuple(found) for found in self.asked.cautions()], wanted)
        for wrong in (text.replace(": 2", ": 3"), text + "x", text.replace(main, "elsewhere"), ""):
            self.write("cautions.out", wrong)
            with self.assertRaisesRegex(Fault, "its cautions cannot be read") as raised:
                self.asked.cautions()
            self.assertEqual(raised.exception.status, PROGRAM)

    def test_a_program_that_refuses_is_told(self) -> None:
        self.write("grants.status", "1")
        self.write("grants.out", "p:1: error: undefined Host_Alias NET\n")
        with self.assertRaisesRegex(Fault, "undefined Host_Alias NET") as raised:
            self.asked.write(self.path("out"))
        self.assertEqual(raised.exception.status, PROGRAM)
        self.write("grants.status", "5")
        with self.assertRaises(Fault):
            self.asked.write(self.path("out"))

    def test_another_header_is_refused(self) -> None:
        self.write("roots.out", "Usage: sudo_review\n")
        with self.assertRaisesRegex(Fault, "its report has the header Usage"):
            self.asked.write(self.path("out"))
        self.assertFalse(os.path.exists(self.path("out", "roots.csv")))

    def test_counts_of_runs_are_added(self) -> None:
        self.write("r.csv", REQUESTS_HEADER + "close,0,,,,,\n")
        self.write("rules.out", "place,commands,allowed,denied,depends\np:1,2,3,4,time\n")
        sources = [Source(f"s{at}", f"s{at}", 1, self.path("r.csv"), None) for at in range(130)]
        self.asked.rules(sources, self.path("rules.csv"), 2)
        self.assertEqual(self.rows("rules.csv")[1:], ["p:1,2,9,12,time"])


if __name__ == "__main__":
    unittest.main()
