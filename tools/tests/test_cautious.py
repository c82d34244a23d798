"""Tests of dev/differential --cautions: how it measures the cautions of sudo_review."""

import itertools
import os
import re
import tomllib
import unittest
from collections import Counter

from support import DEV, PROGRAM, REVIEW, TESTS, Case
from test_differential import PEER
from test_documents import CODE, rows_of

from differ import ask, cautious, world
from differ.aimed import DRAWN, drawn
from differ.alone import alone_with, requests_for
from differ.assumed import EDIT, unmet
from differ.classes import NAMES, ROWS, WAYS
from differ.draw import Draw
from differ.profile import FILES, GRANTS
from differ.review import LEFT_OUT, Caution
from differ.search import Both
from differ.shrink import ENTRIES_AND_MEMBERS, Shrinker
from differ.world import Request

COLUMNS = (
    ["Policy", "Here", "sudo"],
    ["Policy and request", "Here", "sudo"],
    ["Rule and request of alice, who has the group `adm`", "Here", "sudo"],
)
CLASS = re.compile(r"\(`([a-z-]+)`")
LS = f"{world.TOP}/b/ls"
ASKED = Request("alice", "web1.example.org", "", "", LS, "")
needs_all = unittest.skipUnless(
    PROGRAM and REVIEW and PEER, "the program sudo_audit or sudo_review, or the peer of dev/differential, is not built"
)


def classes_of_cells() -> dict[str, set[str]]:
    """Returns the classes that the profile names, by the first cells of its rows and the code in them."""
    found: dict[str, set[str]] = {}
    for columns in COLUMNS:
        for heading, (first, here, _) in rows_of("docs/PROFILE.md", columns):
            named = CLASS.findall(here) or (["defaults"] if heading == "Defaults that decide" else [])
            for cell in (first, *CODE.findall(first)):
                found.setdefault(cell, set()).update(named)
    return found


class Classes(unittest.TestCase):
    """How the constructs of classes are taken out."""

    def test_each_class_has_ways(self) -> None:
        with open(os.path.join(TESTS, "runs", "cautions.toml"), "rb") as file:
            classes = list(tomllib.load(file)["classes"])
        self.assertEqual(NAMES, [name for name in classes if name not in LEFT_OUT])
        self.assertEqual(list(WAYS), NAMES)

    def test_each_class_is_drawn(self) -> None:
        self.assertEqual(list(DRAWN), NAMES)
        for name, number in itertools.product(NAMES, range(20)):
            case, requests = drawn(name, f"seed.{number}")
            self.assertEqual((case, requests), drawn(name, f"seed.{number}"))
            self.assertTrue(requests, name)

    def test_the_rows_of_a_class_are_those_that_the_profile_gives_it(self) -> None:
        known = classes_of_cells()
        by_class: dict[str, set[str]] = {}
        for row in (*GRANTS, *FILES):
            # One cell stands in several tables: it is a row of files as that of a carriage return.
            for name in known[row.cell].difference(LEFT_OUT) if row.cell != "alice ALL = /bin/ls" else ():
                by_class.setdefault(name, set()).add(row.cell)
        self.assertEqual({name: set(cells) for name, cells in ROWS.items()}, by_class)

    def test_ways(self) -> None:
        for name, text, way in (
            ("return", "a ALL = /b\r\nc ALL = ALL\n", "a ALL = /b\nc ALL = ALL\n"),
            ("return", "a ALL = /b\\\r\n -l\r\nc ALL = ALL\n", "c ALL = ALL\n"),
            ("torn-mark", "a ALL = NOPASSWD\\\n: ALL\nb ALL = ALL\n", "a ALL = NOPASSWD: ALL\nb ALL = ALL\n"),
            ("quoted-host", 'a "web?" = ALL\n', "a web? = ALL\n"),
            ("quoted-escape", '"bo\\x62" ALL = ALL\n', "bo\\\\x62 ALL = ALL\n"),
            ("defaults", "Defaults runas_default=bob\na ALL = ALL\n", "Defaults runas_default=bob\na ALL = (bob) ALL\n"),
            ("defaults", "Defaults !root_sudo, umask=1\n", "Defaults !insults, umask=1\n"),
            ("sudoedit", "a ALL = /usr/bin/sudoedit /x\n", "a ALL = sudoedit /x\n"),
            ("network", "a 127.0.0.1, 10.1.2.3/0.0.0.0 = ALL\n", "a 127.0.0.1, zz = ALL\n"),
            ("setenv", "a ALL = NOSETENV: ALL, SETENV : /b\n", "a ALL = ALL, /b\n"),
            ("group-form", "a ALL = (:adm) ALL, (bob:adm) /b, (:) /c\n", "a ALL = (!ALL) ALL, (bob:adm) /b, (:) /c\n"),
        ):
            with self.subTest(name=name, text=text):
                self.assertIn(way, [case.text for case in WAYS[name](ask.Case(text))])


class Assumed(unittest.TestCase):
    """What must hold of requests and machines."""

    def test_what_is_not_met(self) -> None:
        for name, text, request in (
            ("", "alice ALL = ALL\n", ASKED),
            ("", "alice ALL = ALL\n", ASKED._replace(command=EDIT, arguments="/x")),
            ("", "Carol ALL = ALL\nUser_Alias ADM = bob\n", ASKED._replace(user="Carol", runas_user="bob")),
            ("group", "alice ALL = ALL\n", ASKED._replace(runas_group="adm")),
            ("number", "alice ALL = ALL\n", ASKED._replace(runas_user="#1001")),
            ("file", "alice ALL = ALL\n", ASKED._replace(command=world.GONE)),
            ("dot", "alice ALL = ALL\n", ASKED._replace(command=f"{world.TOP}/b/.hid")),
            ("case", "alice ALL = (carol) ALL\n", ASKED._replace(runas_user="Carol")),
            ("case", "%staff ALL = ALL\n", ASKED._replace(user="Carol")),
        ):
            with self.subTest(name=name, text=text, request=request):
                self.assertEqual(unmet(ask.Case(text, (), request)), name)

    def test_hosts_have_the_interfaces_that_sudo_sees(self) -> None:
        for host in world.HOSTS_KNOWN:
            self.assertEqual(unmet(ask.Case("", (), ASKED._replace(host=host.name))), "")


class Alone(unittest.TestCase):
    """Policies with one caution."""

    def left(self, text: str, wanted: str, *others: str) -> str | None:
        """Returns what is left beside the caution on a line of a policy that has others on other lines."""
        cautions = [Caution(f"policy:{place}", "case", "") for place in (wanted, *others)]
        case = alone_with(ask.Case(text), cautions[0], cautions)
        return case.text if case else None

    def test_other_rules_and_lines_with_other_cautions_go(self) -> None:
        aliases = "User_Alias A = bob\nDefaults insults\n# x\n"
        for text, places, left in (
            (f"{aliases}Bob ALL = ALL\nbob, \\\n eve ALL = ALL\n", "4", f"{aliases}Bob ALL = ALL\n"),
            ("Defaults x\nBob, \\\n eve ALL = ALL\nEve ALL = ALL\n", "314", "Bob, \\\n eve ALL = ALL\n"),
        ):
            with self.subTest(text):
                self.assertEqual(self.left(text, *places), left)

    def test_rules_that_use_an_alias_stay(self) -> None:
        text = "User_Alias A = Bob\nA ALL = ALL\nEve ALL = ALL\n"
        self.assertEqual(self.left(text, "1", "3"), "User_Alias A = Bob\nA ALL = ALL\n")
        self.assertIsNone(self.left("User_Alias A = Bob\nbob ALL = ALL\n", "1"))

    def test_a_line_with_another_caution(self) -> None:
        self.assertIsNone(self.left("Bob ALL = ALL\n", "1", "1"))
        self.assertIsNone(self.left("Bob, \\\n Eve ALL = ALL\n", "1", "2"))

    def test_requests_have_what_the_policy_names(self) -> None:
        draw = Draw("1", 3)
        draw.text()
        case = ask.Case("alice ALL = (Carol) /bin/ls\n")
        asked = requests_for(draw, case, "1", world.users(is_lower=True))
        self.assertEqual({one.runas_user for one in asked}, {"", "alice", "carol"})
        self.assertLessEqual({one.command for one in asked}, {EDIT, world.GONE, *draw.used_commands, *world.COMMANDS})


class Small(unittest.TestCase):
    """How policies are made small."""

    def test_entries_and_members_that_are_not_needed_go(self) -> None:
        def differs(case: ask.Case) -> bool:
            member = r"\w+(?:, \w+)*"
            rule = rf"^(?=.*\balice\b.*\bPostgres\b.*/b){member} ALL = \({member}\) (NOPASSWD: )?/\w(, /\w)*$"
            return re.search(rule, case.text, re.MULTILINE) is not None

        text = "bob ALL = ALL\nbob, alice, eve ALL = (root, Postgres) NOPASSWD: /a, /b, /c\nroot ALL = ALL\n"
        small = Shrinker(differs, ENTRIES_AND_MEMBERS).shrunk(ask.Case(text, (), ASKED))
        self.assertEqual(small.text, "alice ALL = (Postgres) /b")


class Words(Case):
    """The command line."""

    @needs_all
    def test_a_seed(self) -> None:
        words = ["--verdicts", "40", "--sample", "1", "--each", "1", "--draws", "10", "--jobs", "1", "--seed", "1"]
        out, _ = self.run_tool("differential", "--cautions", *words, "--program", PROGRAM, "--review", REVIEW, folder=DEV)
        expected = (
            r"seed 1\n(.*\n)*\d+ policies, \d+ \(\d+\.\d %\) without cautions, \d+ of them not read by sudo\n(.*\n)*"
            r"\d+ verdicts under policies without cautions, 0 differ\n(.*\n)*"
            r"\d+ policies with a difference, \d+ explained by a caution, \d+ by two together, \d+ by three,"
            r" \d+ by what sudo does not read, 0 by none\n"
        )
        self.assertRegex(out, f"^{expected}")
        self.assertGreaterEqual(len(re.findall("policies with one caution of", out)), len(NAMES))


@needs_all
class Measured(Case):
    """How cautions are measured."""

    def setUp(self) -> None:
        super().setUp()
        assert PEER is not None
        self.measure = cautious.Measure(cautious.Programs(PROGRAM, REVIEW, PEER), self.folder)

    def explained(self, text: str, request: Request) -> cautious.Sampled:
        """Returns how a difference is explained."""
        case = ask.Case(text, (), request)
        both = self.measure.asked(case)
        self.assertTrue(both.differ())
        return self.measure.explained("0", case, both)

    def test_a_caution_explains(self) -> None:
        postgres = ASKED._replace(runas_user="postgres")
        for name, text, request in (
            ("case", "bob ALL = ALL\nbob, Alice ALL = /bin/ls, ALL\n", ASKED),
            ("defaults", "Defaults runas_default=postgres, insults\nalice ALL = ALL\n", postgres),
            ("return", f"alice ALL = {LS}\r\n", ASKED),
            ("group-form", "alice ALL = (:operator) ALL\n", ASKED),
        ):
            with self.subTest(name=name):
                self.assertEqual(list(self.explained(text, request).explained), [name])

    def test_two_cautions_explain_together(self) -> None:
        found = self.explained(f"Cmnd_Alias ADM = ALL\nalice ALL = ADM, {world.TOP}/\\*b/c\\,\n", ASKED)
        self.assertEqual((found.together, found.unread, found.explained), (Counter([2]), 0, Counter()))

    def test_no_caution_explains(self) -> None:
        found = self.explained("alice ALL = ALL\nbob ALL = (Root) /bin/ls\n", ASKED._replace(runas_group="adm"))
        ((names, left),) = found.left
        self.assertEqual((names, left.case.text.strip()), ("", "alice ALL = ALL"))

    def test_what_sudo_does_not_read(self) -> None:
        self.assertEqual(self.explained("sha256, alice ALL = ALL\n", ASKED).unread, 1)

    def test_answers_under_the_lines_that_sudo_reads(self) -> None:
        both = self.measure.asked(ask.Case("alice ALL = ALL\nsha256 ALL = ALL\n", (), ASKED))
        self.assertEqual(both, Both(ask.Answer("allow", "policy:1", "SETENV"), ask.Answer("allow", "policy:1", "SETENV")))

    def test_a_comment_alone_on_its_line_is_not_continued(self) -> None:
        both = self.measure.asked(ask.Case("# x \\\nalice ALL = ALL\n", (), ASKED))
        self.assertEqual(both.there.place, "policy:2")


if __name__ == "__main__":
    unittest.main()
