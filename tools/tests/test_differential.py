"""Tests of dev/differential: what it draws, how it makes differences small, and how it sorts them."""

import csv
import ipaddress
import os
import subprocess
import unittest
from typing import Any
from unittest import mock

from support import DEV, PROGRAM, Case
from test_documents import CODE, rows_of
from test_profile import GRANTS as SHOWN
from test_profile import HOSTS, USERS, Grant, policy_of, rows_below

from differ import ask, peer, search
from differ.draw import drawn_file, drawn_policy
from differ.pieces import pieces_of
from differ.profile import FILES, GRANTS
from differ.shrink import Shrinker
from differ.world import Request

PEER = peer.standing(peer.cache())
# Policies that sudo reads in part, or whose files are not there: visudo refuses them.
READ_IN_PART = ("alice ALL = = ALL", "@include gone", '@include /x/a"b"')
needs_peer = unittest.skipUnless(PEER, "the peer of dev/differential is not built")
needs_both = unittest.skipUnless(
    PROGRAM and PEER, "the program sudo_audit, or the peer of dev/differential, is not built"
)


def cells() -> set[str]:
    """Returns the code of the first cells of the tables of the profile."""
    columns = [["Policy", "Here", "sudo"], ["Policy and request", "Here", "sudo"]]
    columns.append(["Rule and request of alice, who has the group `adm`", "Here", "sudo"])
    rows = [row for names in columns for row in rows_of("docs/PROFILE.md", names)]
    return {code for _, row in rows for code in [row[0], *CODE.findall(row[0])]}


class Drawn(unittest.TestCase):
    """What is drawn."""

    def test_a_seed_draws_the_same_again(self) -> None:
        self.assertEqual(drawn_policy("7.p1.2", 5), drawn_policy("7.p1.2", 5))
        self.assertEqual(drawn_file("7.f1.2"), drawn_file("7.f1.2"))
        self.assertNotEqual(drawn_file("7.f1.2"), drawn_file("7.f1.3"))

    def test_pieces_are_the_whole_text(self) -> None:
        for number in range(500):
            text = drawn_file(f"{number}").text
            self.assertEqual("".join(piece.text for piece in pieces_of(text)), text)

    def test_pieces_have_the_role_of_their_list(self) -> None:
        text = 'alice, "b c" web1 = (root : #4) NOPASSWD: /bin/ls -l, sudoedit /x : db = ALL # x\n'
        members = [
            (piece.role, piece.text) for piece in pieces_of(text) if piece.kind not in ("blank", "mark", "newline")
        ]
        users = [("user", "alice"), ("user", '"b c"'), ("host", "web1"), ("runas", "root"), ("runas", "#4")]
        commands = ["NOPASSWD", "/bin/ls", "-l", "sudoedit", "/x"]
        self.assertEqual(members[:5], users)
        self.assertEqual(members[5:10], [("cmnd", text) for text in commands])
        self.assertEqual(members[10:], [("host", "db"), ("cmnd", "ALL"), ("cmnd", "# x")])

    def test_a_list_of_defaults_stands_right_behind_the_word(self) -> None:
        for text, role in (("Defaults@db x", "host"), ("Defaults @db", "parameter"), ("Defaults!ALL x", "cmnd")):
            with self.subTest(text):
                word = next(piece for piece in pieces_of(text) if piece.role != "name" and piece.kind == "word")
                self.assertEqual(word.role, role)

    def test_an_include_line_has_a_blank_behind_its_word(self) -> None:
        for text, role in (("@include x", "include"), ("#includedir\tx", "include"), ("@includedir!x=ALL", "host")):
            with self.subTest(text):
                self.assertEqual([piece.role for piece in pieces_of(text) if piece.text == "x"], [role])

    def test_marks_belong_to_a_path_that_begins_with_sudoedit(self) -> None:
        (path,) = [piece for piece in pieces_of('alice ALL = sudoedit"a\\b, ALL\n') if piece.kind == "path"]
        self.assertEqual(path.text, 'sudoedit"a\\b')

    def test_tags_keep_their_names(self) -> None:
        row = next(row for row in FILES if row.cell == "Host_Alias MAIL = web1")
        text = "Runas_Alias MAIL = bob : A = MAIL : B = x\nbob ALL = (MAIL : adm) MAIL: /a, !MAIL : b = MAIL :/b\n"
        renamed = "Runas_Alias ZMAIL = bob : A = ZMAIL : B = x\nbob ALL = (ZMAIL : adm) MAIL: /a, !ZMAIL : b = MAIL :/b"
        self.assertEqual(next(row.change(ask.Case(text))).text, f"{renamed}\n")

    def test_numbers_without_a_value_alone_are_replaced(self) -> None:
        row = next(row for row in FILES if row.cell == "#4294967296")
        text = '#5, #5x, "#5x", %#-1, #4294967296 10.1.2.3, 10.1.2.300, 10.1.0.0/16, 10.0.0.0/33, a/b = ALL\n'
        one = "#5, zz, zz, zz, zz 10.1.2.3, zz, 10.1.0.0/16, zz, zz = ALL\n"
        changed = [case.text for case in row.change(ask.Case(text))]
        self.assertEqual(changed, [one, one.replace("#5, zz", "#5, zz zz")])

    def test_a_default_is_taken_out_with_its_value(self) -> None:
        row = next(row for row in GRANTS if row.cell == "Defaults sudoers_locale=C.UTF-8")
        case = ask.Case('Defaults sudoers_locale = "C.UTF-8", !syslog\nbob ALL = ALL # sudoers_locale=C\n')
        text = "Defaults insults, !syslog\nbob ALL = ALL # sudoers_locale=C\n"
        self.assertEqual(next(row.change(case)).text, text)

    def test_escaped_digits_of_numbers_alone_are_replaced(self) -> None:
        case = ask.Case("#5\\4, %#5\\x34\\5, #5\\z, a5\\4, %#\\5, #54 a5\\4 = (#5\\4) /b5\\4\n")
        joined = next(row for row in FILES if row.cell == "#5\\4 ALL = ALL")
        text = "#54, %#545, #5\\z, a5\\4, %#\\5, #54 a5\\4 = (#54) /b5\\4\n"
        self.assertEqual(next(joined.change(case)).text, text)
        cut = next(row for row in FILES if row.cell == "#5\\4 = ALL")
        case = ask.Case("%#5\\x34\\5, bob, a5\\4 = ALL\n")
        self.assertEqual(next(cut.change(case)).text, "%#5 \\x34\\5, bob, a5\\4 = ALL\n")

    def test_complements_are_written_as_both_read_them(self) -> None:
        row = next(row for row in GRANTS if row.cell == "alice ALL = /usr/bin/passwd [^-]*")
        case = ask.Case("a w[^b] = /[^c]/\\[^d [^e]\n")
        self.assertEqual(next(row.change(case)).text, "a w[\\!b] = /[!c]/\\[^d [!e]\n")

    def test_a_value_may_be_a_sign(self) -> None:
        row = next(row for row in FILES if row.cell == "Defaults nonsense")
        case = ask.Case("Defaults!ALL passwd_tries=!, ! umask = =x, lecture\n")
        self.assertEqual(next(row.change(case)).text, "Defaults!ALL insults, ! insults, insults\n")

    def test_backslashes_in_pairs_are_taken_out_of_hosts_together(self) -> None:
        row = next(row for row in GRANTS if row.cell == "alice web\\* = ALL")
        *_, case = row.change(ask.Case("a b[\\\\\\,\\\\x-z], c\\\\d, e\\*\\x5cf\\g = /h\\\\i\n"))
        self.assertEqual(case.text, "a b[z\\,zx-z], czd, e*zf\\g = /h\\\\i\n")

    def test_a_blank_behind_a_backslash_is_read_by_its_place(self) -> None:
        row = next(row for row in FILES if row.cell.startswith("Cmnd_Alias A = /bin/ls, "))
        *_, case = row.change(ask.Case("Host_Alias A = web1, b\\ \nalice, bob A, \\  \n web2 = ALL\n"))
        self.assertEqual(case.text, "Host_Alias A = web1, b\\x20\nalice, bob A,  web2 = ALL\n")

    def test_an_open_quote_ends_with_its_line(self) -> None:
        pieces = pieces_of('a b = /c"\nd e = "f\\\n g" # h\n')
        self.assertEqual([piece.role for piece in pieces if piece.text in ("d", "e")], ["user", "host"])
        self.assertIn('"f\\\n g"', [piece.text for piece in pieces])

    def test_a_backslash_behind_the_path_of_an_include_line_ends_it(self) -> None:
        row = next(row for row in FILES if row.cell == "@includedir /x\\")
        case = ask.Case("@includedir x\\\\\\\nbob a\\\nb = ALL\n@includedir \\\nx\\\\\n")
        text = "@includedir x\\\\z\nbob a\\\nb = ALL\n@includedir \\\nx\\\\\n"
        self.assertEqual(next(row.change(case)).text, text)

    def test_carriage_returns_are_taken_out_by_their_places(self) -> None:
        row = next(row for row in FILES if row.cell == "a name, a backslash and CR LF, and then a rule")
        case = ask.Case("Runas_Alias A = !%\\\r\n\nbob ALL = ALL,\\\r\n ALL\r\n")
        text = "Runas_Alias A = !%z\n\nbob ALL = ALL,\\\r\n ALL\r\n"
        self.assertEqual(next(row.change(case)).text, text)
        row = next(row for row in FILES if row.cell == "a line of a command alone, with CR LF at the end")
        case = ask.Case("/u -l\r\nsudoedit\r\n/u, /v\r\nbob ALL = ALL, \\\n/u\r\n/u\n/u\r")
        text = "\n\n/u, /v\r\nbob ALL = ALL, \\\n/u\r\n/u\n"
        self.assertEqual(next(row.change(case)).text, text)

    def test_backslashes_that_escape_one_another_join_no_lines(self) -> None:
        row = next(row for row in FILES if row.cell == "alice\\")
        case = ask.Case("a\\\\\nb\\\\\\\n c\n")
        self.assertEqual(next(row.change(case)).text, "a\\\\\nb\\\\ c\n")

    def test_aliases_written_out_have_their_signs_turned(self) -> None:
        case = ask.Case("Cmnd_Alias X = !ALL, /p\nbob ALL = ! X, X\n")
        row = next(row for row in GRANTS if row.cell == "Cmnd_Alias X = ALL")
        self.assertEqual(next(row.change(case)).text, "Cmnd_Alias X = !ALL, /p\nbob ALL = ALL, !/p, !ALL, /p\n")
        case = ask.Case("Cmnd_Alias X = !ALL : MAIL = !X, X, /p\nbob ALL = ! MAIL\n")
        self.assertIn("bob ALL = !ALL, ALL, !/p\n", next(row.change(case)).text)
        case = ask.Case("Cmnd_Alias X = /p\nbob ALL = X\r\n")
        self.assertIn("bob ALL = /p\n", next(row.change(case)).text)
        case = ask.Case("Cmnd_Alias X = Y : Y = X\nbob ALL = X\n")
        self.assertIn("bob ALL = X\n", next(row.change(case)).text)
        case = ask.Case("Cmnd_Alias MAIL = ALL\nbob ALL = MAIL : MAIL\n")
        self.assertEqual(next(row.change(case)).text, "Cmnd_Alias MAIL = ALL\nbob ALL = MAIL : ALL\n")


def is_of_adm(case: ask.Case) -> bool:
    """Returns whether a case has a joined `ls` and a request with the group `adm`."""
    return "l\\\ns" in case.text and case.request is not None and case.request.runas_group == "adm"


class Small(unittest.TestCase):
    """How differences are made small."""

    def test_only_what_differs_is_left(self) -> None:
        request = Request("alice", "web1", "root", "adm", "/bin/ls", "-l")
        case = ask.Case("bob ALL = ALL\nalice ALL = /bin/l\\\ns\n# x\n", (("more", "x"),), request)
        shrunk = Shrinker(is_of_adm).shrunk(case)
        self.assertEqual(shrunk, ask.Case("l\\\ns", (), request._replace(runas_user="", arguments="")))

    def test_a_bound_ends_it(self) -> None:
        tried: list[ask.Case] = []

        def differs(case: ask.Case) -> bool:
            tried.append(case)
            return "x" not in case.text

        Shrinker(differs).shrunk(ask.Case("ab\n" * 2000 + "x"))
        self.assertLess(len(tried), 2000)


class Rows(unittest.TestCase):
    """The rows that explain differences."""

    def test_each_row_is_in_the_profile(self) -> None:
        known = cells()
        for row in (*GRANTS, *FILES):
            with self.subTest(row=row.cell):
                self.assertTrue(row.cell in known)


class Words(Case):
    """The command line."""

    def differential(self, *words: str, status: int, environment: dict[str, str] | None = None) -> str:
        """Runs the command and returns what it wrote."""
        command = [os.path.join(DEV, "differential"), *words]
        done = subprocess.run(command, cwd=self.folder, capture_output=True, text=True, check=False, env=environment)
        self.assertEqual(done.returncode, status, done.stdout + done.stderr)
        return done.stdout + done.stderr

    def test_wrong_words(self) -> None:
        for words in (["--jobs", "0"], ["--verdicts", "-1"], ["--files", "x"], ["more"]):
            with self.subTest(words=words):
                self.differential(*words, status=2)

    def test_a_peer_that_cannot_be_had(self) -> None:
        said = self.differential(
            "--program", "/bin/true", "--peer", "gone", status=4, environment={"PATH": self.folder}
        )
        self.assertRegex(said, "^differential: (apt-get is not installed|the peer is built on Debian alone)")

    @needs_both
    def test_a_seed_without_a_new_difference(self) -> None:
        words = ["--program", PROGRAM, "--seed", "1", "--verdicts", "1000", "--files", "200", "--jobs", "1"]
        said = self.differential(*words, status=0)
        self.assertRegex(said, r"^seed 1\n(.*\n)*\d+ files\n10\d\d verdicts, \d+ differ, 0 unexplained\n$")


@needs_both
class Sorted(Case):
    """How cases are sorted."""

    def setUp(self) -> None:
        super().setUp()
        assert PEER is not None
        self.search = search.Search(ask.Asker(PROGRAM, PEER, self.folder))

    def sorted(self, text: str, request: Request | None = None) -> list[Any]:
        """Returns the rows that explain the answers to a case, or what is new."""
        case = ask.Case(text, (), request)
        self.search.sort("0", case, self.search.asked(case))
        return [*self.search.explained, *self.search.new]

    def test_an_explained_verdict(self) -> None:
        request = Request("alice", "web1.example.org", "", "", "/bin/ls", "a\\b")
        self.assertEqual(self.sorted("alice ALL = /bin/ls a\\\\b\n", request), ["alice ALL = /bin/ls a\\\\b"])

    def test_an_escape_behind_a_mark_and_an_escaped_blank_of_a_path(self) -> None:
        request = Request("alice", "web1.example.org", "", "", "/proc/self/cwd/b/a b", "")
        self.assertEqual(self.sorted("alice ALL = /proc/self/cwd/b/a\\ [!\\*]\n", request), ["alice ALL = /bin/l!\\*"])

    def test_an_explained_default_with_a_byte_in_its_value(self) -> None:
        request = Request("alice", "web1.example.org", "", "", "/bin/ls", "")
        text = "Defaults@web1 insults, runas_default=pos\x80tgres, !syslog\nalice ALL = /bin/ls\n"
        self.assertEqual(self.sorted(text, request), ["Defaults runas_default=postgres"])

    def test_an_explained_file(self) -> None:
        self.assertEqual(self.sorted("alice ALL = ALL\nsha256 ALL = ALL\n"), ["sha256 ALL = ALL"])

    def test_the_profile_explains_its_own_examples(self) -> None:
        for heading in ("Refused here, read by sudo", "Read here, refused by sudo"):
            for cell, _ in rows_below(heading):
                policy = policy_of(cell)
                if policy and not policy.startswith(READ_IN_PART):
                    with self.subTest(policy=policy):
                        self.search.new = []
                        self.sorted(policy)
                        self.assertEqual(self.search.new, [])

    def test_a_blank_behind_a_word_and_one_behind_a_comma(self) -> None:
        text = "Host_Alias A = web1, b\\ \nalice, bob A, \\  \n web2 = ALL\n"
        self.assertEqual(self.sorted(text), ["Cmnd_Alias A = /bin/ls, \\ "])

    def test_nothing_differs(self) -> None:
        self.assertEqual(self.sorted("alice ALL = ALL\n"), [])

    def test_a_small_case_excuses_nothing_but_its_own_difference(self) -> None:
        rows = tuple(row for row in FILES if row.cell != "Defaults: ! alice !lecture")
        with mock.patch.object(self.search, "rows", return_value=rows):
            (new,) = self.sorted("Defaults:! alice env_reset\n")
        self.assertIn("! alice", new.case.text)

    def test_differences_of_several_constructs(self) -> None:
        text = 'Defaults:! alice env_rest, "x"\nsha256 ALL = /bin/ -l, /bin/l\\s\n'
        self.assertEqual(len(self.sorted(text)), 1)
        self.assertEqual(self.search.new, [])

    def test_a_join_does_not_excuse_another_difference(self) -> None:
        rows = tuple(row for row in GRANTS if row.cell == "alice ALL = /bin/ls\\")
        request = Request("alice", "web1.example.org", "", "", "/bin/ls", "a\\b")
        with mock.patch.object(self.search, "rows", return_value=rows):
            (new,) = self.sorted("alice ALL = /bin/cat, \\\n /bin/ls a\\\\b\n", request)
        self.assertIn("a\\\\b", new.case.text)
        self.assertNotIn("\n", new.case.text)
        self.assertEqual([answer.verdict for answer in new.both], ["allow", "nomatch"])


@needs_peer
class Measured(Case):
    """The column "sudo" of the profile."""

    def write_directory(self) -> None:
        """Writes the users and groups of the profile's examples as files of passwd(5) and group(5)."""
        users = []
        groups: dict[tuple[str, str], list[str]] = {}
        for row in csv.DictReader(USERS.splitlines()):
            memberships = [membership.rsplit(":", 1) for membership in row["groups"].split()]
            users.append(f"{row['user']}:x:{row['uid']}:{memberships[0][1]}::/:/bin/sh\n")
            for number, (group, gid) in enumerate(memberships):
                groups.setdefault((group, gid), []).extend([row["user"]] if number else [])
        self.write("passwd", "".join(users))
        self.write("group", "".join(f"{group}:x:{gid}:{','.join(names)}\n" for (group, gid), names in groups.items()))

    def addresses(self, host: str) -> str:
        """Returns the addresses of a host, without those of its loopback interface."""
        (found,) = [row["interfaces"].split() for row in csv.DictReader(HOSTS.splitlines()) if row["host"] == host]
        faces = [ipaddress.ip_interface(one) for one in found if one not in ("127.0.0.1/8", "10.9.9.9/32")]
        return " ".join(face.with_netmask for face in faces)

    def verdict(self, grant: Grant) -> str:
        """Returns the peer's verdict on the request of a grant."""
        assert PEER is not None
        words = [PEER.testsudoers, "-p", "passwd", "-P", "group", "-h", grant.host]
        words += ["-u", grant.runas_user] if grant.runas_user else []
        words += ["-g", grant.runas_group] if grant.runas_group else []
        words += [grant.user, grant.command, *([grant.arguments] if grant.arguments else [])]
        environment = {"LC_ALL": "C", peer.INTERFACES: self.addresses(grant.host)}
        given = (grant.policy + "\n").encode()
        done = subprocess.run(words, input=given, capture_output=True, cwd=self.folder, env=environment, check=False)
        if ask.PARSES not in done.stdout:
            return "refused"
        found = ask.TRIED.search(done.stdout)
        return ask.VERDICTS[found[1]] if found else ask.NO_MATCH

    def test_other_grants(self) -> None:
        self.write_directory()
        for grant in SHOWN:
            if grant.sudo:
                with self.subTest(grant=grant):
                    self.assertEqual(self.verdict(grant), grant.sudo)

    def reads(self, policy: str) -> bool:
        """Returns whether visudo reads a policy and finds no error."""
        assert PEER is not None
        words = [PEER.visudo, "-c", "-s", "-f", self.write("policy", policy)]
        return subprocess.run(words, capture_output=True, env={"LC_ALL": "C"}, check=False).returncode == 0

    def test_what_is_refused_on_one_side(self) -> None:
        for heading, read in (("Refused here, read by sudo", True), ("Read here, refused by sudo", False)):
            for cell, _ in rows_below(heading):
                policy = policy_of(cell)
                if policy and "CR LF" not in cell and not policy.startswith(READ_IN_PART):
                    with self.subTest(policy=policy):
                        self.assertEqual(self.reads(policy), read)
        self.assertFalse(self.reads("alice ALL = /bin/ls\r\n"))


if __name__ == "__main__":
    unittest.main()
