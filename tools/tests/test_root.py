"""Runs of `sudo_review --root` on copied trees, and with `--links`."""

import os
import subprocess
import unittest

from support import REQUESTS_HEADER, REVIEW, Case, needs_review

CASE = "a name has a capital letter: letter case counts here, not for sudo"
LINKED = "a command is below a folder that is a link on most machines: two paths here, for sudo one file"


@needs_review
class Reviewed(Case):
    """A folder in which the program runs."""

    def ran(self, *words: str) -> tuple[int, str, str]:
        """Runs the program, and returns its status and what it printed."""
        done = subprocess.run([REVIEW, *words], capture_output=True, cwd=self.folder, check=False, timeout=20)
        return done.returncode, os.fsdecode(done.stdout), os.fsdecode(done.stderr)

    def link(self, path: str, to: str) -> None:
        """Makes a link."""
        os.makedirs(os.path.dirname(self.path(path)), exist_ok=True)
        os.symlink(to, self.path(path))


class Root(Reviewed):
    """Policies below a folder."""

    def setUp(self) -> None:
        super().setUp()
        self.write("tree/etc/sudoers", "@includedir /etc/sudoers.d\n")
        self.write("tree/etc/sudoers.d/alice", "Alice ALL = ALL\n")

    def assert_found(self, *places: str, root: str = "tree", file: str = "/etc/sudoers") -> None:
        """Checks the places at which names with a capital letter are found."""
        lines = "".join(f"{place}: caution: case: {CASE}\n" for place in places)
        shown = (5 if places else 0, f"{lines}cautions: {len(places)}\n", "")
        self.assertEqual(self.ran("cautions", file, "--root", root), shown)

    def assert_cannot_read(self, path: str, reason: str, file: str = "/etc/sudoers") -> None:
        """Checks that a path cannot be read, for this reason."""
        line = f"sudo_review: cannot read {path}: {reason}\n"
        self.assertEqual(self.ran("cautions", file, "--root", "tree"), (4, "", line))

    def test_includes_are_below_the_folder(self) -> None:
        for root in ("tree", "./tree/", self.path("tree")):
            self.assert_found("/etc/sudoers.d/alice:1", root=root)
        self.assert_found("/etc/sudoers.d/alice:1", file="etc/sudoers")

    def test_a_relative_include(self) -> None:
        self.write("tree/etc/sudoers", "@include sudoers.d/alice\n")
        self.assert_found("/etc/sudoers.d/alice:1")

    def test_links_lead_below_the_folder(self) -> None:
        self.write("tree/opt/policies/all", "Bob ALL = ALL\n")
        self.write("tree/opt/policies/more", "Eve ALL = ALL\n")
        self.link("tree/etc/sudoers.d/b", "/opt/policies/all")
        self.link("tree/etc/sudoers.d/c", "../../opt/policies/more")
        self.link("tree/srv", "opt/policies")
        self.write("tree/etc/sudoers", "@includedir /etc/sudoers.d\n@include /srv/all\n")
        self.assert_found("/etc/sudoers.d/alice:1", "/etc/sudoers.d/b:1", "/etc/sudoers.d/c:1", "/srv/all:1")

    def test_a_link_to_the_folder_itself(self) -> None:
        self.link("tree/usr", "/")
        self.write("tree/etc/sudoers", "@include /usr/etc/sudoers.d/alice\n")
        self.assert_found("/usr/etc/sudoers.d/alice:1")

    def test_the_folder_itself_may_be_a_link(self) -> None:
        self.link("copy", "tree")
        self.assert_found("/etc/sudoers.d/alice:1", root="copy")

    def test_paths_that_lead_out(self) -> None:
        outside = self.write("secret", "Root ALL = ALL\n")
        self.link("tree/out", "../secret")
        self.link("tree/etc/up", "../../secret")
        self.link("tree/absolute", outside)
        for path in ("/../secret", "/etc/../../secret", "/out", "/etc/up"):
            with self.subTest(path):
                self.write("tree/etc/sudoers", f"@include {path}\n")
                self.assert_cannot_read(path, "leads out of tree")
                self.assert_cannot_read(path, "leads out of tree", file=path)
        self.write("tree/etc/sudoers", "@include /absolute\n")
        missing = (1, "", "sudo_review: /etc/sudoers:1: missing /absolute\n")
        self.assertEqual(self.ran("cautions", "/etc/sudoers", "--root", "tree"), missing)

    def test_a_link_of_a_folder_that_leads_out(self) -> None:
        self.write("secret", "Root ALL = ALL\n")
        self.link("tree/etc/sudoers.d/out", "../../../secret")
        self.assert_cannot_read("/etc/sudoers.d/out", "leads out of tree")

    def test_entries_that_are_no_files(self) -> None:
        self.link("tree/etc/sudoers.d/gone", "/gone")
        os.mkfifo(self.path("tree/etc/sudoers.d/fifo"))
        os.mkdir(self.path("tree/etc/sudoers.d/folder"))
        self.assert_found("/etc/sudoers.d/alice:1")

    def test_loops(self) -> None:
        self.link("tree/loop", "loop")
        self.link("tree/a/b", "/a/b/c")
        for path in ("/loop", "/a/b", "/loop/x"):
            with self.subTest(path):
                self.write("tree/etc/sudoers", f"@include {path}\n")
                self.assert_cannot_read(path, "too many symbolic links")

    def test_what_is_no_regular_file(self) -> None:
        os.mkfifo(self.path("tree/fifo"))
        for path, reason in (("/etc", "is a folder"), ("/fifo", "not a regular file"), ("/etc/sudoers/x", "not a folder")):
            with self.subTest(path):
                self.assert_cannot_read(path, reason, file=path)
        self.assert_cannot_read("/gone", "no such file", file="/gone")

    def test_the_other_commands(self) -> None:
        self.write("users", "user,uid,groups\nroot,0,root:0\nalice,1,alice:1\n")
        self.write("hosts", "host,interfaces\nweb1,\n")
        self.write("requests", f"{REQUESTS_HEADER}1,alice,web1,,,/bin/ls,\nclose,1,,,,,\n")
        self.write("tree/etc/sudoers.d/alice", "alice ALL = ALL\n")
        words = ("/etc/sudoers", "--root", "tree", "--users", "users", "--hosts", "hosts")
        for command, row in (
            ("grants", "/etc/sudoers.d/alice:1,alice,ALL,,,ALL,,"),
            ("roots", "alice,web1,root,all,own,/etc/sudoers.d/alice:1,,,"),
            ("rules", "/etc/sudoers.d/alice:1,1,1,0,"),
            ("report", "s,1,alice,web1,,,/bin/ls,,allow,/etc/sudoers.d/alice:1,SETENV,"),
        ):
            with self.subTest(command):
                status, out, _ = self.ran(command, *words, *(["s=requests"] if command in ("rules", "report") else []))
                self.assertEqual((status, out.splitlines()[-1]), (0, row))
        self.assertEqual(self.ran("subjects", *words)[0], 0)


class Links(Reviewed):
    """The links of a machine."""

    def assert_shown(self, policy: str, links: str, status: int, shown: str) -> None:
        """Checks what is shown of a policy on a machine with these links."""
        self.write("p", policy)
        self.write("links", links)
        out = self.ran("cautions", "p", "--links", "links")
        self.assertEqual(out, (status, shown, "") if status in (0, 5) else (status, "", shown))

    def test_the_links_of_a_file(self) -> None:
        found = f"p:1: caution: linked: {LINKED}\ncautions: 1\n"
        self.assert_shown("alice ALL = /opt/x\n", "from,to\n/opt,/srv\n", 5, found)
        self.assert_shown("alice ALL = /srv/x\n", "from,to\n/opt,/srv\n", 5, found)
        self.assert_shown("alice ALL = /bin/x\n", "from,to\n/opt,/srv\n", 0, "cautions: 0\n")
        self.assert_shown("alice ALL = /bin/x\n", "from,to\n", 0, "cautions: 0\n")

    def test_faulty_files(self) -> None:
        for links, shown in (
            ("", "bad header"),
            ("to,from\n", "bad header"),
            ("from,to\n/opt\n", "row 2: bad row"),
            ("from,to\n/opt,/srv/\n", "row 2: bad row"),
            ("from,to\n/opt,/srv\nopt,/srv\n", "row 3: bad row"),
            ("from,to\n/,/srv\n", "row 2: bad row"),
        ):
            with self.subTest(links):
                self.assert_shown("alice ALL = ALL\n", links, 3, f"sudo_review: links: {shown}\n")
        gone = (4, "", "sudo_review: cannot read gone: no such file\n")
        self.assertEqual(self.ran("cautions", "p", "--links", "gone"), gone)


class Hints(Reviewed):
    """The hints behind faults."""

    def test_hints(self) -> None:
        self.write("i", "@includ /etc/x\n")
        for policy, shown in (
            ("alice fd00::2 = ALL\n", "p:1:11: syntax error, expected =\nsudo_review: hint: IPv6 addresses are not supported\n"),
            (
                "\ufeffDefaults env_reset\n",
                "p:1:22: syntax error, expected =\nsudo_review: hint: the file begins with a byte order mark",
            ),
            ("a ALL = NOPASWD: /bin/x\n", "p:1:18: syntax error, expected member\nsudo_review: hint: did you mean NOPASSWD?"),
            ("a ALL = nopasswd: /bin/x\n", "p:1:9: not a command\nsudo_review: hint: did you mean NOPASSWD?"),
            ("User_alias A = bob\n", "p:1:16: not a command\nsudo_review: hint: did you mean User_Alias?"),
            ("@include i\n", "i:1:9: syntax error, expected member\nsudo_review: hint: did you mean @include?"),
        ):
            with self.subTest(policy):
                self.write("p", policy)
                status, out, err = self.ran("cautions", "p")
                self.assertEqual((status, out), (1, ""))
                self.assertIn("sudo_review: hint: ", err)
                self.assertTrue(err.startswith(f"sudo_review: {shown}"), err)


if __name__ == "__main__":
    unittest.main()
