"""The lines of a policy, and copies of its files."""

import os
import unittest

from support import Case
from kulavemia.command import Fault
from kulavemia.policy import files_of, include_of, lines_of, rewritten
from kulavemia.rules import Rules
from kulavemia.tree import of_this_machine, of_tree


class Lines(Case):
    def test_joined_lines(self) -> None:
        text = b"a, \\\n  b\\\\\\\n c\r\n# note \\\nnext\\\\\n#1 = x \\\nlast\n\n"
        self.assertEqual(
            [tuple(line) for line in lines_of(text)],
            [
                (1, 3, b"a, b\\\\c"),
                (4, 1, b"# note \\"),
                (5, 1, b"next\\\\"),
                (6, 2, b"#1 = x last"),
                (8, 1, b""),
            ],
        )

    def test_rules_are_the_lines_that_are_nothing_else(self) -> None:
        others = (
            "",
            "# x",
            "User_Alias A = b",
            "Cmd_Alias A = /b",
            "Defaults x",
            "Defaults:a x",
            "Defaults!A x",
            "@include x",
            "#include",
            "#includedir /x",
        )
        rules = (
            "alice ALL = ALL",
            "#12 ALL = ALL",
            "User_Aliases ALL = ALL",
            "Defaultsx ALL = ALL",
            "#includes ALL = ALL"[1:],
            "%x ALL = ALL",
            '"User_Alias" ALL = ALL',
        )
        for text, wanted in [(text, False) for text in others] + [(text, True) for text in rules]:
            found = list(lines_of(text.encode()))
            self.assertEqual([line.is_rule() for line in found], [wanted] * len(found), text)

    def test_includes(self) -> None:
        for text, of_folder, path in (
            (b"@include x", False, b"x"),
            (b"#includedir\t/etc/d  # note", True, b"/etc/d"),
            (b'@include "a \\"b"', False, b'a "b'),
            (b"@include a\\ b", False, b"a b"),
            (b"@include a\\x62", False, b"ax62"),
            (b'@include "\\x2fa\\x62\\x2E\\x20\\x5c c"', False, b"/ab. \\ c"),
            (b'@include "a\\x00\\x0a\\x09\\xc3\\xA4\\x6"', False, b"ax00x0a\t\xc3\xa4x6"),
        ):
            found = include_of(next(lines_of(text)))
            assert found is not None
            self.assertEqual((found.of_folder, found.path), (of_folder, path))
        self.assertIsNone(include_of(next(lines_of(b"@includes x"))))

    def test_other_paths_keep_the_numbers_of_lines(self) -> None:
        text = b"a\n@include \\\n  /x\\\n y\nb\n@include c\n"
        self.assertEqual(rewritten(text, b"/new place"), b"a\n@include /new\\ place/xy\n\n\nb\n@include c\n")

    def test_the_name_of_the_host_stays_where_it_stood(self) -> None:
        for text, path in (
            (rb"@include /a.%h", b"/a.web1"),
            (rb'@includedir "/a b/%h\"" # c', b'/a b/web1"'),
            (rb"@include /a\%h%\h%H\\%h%%h", rb"/a%h%h%H\web1%web1"),
            (rb"@include /\%h", b"/%h"),
            (rb'@include "/\x25h%\x68\x25\x68\x61.%h"', b"/%h%h%ha.web1"),
        ):
            line = next(lines_of(rewritten(text, b"/%h/r h")))
            for written, before in ((next(lines_of(text)), b""), (line, b"/%h/r h")):
                found = include_of(written, "web1.example.org")
                assert found is not None
                self.assertEqual((found.path, found.names_host()), (before + path, b"web1" in path))

    def test_files_and_places(self) -> None:
        main = self.write("sudoers", "a ALL = ALL, \\\n  !ALL\n@includedir d\n@include sudoers\n")
        self.write("d/10-x", "b ALL = ALL\n")
        self.write("d/20.x", "c ALL = ALL\n")
        self.write("d/30-x~", "c ALL = ALL\n")
        self.assertEqual(list(files_of(main)), [main, self.path("d/10-x")])
        rules = Rules("/sudoers", self.folder)
        self.assertEqual(
            [tuple(rule) for rule in rules.all()], [("/sudoers:1", "a ALL = ALL, !ALL"), ("/d/10-x:1", "b ALL = ALL")]
        )
        self.assertEqual(rules.text("/gone:1"), "")

    def test_the_files_of_a_host(self) -> None:
        main = self.write("sudoers", "@include q.%h\n@includedir d.%h\n")
        for name in ("q.web1", "d.web1/x", "q.%h"):
            self.write(name, f"# {name}\n")
        self.assertEqual(list(files_of(main, "web1.a.b")), [main, self.path("q.web1"), self.path("d.web1/x")])
        self.assertEqual(list(files_of(main)), [main, self.path("q.%h")])
        self.assertTrue(of_this_machine(main, False).names_host)
        self.assertFalse(of_this_machine(self.path("q.%h"), False).names_host)


class Trees(Case):
    def test_another_machines_policy_is_refused(self) -> None:
        main = self.write("web1/etc/sudoers", "a ALL = ALL\n@includedir /etc/sudoers.d\n")
        with self.assertRaisesRegex(
            Fault, r"etc/sudoers:2: the policy includes /etc/sudoers.d of this machine.*tools/collect"
        ):
            of_this_machine(main, False)
        self.assertEqual(of_this_machine(main, True).file(), main)
        self.write("web1/etc/d/x", "@include ../../../up\n")
        self.write("web1/etc/sudoers", "@includedir d\n")
        with self.assertRaisesRegex(Fault, "etc/d/x:1"):
            of_this_machine(main, False)

    def test_a_copy_reads_the_copied_files_alone(self) -> None:
        self.write("tree/etc/sudoers", "a ALL = ALL\n@includedir /etc/sudoers.d\n@include local\n@include /gone\n")
        self.write("tree/etc/sudoers.d/10", "@include /opt/x\n")
        self.write("tree/etc/local", "b ALL = ALL\n")
        self.write("tree/opt/x", "c ALL = ALL\n")
        found = of_tree(self.path("tree"), "/etc/sudoers", self.path("copy"))
        self.assertEqual(found.file(), self.path("copy/etc/sudoers"))
        self.assertEqual(self.rows("copy/etc/sudoers")[1], f"@includedir {self.path('copy')}/etc/sudoers.d")
        self.assertEqual(self.read("copy/etc/sudoers.d/10"), f"@include {self.path('copy')}/opt/x\n")
        self.assertEqual(self.read("copy/opt/x"), "c ALL = ALL\n")

    def test_a_tree_whose_name_ends_in_a_slash(self) -> None:
        self.write("tree/etc/sudoers", "@include local\n")
        self.write("tree/etc/local", "b ALL = ALL\n")
        of_tree(self.path("tree") + "/", "/etc/sudoers", self.path("copy"))
        self.assertEqual(self.read("copy/etc/local"), "b ALL = ALL\n")

    def test_a_chain_of_files_that_is_too_deep_for_sudo(self) -> None:
        self.write("tree/etc/sudoers", "@include /f0\n")
        for number in range(1200):
            self.write(f"tree/f{number}", f"@include /f{number + 1}\n")
        of_tree(self.path("tree"), "/etc/sudoers", self.path("copy"))
        self.assertTrue(os.path.exists(self.path("copy/f130")))
        self.assertFalse(os.path.exists(self.path("copy/f1000")))

    def test_names_that_no_system_can_have(self) -> None:
        for line in ("@includedir /etc/a\0b\n", "@include /etc/a\0b\n", f"@include /etc/{'a' * 300}\n"):
            self.write("tree/etc/sudoers", line)
            of_tree(self.path("tree"), "/etc/sudoers", self.path("copy"))

    def test_a_folder_of_copies_has_files_and_folders_alone(self) -> None:
        self.write("tree/etc/sudoers", "@includedir /etc/d\n")
        self.write("tree/etc/d/more/x", "")
        os.mkfifo(self.path("tree/etc/d/10.no"))
        of_tree(self.path("tree"), "/etc/sudoers", self.path("copy"))
        os.mkfifo(self.path("tree/etc/d/10"))
        with self.assertRaisesRegex(Fault, "tree/etc/d/10: expected a plain file, found a FIFO"):
            of_tree(self.path("tree"), "/etc/sudoers", self.path("copy"))

    def test_a_copy_does_not_leave_the_copied_files(self) -> None:
        for text in ("@include /../../etc/passwd\n", "@include ../x\n", "@includedir /etc/..\n"):
            self.write("tree/etc/sudoers", text)
            with self.assertRaisesRegex(Fault, r"etc/sudoers:1: an include with \.\. may leave"):
                of_tree(self.path("tree"), "/etc/sudoers", self.path("copy"))
        self.write("tree/etc/sudoers", "@include /etc/link\n")
        os.symlink("/etc/passwd", self.path("tree/etc/link"))
        with self.assertRaisesRegex(Fault, "tree/etc/link: expected a plain file, found a link"):
            of_tree(self.path("tree"), "/etc/sudoers", self.path("copy"))
        with self.assertRaisesRegex(Fault, "is not there"):
            of_tree(self.path("tree"), "/etc/gone", self.path("copy"))


if __name__ == "__main__":
    unittest.main()
