"""What tools/collect could not gather, as the commands warn of it."""

import os
import unittest

from support import Case
from kulavemia.missing import SHOWN, may_hide_rules, warnings

LINE = "/etc/nsswitch.conf: sudoers: files sss: the rules of other sources than files are not gathered"


class Missing(Case):
    def test_each_line_is_a_warning(self) -> None:
        self.write("web1/missing", f"{LINE}\n/etc/sudoers.d/x: cannot be read\n")
        os.mkdir(self.path("web2"))
        path = self.path("web1", "missing")
        self.assertEqual(
            warnings([self.path("web1"), self.path("web2")], self.folder),
            [f"{path}: {LINE}", f"{path}: /etc/sudoers.d/x: cannot be read"],
        )
        self.assertEqual(warnings([self.path("web2/")], self.path("web2/")), [])

    def test_which_lines_are_about_rules(self) -> None:
        for line, may in (
            (LINE, True),
            ("/etc/sudoers.d/x: cannot be read", True),
            ("the users cannot be listed", True),
            ("ip -j addr: cannot be run", True),
            (f"the file missing of {SHOWN} folders has further lines", True),
            ("/var/log/sudoers: cannot be read", True),
            ("/var/log/auth.log.7: more than 4294967296 bytes, and no more are read", False),
            ("/var/log/sudo/x.log: not a plain file", False),
            ("the journal cannot be read", False),
            ("user zoe: not known", False),
        ):
            self.assertEqual(may_hide_rules([line]), may, line)
        self.assertFalse(may_hide_rules([]))

    def test_many_lines_are_cut(self) -> None:
        for host in range(SHOWN + 5):
            self.write(f"h{host}/missing", "x" * 1000 + "\n" + "y\n" * 1000)
        folders = [self.path(f"h{host}") for host in range(SHOWN + 5)]
        found = warnings(folders, self.folder)
        self.assertEqual(len(found), SHOWN + 1)
        self.assertTrue(all(len(warning) < 300 for warning in found))
        self.assertEqual(found[-1], f"the file missing of {SHOWN + 5} folders has further lines")

    def test_what_is_no_plain_file_is_named_and_not_read(self) -> None:
        os.makedirs(self.path("link"))
        os.symlink("/etc/hostname", self.path("link", "missing"))
        os.makedirs(self.path("fifo"))
        os.mkfifo(self.path("fifo", "missing"))
        os.symlink("link", self.path("host"))
        found = warnings([self.path(name) for name in ("link", "fifo", "host", "gone")], self.folder)
        self.assertEqual(
            found,
            [
                f"{self.path('link', 'missing')}: expected a plain file, found a link",
                f"{self.path('fifo', 'missing')}: expected a plain file, found a FIFO",
                f"{self.path('host')}: expected a folder, found a link",
            ],
        )


if __name__ == "__main__":
    unittest.main()
