"""Runs of the programs on files and folders that cannot be read, or that are no regular files."""

import os
import shutil
import socket
import stat
import subprocess
import unittest

from support import PROGRAM, REQUESTS_HEADER, REVIEW, Case, needs_program, needs_review

NOBODY = 65534
SECONDS = 20


@needs_program
class Unreadable(Case):
    """Runs in a folder, as a user other than root."""

    name, built = "sudo_audit", PROGRAM

    def setUp(self) -> None:
        super().setUp()
        os.chmod(self.folder, 0o755)
        self.program = shutil.copy(self.built, self.path("program"))
        os.chmod(self.program, 0o755)

    def ran(self, *words: str, before: str = ":") -> tuple[int, str, str]:
        """Runs the program behind a command of the shell, and returns its status and what it printed."""
        shell = ["sh", "-c", f'{before}; exec "$0" "$@"', self.program, *words]
        other = NOBODY if os.getuid() == 0 else None
        done = subprocess.run(
            shell,
            capture_output=True,
            cwd=self.folder,
            check=False,
            timeout=SECONDS,
            user=other,
            group=other,
            extra_groups=None if other is None else [],
        )
        return done.returncode, os.fsdecode(done.stdout), os.fsdecode(done.stderr)

    def assert_cannot_read(self, path: str, *words: str, reason: str = "") -> None:
        """Checks that a run ends since a path cannot be read, for this reason."""
        self.assertEqual(self.ran(*words), (4, "", f"{self.name}: cannot read {path}{reason}\n"))

    def write_directory(self) -> tuple[str, ...]:
        """Writes the users, the hosts and a request, and returns the words that name them."""
        self.write("users", "user,uid,groups\nroot,0,root:0\nalice,1,alice:1\n")
        self.write("hosts", "host,interfaces\nweb1,\n")
        self.write("requests", f"{REQUESTS_HEADER}1,alice,web1,,,/bin/ls,\nclose,1,,,,,\n")
        return "--users", "users", "--hosts", "hosts", "s=requests"

    def make_folder(self, path: str, mode: int = 0o755) -> None:
        """Makes a folder."""
        os.mkdir(self.path(path))
        os.chmod(self.path(path), mode)

    def link(self, path: str, to: str) -> None:
        """Makes a link."""
        os.symlink(to, self.path(path))


class Folders(Unreadable):
    """Folders that a policy includes."""

    def setUp(self) -> None:
        super().setUp()
        self.write("p", "alice ALL = ALL\n@includedir d\n")

    def test_a_folder_that_can_be_listed_and_not_searched(self) -> None:
        self.write("d/a", "alice ALL = !ALL\n")
        os.chmod(self.path("d"), 0o744)
        self.assert_cannot_read("d/a", "check", "p")
        self.assert_cannot_read("d/a", "audit", "p", *self.write_directory())
        self.assert_cannot_read("d/a", "expand", "p", "cmnd", "A")

    def test_names_that_are_not_read_anyway(self) -> None:
        self.write("d/a.old", "")
        self.write("d/b~", "")
        os.chmod(self.path("d"), 0o744)
        self.assertEqual(self.ran("check", "p"), (0, "ok\n", ""))

    def test_a_folder_without_leave(self) -> None:
        self.make_folder("d", 0o700)
        self.assert_cannot_read("d", "check", "p")

    def test_a_link_to_a_folder_without_leave(self) -> None:
        self.make_folder("secret", 0o700)
        self.write("secret/a", "alice ALL = !ALL\n")
        self.link("d", "secret")
        self.assert_cannot_read("d", "check", "p")

    def test_a_link_into_a_folder_without_leave(self) -> None:
        self.make_folder("secret", 0o700)
        self.write("secret/a", "alice ALL = !ALL\n")
        self.make_folder("d")
        self.link("d/a", "../secret/a")
        self.assert_cannot_read("d/a", "check", "p")

    def test_a_link_to_itself(self) -> None:
        self.make_folder("d")
        self.link("d/a", "a")
        self.assert_cannot_read("d/a", "check", "p")

    def test_a_link_that_leads_nowhere(self) -> None:
        self.make_folder("d")
        self.link("d/a", "gone")
        self.assertEqual(self.ran("check", "p"), (0, "ok\n", ""))

    def test_a_file_without_leave(self) -> None:
        self.write("d/a", "alice ALL = !ALL\n")
        os.chmod(self.path("d", "a"), 0o000)
        self.assert_cannot_read("d/a", "check", "p")

    def test_a_folder_that_vanishes(self) -> None:
        main = self.write("p", "@includedir /proc/self/cwd\n")
        self.make_folder("d", 0o777)
        # (the working folder is removed, so it can be opened and has no entries that can be read)
        gone = self.ran("check", main, before='mkdir -m 777 d/e && cd d/e && rmdir "$PWD"')
        self.assertEqual(gone, (0, "ok\n", ""))

    def test_what_is_no_file_is_passed_over(self) -> None:
        self.make_folder("d")
        os.mkfifo(self.path("d", "fifo"))
        os.mkdir(self.path("d", "folder"))
        self.link("d/null", "/dev/null")
        self.assertEqual(self.ran("check", "p"), (0, "ok\n", ""))


@needs_review
class Reviewed(Unreadable):
    """The same of the second program, which gives the reason."""

    name, built = "sudo_review", REVIEW

    def assert_cannot_read(self, path: str, *words: str, reason: str = ": permission denied") -> None:
        super().assert_cannot_read(path, *words, reason=reason)

    def test_reasons(self) -> None:
        self.make_folder("folder")
        os.mkfifo(self.path("fifo"))
        os.chmod(self.path("fifo"), 0o666)
        self.link("loop", "loop")
        self.write("file", "")
        self.assert_cannot_read("gone", "cautions", "gone", reason=": no such file")
        self.assert_cannot_read("folder", "cautions", "folder", reason=": is a folder")
        self.assert_cannot_read("loop", "cautions", "loop", reason=": too many symbolic links")
        self.assert_cannot_read("file/x", "cautions", "file/x", reason=": not a folder")
        for line, path, reason in (
            ("@include folder", "folder", ": is a folder"),
            ("@include fifo", "fifo", ": not a regular file"),
            ("@include loop", "loop", ": too many symbolic links"),
            ("@includedir file", "file", ": not a folder"),
            ("@include \xff", "\udcff", ": name is not UTF-8"),
        ):
            with self.subTest(line):
                with open(self.path("p"), "w", encoding="latin-1") as it:
                    it.write(f"{line}\n")
                self.assert_cannot_read(path, "cautions", "p", reason=reason)

    def test_reasons_of_other_files(self) -> None:
        self.write_directory()
        self.write("p", "alice ALL = ALL\n")
        words = ["--users", "gone", "--hosts", "hosts"]
        for command in ("grants", "roots", "subjects", "rules", "report"):
            self.assert_cannot_read("gone", command, "p", *words, reason=": no such file")
        self.assert_cannot_read("gone", "compare", "p", "p", *words, reason=": no such file")

    def test_a_folder_that_can_be_listed_and_not_searched(self) -> None:
        self.write("p", "alice ALL = ALL\n@includedir d\n")
        self.write("d/a", "alice ALL = !ALL\n")
        os.chmod(self.path("d"), 0o744)
        self.assert_cannot_read("d/a", "cautions", "p")
        words = self.write_directory()
        for command in ("report", "rules"):
            self.assert_cannot_read("d/a", command, "p", *words)
        for command in ("grants", "roots", "subjects"):
            self.assert_cannot_read("d/a", command, "p", *words[:4])
        self.write("q", "alice ALL = ALL\n")
        for pair in (("p", "q"), ("q", "p")):
            self.assert_cannot_read("d/a", "compare", *pair, *words[:4])

    def test_files_without_leave(self) -> None:
        words = self.write_directory()
        self.write("p", "alice ALL = ALL\n")
        self.write("q", "alice ALL = ALL\n")
        for path in ("requests", "hosts", "users", "p"):
            os.chmod(self.path(path), 0o000)
            for command in ("report", "rules"):
                self.assert_cannot_read(path, command, "p", *words)
            for command in ("grants", "roots", "subjects") if path != "requests" else ():
                self.assert_cannot_read(path, command, "p", *words[:4])
            for pair in (("p", "q"), ("q", "p")) if path != "requests" else ():
                self.assert_cannot_read(path, "compare", *pair, *words[:4])
            for pair in (("p", "q"), ("q", "p")):
                self.assert_cannot_read(path, "compare", *pair, *words[:4], "--requests", words[4])
            os.chmod(self.path(path), 0o644)
        os.chmod(self.path("p"), 0o000)
        self.assert_cannot_read("p", "cautions", "p")


class Files(Unreadable):
    """The main file and the files that it includes."""

    def test_a_main_file_without_leave(self) -> None:
        os.chmod(self.write("p", "alice ALL = ALL\n"), 0o000)
        self.assert_cannot_read("p", "check", "p")

    def test_a_main_file_in_a_folder_without_leave(self) -> None:
        self.write("d/p", "alice ALL = ALL\n")
        os.chmod(self.path("d"), 0o700)
        self.assert_cannot_read("d/p", "check", "d/p")

    def test_an_included_file_without_leave(self) -> None:
        self.write("p", "@include i\n")
        os.chmod(self.write("i", "alice ALL = ALL\n"), 0o000)
        self.assert_cannot_read("i", "check", "p")
        self.write("p", "@include gone\n@include i\n")
        self.assertEqual(self.ran("check", "p"), (1, "", "sudo_audit: p:1: missing gone\n"))

    def test_a_main_file_may_be_a_pipe(self) -> None:
        # (the pipe is of the user who runs the test, whom the program runs as here)
        words = [self.program, "check", "/dev/stdin"]
        done = subprocess.run(words, input=b"alice ALL = ALL\n", capture_output=True, check=False, timeout=SECONDS)
        self.assertEqual((done.returncode, done.stdout, done.stderr), (0, b"ok\n", b""))

    def test_a_fifo_behind_a_fault(self) -> None:
        os.mkfifo(self.path("fifo"))
        os.chmod(self.path("fifo"), 0o666)
        self.write("p", "@include gone\n@include fifo\n")
        self.assertEqual(self.ran("check", "p"), (1, "", "sudo_audit: p:1: missing gone\n"))
        self.write("faulty", "alice ALL =\n")
        self.write("p", "@include faulty\n@include fifo\n")
        line = "sudo_audit: faulty:1:12: syntax error, expected command\n"
        self.assertEqual(self.ran("check", "p"), (1, "", line))

    def test_what_is_no_regular_file(self) -> None:
        os.mkfifo(self.path("fifo"))
        with socket.socket(socket.AF_UNIX) as listening:
            listening.bind(self.path("socket"))
            for name in ("fifo", "socket"):
                os.chmod(self.path(name), 0o666)
            os.mkdir(self.path("folder"))
            self.link("zero", "/dev/zero")
            for name in ("fifo", "socket", "folder", "zero", "/dev/null"):
                with self.subTest(name):
                    self.write("p", f"@include {name}\n")
                    self.assert_cannot_read(name, "check", "p")
                    self.assertTrue(stat.S_IMODE(os.stat(self.path(name)).st_mode))


if __name__ == "__main__":
    unittest.main()
