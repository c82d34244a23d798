"""A disk that is full: each command ends with status 4 and names a path on it, and leaves nothing half written.

The programs say how many bytes of their output went out before.
"""

import os
import shutil
import subprocess
import tarfile
import unittest
from collections.abc import Sequence

from fleet_case import STUB, USERS, FleetCase, requests
from support import EXAMPLES, PROGRAM, REVIEW, TOOLS, needs_jinja, needs_program, needs_review

MOUNT = 'mount -t tmpfs -o size=16k,mode=0700 none "$0" && exec "$@"'
FULL = "No space left on device"


def can_mount() -> bool:
    """Returns whether a small disk can be made for a test."""
    words = ["unshare", "--mount", "sh", "-c", 'mount -t tmpfs none "$0"', os.path.dirname(__file__)]
    if os.geteuid() != 0 or shutil.which("unshare") is None:
        return False
    return subprocess.run(words, stderr=subprocess.DEVNULL, check=False).returncode == 0


@unittest.skipUnless(can_mount(), "no disk can be mounted here")
class FullDisk(FleetCase):
    def setUp(self) -> None:
        super().setUp()
        os.mkdir(self.path("disk"))

    def failing(self, *words: str, temporary: str = "", status: int = 4) -> str:
        """Runs a command with a disk of 16 KiB, and returns what it says."""
        done = subprocess.run(
            ["unshare", "--mount", "sh", "-c", MOUNT, self.path("disk"), os.path.join(TOOLS, words[0]), *words[1:]],
            cwd=self.folder,
            env={**os.environ, "TMPDIR": temporary or self.folder},
            stdout=subprocess.PIPE,
            stderr=subprocess.PIPE,
            check=False,
        )
        said = os.fsdecode(done.stderr)
        self.assertEqual(done.returncode, status, said)
        return said

    def want_named(self, said: str, name: str, paths: Sequence[str]) -> None:
        """Wants a line that says that the disk is full, with one of the paths."""
        lines = [f"{name}: {path}: {FULL}" for path in paths]
        self.assertTrue(any(line in said for line in lines), said)

    def many_users(self, count: int) -> str:
        """Returns the lines of users that need much room."""
        return "".join(f"user{number:05},{number + 2000},users:100\n" for number in range(count))

    def test_directory(self) -> None:
        lines = "".join(f"user{number}:x:{number}:{number}::/:/bin/sh\n" for number in range(2000))
        self.write("web1/passwd", "root:x:0:0::/:/bin/sh\n" + lines)
        self.write("web1/group", "root:x:0:\n")
        said = self.failing("directory", "--from", "web1", "disk/out")
        self.want_named(said, "directory", ["disk/out/users.csv"])

    def test_requests(self) -> None:
        line = "Nov 20 10:01:02 web1 sudo[1]: jen : TTY=pts/0 ; PWD=/ ; USER=root ; COMMAND=/usr/bin/id {}\n"
        self.write("auth.log", "".join(line.format(number) for number in range(2000)))
        said = self.failing("requests", "auth.log", "--out", "disk/out")
        self.want_named(said, "requests", ["disk/out/requests/web1.csv", "disk/out/keys/web1.csv"])
        self.write("auth.log", "not of sudo\n" * 5000)
        self.want_named(self.failing("requests", "auth.log", "--out", "disk/out"), "requests", ["disk/out/skipped.csv"])

    def test_probe(self) -> None:
        self.write("users.csv", USERS + self.many_users(50))
        said = self.failing("probe", "--users", "users.csv", "--hosts", f"{EXAMPLES}/hosts.csv", "--out", "disk/out")
        folders = ("requests", "keys")
        paths = [f"disk/out/{folder}/probe{mark}1.csv" for folder in folders for mark in "-_"]
        self.want_named(said, "probe", paths)

    def test_compare(self) -> None:
        numbers = range(1, 2001)
        self.write("r.csv", requests(numbers, 2000))
        for name, verdict in (("old", "allow"), ("new", "nomatch")):
            rows = "".join(f"s,{number},{verdict},,\n" for number in numbers)
            self.write(f"{name}.csv", "sender,number,verdict,line,tags\n" + rows)
        words = ("compare", "--reports", "old.csv", "new.csv", "s=r.csv", "--out")
        self.want_named(self.failing(*words, "disk/out.csv"), "compare", ["disk/out.csv"])
        place = self.path("disk")
        self.want_named(self.failing(*words, "out.csv", temporary=place), "compare", [place])
        self.assertFalse(os.path.exists(self.path("out.csv")))

    @needs_program
    def test_compare_of_policies_with_a_full_folder_for_temporary_files(self) -> None:
        self.write("r.csv", requests(range(1, 5001), 5000))
        self.write("policy", "root ALL = ALL\n")
        place = self.path("disk")
        directory = ("--users", f"{EXAMPLES}/users.csv", "--hosts", f"{EXAMPLES}/hosts.csv")
        said = self.failing("compare", "policy", "policy", *directory, "s=r.csv", temporary=place)
        self.assertIn(f"compare: {place}", said)

    @needs_jinja
    def test_page(self) -> None:
        self.write("policy", "root ALL = ALL\n")
        self.want_named(self.failing("page", "--policy", "policy", "--out", "disk/page.html"), "page", ["disk/page.html"])

    @needs_program
    @needs_review
    @needs_jinja
    def test_replay(self) -> None:
        self.write("policy", "root ALL = ALL\n")
        said = self.failing("replay", "--policy", "policy", "--directory", EXAMPLES, "--out", "disk/out")
        self.assertRegex(said, rf"replay: disk/out/(?:review|probe)/\S+: {FULL}")

    def test_fleet(self) -> None:
        self.host("web1")
        self.write("fleet/web1/requests/web1.csv", requests(range(1, 2001), 2000))
        words = ("fleet", "fleet", "--out", "disk/out", "--program", STUB)
        self.want_named(self.failing(*words, "--part", "1/1"), "fleet", ["disk/out/shards"])

    def test_gather(self) -> None:
        self.write("web1/logs/auth.log", "x" * 50_000)
        with tarfile.open(self.path("web1.tar"), "w") as file:
            file.add(self.path("web1"), "web1")
        said = self.failing("gather", "--tar", "web1.tar", "--out", "disk/out")
        self.assertRegex(said, rf"gather: disk/out/\.\w+\.part/logs/auth.log: {FULL}")

    def fill(self, program: str, name: str, *words: str) -> None:
        """Has the program of a name write its output to the disk, and wants the disk's size told."""
        said = self.failing("/bin/sh", "-c", 'exec "$0" "$@" >disk/out', program, *words)
        self.assertEqual(said, f"{name}: write failed after 16384 bytes\n")

    def write_policy(self) -> tuple[str, ...]:
        """Writes a policy of many cautions, and many requests, and returns the words that name what they need."""
        self.write("policy", "Alice ALL = ALL\n" * 2000)
        self.write("r.csv", requests(range(1, 2001), 2000))
        return "policy", "--users", f"{EXAMPLES}/users.csv", "--hosts", f"{EXAMPLES}/hosts.csv", "s=r.csv"

    @needs_program
    def test_the_program(self) -> None:
        self.fill(PROGRAM, "sudo_audit", "audit", *self.write_policy())

    @needs_review
    def test_the_second_program(self) -> None:
        words = self.write_policy()
        self.fill(REVIEW, "sudo_review", "report", *words)
        self.fill(REVIEW, "sudo_review", "cautions", words[0])
        self.fill(REVIEW, "sudo_review", "grants", *words[:-1])
        self.fill(REVIEW, "sudo_review", "subjects", *words[:-1])
        self.fill(REVIEW, "sudo_review", "rules", *words)
        self.write("users", USERS + self.many_users(500))
        self.write("policy", "ALL ALL = (ALL) ALL\n")
        self.fill(REVIEW, "sudo_review", "roots", "policy", "--users", "users", *words[3:-1])
        self.write("old", "")
        self.write("users", USERS + self.many_users(30))
        self.write("policy", "".join(f"user{at:05} ALL = /opt/{'c' * 500}{at}\n" for at in range(30)))
        self.fill(REVIEW, "sudo_review", "compare", "old", "policy", "--users", "users", *words[3:-1])
        self.write("policy", "ALL ALL = ALL\n")
        self.write("hosts", "host,interfaces\nweb1,10.1.2.3/16\n")
        known = ("--users", "users", "--hosts", "hosts")
        self.fill(REVIEW, "sudo_review", "compare", "old", "policy", *known, "--requests", words[-1])

    def test_standard_output(self) -> None:
        self.write("policy", "root ALL = ALL\n")
        for name, words in (("probe", ("--help",)), ("compare", ("--help",))):
            with open("/dev/full", "wb") as full:
                tool = [os.path.join(TOOLS, name), *words]
                done = subprocess.run(tool, stdout=full, stderr=subprocess.PIPE, check=False)
            self.assertEqual((done.returncode, done.stderr.decode()), (4, f"{name}: standard output: {FULL}\n"))


if __name__ == "__main__":
    unittest.main()
