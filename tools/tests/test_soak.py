"""Runs of `dev/soak`, over a stub of the program and over the program."""

import os
import unittest

from support import PROGRAM, Case, needs_program

from soaking import case as soak_case
from soaking.runs import Ended, difference, fault_of

SIX_MILLISECONDS = "0.0001"
LAST = 'for last; do :; done\n[ "$1" = audit ] && echo "$last"\n'
LIMITED = '[ "$1" = --help ] || [ "$(ulimit -v)" = unlimited ]'


class Soak(Case):
    """The command over a stub."""

    def soak(self, body: str, *words: str, status: int = 1) -> str:
        """Runs a case over a stub with this body, and returns what is printed."""
        os.chmod(self.write("stub", f"#!/bin/sh\n{body}\n"), 0o755)
        given = (SIX_MILLISECONDS, "--program", self.path("stub"), "--seed", "7", *words)
        out, err = self.run_dev("soak", *given, status=status)
        self.assertEqual(err, "")
        return out

    def kept(self, name: str) -> str:
        """Returns a file of the folder that is kept."""
        return self.read("soak-kept", name)

    def test_nothing_is_wrong(self) -> None:
        out = self.soak("echo ok", status=0)
        self.assertEqual(out, "seed 7\n1 cases; 7 runs: 7 with status 0; 4 compared\n")
        self.assertEqual(os.listdir(self.folder), ["stub"])

    def test_a_crash(self) -> None:
        out = self.soak('[ "$1" = expand ] && kill -SEGV $$; echo ok')
        self.assertIn("seed 7: expand: ended by SIGSEGV\nits inputs are in soak-kept\n", out)
        self.assertIn(f"{self.path('stub')} expand policy ", self.kept("again"))
        for name in ("policy", "users.csv", "hosts.csv", "requests/0.csv", "out", "err"):
            self.assertTrue(os.path.exists(self.path("soak-kept", name)), name)

    def test_a_hang(self) -> None:
        out = self.soak('[ "$1" = check ] && exec sleep 60; echo ok', "--seconds", "3")
        self.assertIn("seed 7: check: no end within 3 s\n", out)

    def test_a_status_above_4(self) -> None:
        out = self.soak('[ "$1" = audit ] && echo said && echo complaint >&2 && exit 5; echo ok')
        self.assertRegex(out, "seed 7: audit with [0-9]+ workers: ended with status 5\n")
        self.assertEqual((self.kept("out"), self.kept("err")), ("said\n", "complaint\n"))

    def test_a_report_that_differs(self) -> None:
        out = self.soak(LAST + "exit 0")
        self.assertRegex(out, "seed 7: audit with [0-9]+ workers.*: printed something else than before\n")

    def test_limits_of_memory(self) -> None:
        out = self.soak(f"{LIMITED} || exit 4; echo ok", status=0)
        self.assertRegex(out, "7 runs: [3-6] with status 0, [1-4] with status 4")
        out = self.soak(f"{LIMITED} || kill -ABRT $$; echo ok")
        self.assertRegex(out, " and [0-9]+ bytes of memory: ended by SIGABRT\n")
        self.assertRegex(self.kept("again"), "\nprlimit --as=[0-9]+ /")

    def test_a_program_that_starts_under_no_limit(self) -> None:
        out = self.soak('[ "$(ulimit -v)" = unlimited ] || exit 9; echo ok', status=0)
        self.assertIn("no limits of memory: the program does not start under 1 GiB\n", out)
        self.assertIn("7 runs: 7 with status 0", out)

    def test_words(self) -> None:
        wrong: list[list[str]] = [[], ["0"], ["x"], ["-1"], ["1", "--seed", "x"], ["inf"]]
        for words in wrong:
            self.run_dev("soak", *words, status=2)
        self.run_dev("soak", "1", "--program", self.path("none"), status=5)
        self.write("stub", "")
        self.assertIn("stub is there", self.run_dev("soak", "1", "--keep", "stub", status=2)[1])

    @needs_program
    def test_the_program(self) -> None:
        out, _ = self.run_dev("soak", "0.05", "--seed", "1", "--program", PROGRAM)
        self.assertRegex(out, "[0-9]+ cases; [0-9]+ runs: [0-9]+ with status 0.*; [0-9]+ compared\n")


class Parts(Case):
    """What the command is made of."""

    def test_a_seed_makes_the_same_files(self) -> None:
        made = []
        for folder in ("a", "b"):
            words = soak_case.write(3, self.path(folder))[1]
            files = ["policy", *(word.partition("=")[2] for word in words)]
            made.append((words, [self.read(folder, file) for file in files]))
        self.assertEqual(made[0], made[1])

    def test_ends(self) -> None:
        done, refused, failed = Ended(0, b"a", b""), Ended(3, b"", b"x"), Ended(4, b"", b"y")
        self.assertEqual([fault_of(ended, 1) for ended in (done, refused, failed)], ["", "", ""])
        self.assertEqual(difference(done, failed) + difference(failed, done) + difference(done, done), "")
        self.assertEqual(difference(done, refused), "ended with status 3, and before with 0")
        self.assertEqual(difference(refused, refused._replace(out=b"z")), "")


if __name__ == "__main__":
    unittest.main()
