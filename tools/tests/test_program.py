"""Where the program is found, and how commands begin and end."""

import os
import subprocess
import unittest
from unittest import mock

from support import TOOLS, Case
from kulavemia import program
from kulavemia.command import PROGRAM, Fault


class Find(Case):
    def setUp(self) -> None:
        super().setUp()
        words = [self.path("bin", "kulavemia-lint")]
        environment = {"PATH": self.path("path")}
        self.enterContext(mock.patch("sys.argv", words))
        self.enterContext(mock.patch.dict(os.environ, environment, clear=True))
        self.enterContext(mock.patch.object(program, "REPOSITORY", self.folder))

    def program(self, name: str, mode: int = 0o755) -> str:
        """Writes a program, and returns its path."""
        path = self.write(name, "#!/bin/sh\n")
        os.chmod(path, mode)
        return path

    def test_the_first_that_is_there(self) -> None:
        for name in ("crates/sudo_audit/out/sudo_audit", "bin/sudo_audit", "path/sudo_audit", "named"):
            path = self.program(name)
            if name == "named":
                os.environ["SUDO_AUDIT"] = path
            self.assertEqual(program.find(None), path)
        given = self.program("given")
        self.assertEqual(program.find(given), given)
        self.assertEqual(program.find("sudo_audit"), self.path("path", "sudo_audit"))

    def test_what_is_named_has_to_be_there(self) -> None:
        self.program("path/sudo_audit")
        for named in (self.path("gone"), self.folder, self.program("plain", 0o644)):
            for given, environment in ((named, ""), (None, named)):
                os.environ["SUDO_AUDIT"] = environment
                with self.assertRaisesRegex(Fault, "no program") as raised:
                    program.find(given)
                self.assertEqual(raised.exception.status, PROGRAM)

    def test_none(self) -> None:
        with self.assertRaisesRegex(Fault, "no program sudo_audit: build it"):
            program.find(None)

    def test_the_second_program(self) -> None:
        self.program("path/sudo_audit")
        with self.assertRaisesRegex(Fault, r"no program sudo_review: build it, or name it by --review or \$SUDO_REVIEW"):
            program.find(None, "sudo_review")
        os.environ["SUDO_AUDIT"] = self.program("other")
        for name in ("crates/sudo_review/out/sudo_review", "bin/sudo_review", "path/sudo_review"):
            path = self.program(name)
            self.assertEqual(program.find(None, "sudo_review"), path)
        os.environ["SUDO_REVIEW"] = self.program("named")
        self.assertEqual(program.find(None, "sudo_review"), self.path("named"))


class Streams(Case):
    def test_streams_that_are_closed(self) -> None:
        probe = os.path.join(TOOLS, "probe")
        for closed, status in ((">&-", 0), ("2>&-", 0), ("<&-", 0)):
            done = subprocess.run(
                ["sh", "-c", f'"$0" --help {closed}', probe], capture_output=True, check=False, cwd=self.folder
            )
            self.assertEqual((done.returncode, done.stderr), (status, b""), closed)

    def test_a_name_of_bytes_is_told_as_text(self) -> None:
        said = self.run_tool("page", "--policy", "gone", "--out", "x.html", status=4)[1]
        self.assertEqual(said, "page: gone: No such file or directory\n")


if __name__ == "__main__":
    unittest.main()
