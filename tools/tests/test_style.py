"""Checks of all Python of the repository and of the format and the lines of the crates, by `dev/style`."""

import os
import shutil
import subprocess
import unittest

from support import DEV, Case, needs_dask, needs_jinja


class Style(Case):
    def passes(self, check: str) -> None:
        """Fails with what a check prints where it finds something."""
        words = [os.path.join(DEV, "style"), check]
        done = subprocess.run(words, stdout=subprocess.PIPE, stderr=subprocess.STDOUT, text=True, check=False)
        self.assertEqual(done.returncode, 0, done.stdout)

    @unittest.skipUnless(shutil.which("flake8"), "flake8 is not installed")
    def test_flake8_finds_nothing(self) -> None:
        self.passes("flake8")

    # Where a package is missing, mypy knows nothing of its types.
    @needs_dask
    @needs_jinja
    @unittest.skipUnless(shutil.which("mypy"), "mypy is not installed")
    def test_mypy_finds_nothing(self) -> None:
        self.passes("mypy")

    @unittest.skipUnless(shutil.which("rt"), "rt is not installed")
    def test_each_crate_is_formatted(self) -> None:
        self.passes("format")

    def test_no_line_of_a_crate_is_too_wide(self) -> None:
        self.passes("widths")

    def test_each_command_in_python_is_checked(self) -> None:
        listed = subprocess.run([os.path.join(DEV, "style"), "--list"], stdout=subprocess.PIPE, text=True, check=True).stdout
        for path in ("tools/replay", "tools/kulavemia/lint/inputs.py", "dev/gate", "dev/style", "bench/run", "packaging/install"):
            self.assertIn(path + "\n", listed)
        self.assertNotIn("tools/collect\n", listed)
        self.assertNotIn("tools/tests/lint_stub\n", listed)

    def test_a_tool_that_is_not_there(self) -> None:
        self.assertIn("pylint-of-nobody: no such command", self.run_dev("style", "pylint-of-nobody", status=5)[1])


if __name__ == "__main__":
    unittest.main()
