"""Programs that note the words of their runs, for tests of what the tools hand on."""

import os

from support import PROGRAM, REVIEW, Case

# A program that notes its words, each in a line, and has the answers of another one.
_NOTING = """#!/bin/sh
printf '%s\\n' "$@" "" >>{folder}/words
exec {program} "$@"
"""


class NotingCase(Case):
    """A test with both programs, each of which notes the words of its runs."""

    def setUp(self) -> None:
        super().setUp()
        for name, program in (("sudo_audit", PROGRAM), ("sudo_review", REVIEW)):
            os.chmod(self.write(f"{name}/stub", _NOTING.format(folder=self.path(name), program=program)), 0o755)
        self.programs = ("--program", self.path("sudo_audit", "stub"), "--review", self.path("sudo_review", "stub"))

    def runs(self, name: str) -> list[list[str]]:
        """Returns the words of each run of a program that printed a table."""
        if not os.path.exists(self.path(name, "words")):
            return []
        runs = [run.split("\n") for run in self.read(name, "words").split("\n\n") if run]
        return [run for run in runs if run != ["--version"]]
