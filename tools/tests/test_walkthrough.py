"""Tests that each command of docs/WALKTHROUGH.md prints what the page shows.

The page's machine is played by its files in examples/walkthrough/machine, with a few commands beside them, as the root
folder of what `ssh` would run there.
"""

import os
import re
import shutil
import subprocess
import unittest

from machine import MachineCase
from support import EXAMPLES, PROGRAM, REVIEW, TOOLS, needs_jinja, needs_keygen, needs_program, needs_review

REPOSITORY = os.path.dirname(TOOLS)


def steps_of(page: str) -> list[tuple[str, str]]:
    """Returns the commands of a page with the output of each: lines of its indented blocks, a command after `$ `."""
    found: list[tuple[str, str]] = []
    for block in re.findall(r"(?:^    .*\n|^\n(?=    ))+", page, re.MULTILINE):
        lines = [line.removeprefix("    ") for line in block.strip("\n").split("\n")]
        if not lines[0].startswith("$ "):
            continue
        for line in lines:
            if line.startswith("$ "):
                found.append((line[2:], ""))
            else:
                command, output = found.pop()
                goes_on = command.endswith("\\") and not output
                found.append((f"{command}\n{line}", "") if goes_on else (command, f"{output}{line}\n"))
    return found


def script_of(commands: list[str]) -> str:
    """Returns a script that runs commands in one shell, with a byte 0 after the output of each."""
    return "exec 2>&1\n" + "".join(f"{command}\nlast=$?; printf '\\0'; (exit $last)\n" for command in commands)


class Walkthrough(MachineCase):
    def outputs(self, commands: list[str]) -> list[str]:
        """Runs commands as the page says, in a folder like the repository's, and returns what each prints."""
        os.symlink(TOOLS, self.path("tools"))
        shutil.copytree(EXAMPLES, self.path("examples"))
        os.symlink(os.path.abspath(PROGRAM or ""), self.path("bin", "sudo_audit"))
        os.symlink(os.path.abspath(REVIEW or ""), self.path("bin", "sudo_review"))
        environment = {"PATH": f"{self.path('bin')}:/usr/local/bin:/usr/bin:/bin:/usr/sbin", "LC_ALL": "C.UTF-8"}
        words = ["bash", "-c", script_of(commands)]
        done = subprocess.run(words, cwd=self.folder, env=environment, stdout=subprocess.PIPE, check=False)
        return done.stdout.decode("utf-8").split("\0")[:-1]

    @needs_program
    @needs_review
    @needs_keygen
    @needs_jinja
    def test_each_command_prints_what_the_page_shows(self) -> None:
        with open(os.path.join(REPOSITORY, "docs", "WALKTHROUGH.md"), encoding="utf-8") as file:
            steps = steps_of(file.read())
        self.assertGreater(len(steps), 10)
        self.make_machine()
        outputs = self.outputs([command for command, _ in steps])
        self.assertEqual(len(outputs), len(steps), outputs[-1:])
        for (command, wanted), output in zip(steps, outputs):
            with self.subTest(command):
                self.assertEqual(output, wanted)


if __name__ == "__main__":
    unittest.main()
