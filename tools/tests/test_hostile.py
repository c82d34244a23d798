"""Runs of `bench/hostile`, over a stub of the program and, with tiny inputs, over the program."""

import os
import sys
import unittest

from support import PROGRAM, TOOLS, Case, needs_program

BENCH = os.path.join(os.path.dirname(TOOLS), "bench")
sys.path.insert(0, BENCH)

import hostile_inputs  # noqa: E402
from kulavemia import limits  # noqa: E402

needs_time = unittest.skipUnless(os.access("/usr/bin/time", os.X_OK), "GNU time is not installed")
HOSTILE = os.path.join("..", "bench", "hostile")
COLUMNS = "| What | Size | Bytes | Time | Processor | Memory | Status | Growth | Ratio | visudo |"


@needs_time
class Hostile(Case):
    """The command."""

    def table(self, body: str, *words: str) -> list[list[str]]:
        """Measures a stub with this body, and returns the cells of the rows of the table."""
        os.chmod(self.write("stub", f"#!/bin/sh\n{body}\n"), 0o755)
        out, err = self.run_tool(HOSTILE, "--program", self.path("stub"), *words)
        self.assertEqual(err, "")
        first, empty, columns, rule, *rows = out.splitlines()
        self.assertRegex(first, r"^`--help` takes [0-9.]+ s\.$")
        self.assertEqual((empty, columns, rule.count("|---")), ("", COLUMNS, 10))
        return [[cell.strip() for cell in row.strip("|").split("|")] for row in rows]

    def test_a_quick_run(self) -> None:
        rows = self.table("exit 3", "--small", "one-word", "chain", "stars")
        self.assertEqual([row[:2] + row[6:7] for row in rows], [
            ["one-word", "262,130 times `a`", "3"],
            ["chain", "64 aliases of each kind", "3"],
            ["stars", "15 stars, 151 letters, 10 requests", "3"],
        ])
        self.assertEqual(rows[0][2], "262,144")

    def test_growth_and_ratio_are_numbers_or_none(self) -> None:
        rows = self.table("exit 0", "--first", "1/1024", "--last", "1/512", "plain-check", "one-rule")
        for cell in (cell for row in rows for cell in row[7:9]):
            self.assertRegex(cell, r"^([0-9]+(\.[0-9]+)?)?$")

    def test_a_run_that_does_not_end(self) -> None:
        rows = self.table('[ "$1" = --help ] || exec sleep 60', "--seconds", "3", "chain")
        self.assertEqual([row[3:7] for row in rows], [["over 3 s", "", "", ""]])

    def test_words(self) -> None:
        self.assertIn("no input x; there are plain-check, ", self.run_tool(HOSTILE, "x", status=2)[1])
        self.run_tool(HOSTILE, "--first", "2", status=2)
        self.run_tool(HOSTILE, "--program", self.path("none"), status=5)

    @needs_program
    def test_the_program(self) -> None:
        words = ("--program", PROGRAM, "--first", "1/65536", "--last", "1/65536")
        out, _ = self.run_tool(HOSTILE, *words)
        statuses = {row.split(" | ")[0].strip("| "): row.split(" | ")[6] for row in out.splitlines()[4:]}
        refused = {name for name, status in statuses.items() if status != "0"}
        self.assertEqual(list(statuses), list(hostile_inputs.INPUTS))
        self.assertEqual(refused, {"parentheses", "cycle", "hundred-cycle"})


class Inputs(Case):
    """What is measured."""

    def test_sizes(self) -> None:
        for name, make in hostile_inputs.INPUTS.items():
            sizes = []
            for part in (hostile_inputs.Part(1, 256), hostile_inputs.Part(1, 128)):
                folder = self.path(f"{name}-{part.denominator}")
                os.mkdir(folder)
                words = make(folder, part).words
                self.assertIn(words[0], ("check", "audit"))
                sizes.append(sum(os.path.getsize(os.path.join(folder, file)) for file in os.listdir(folder)))
            with self.subTest(name):
                self.assertLess(sizes[0], sizes[1])

    def test_none_is_over_the_limit_of_a_policy(self) -> None:
        for name in ("plain-check", "one-rule", "one-word", "one-alias", "parentheses", "hundred"):
            hostile_inputs.INPUTS[name](self.folder, hostile_inputs.Part(1))
            self.assertLessEqual(os.path.getsize(self.path("policy")), limits.POLICY_BYTES, name)


if __name__ == "__main__":
    unittest.main()
