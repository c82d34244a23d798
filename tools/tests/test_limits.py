"""Tests that the limits that the tools know are those of the program's source."""

import glob
import os
import re
import unittest

from support import TOOLS

from kulavemia import limits

SOURCES = os.path.join(os.path.dirname(TOOLS), "crates", "*", "src", "**", "*.rt")
NUMBER = r"([0-9][0-9_]*)\b"
# What stands before and behind each limit wherever the source has it.
PLACES = {
    "POLICY_BYTES": rf"const TEXT_LIMIT: usize = {NUMBER};",
    "POLICY_FILES": rf"const READING_LIMIT: usize = {NUMBER};",
    "INCLUDE_DEPTH": rf"const NESTING_LIMIT: u32 = {NUMBER};",
    "ALIASES": rf"const ALIAS_LIMIT: u32 = {NUMBER};",
    "ALIAS_DEPTH": rf"measure\.depth >= {NUMBER}",
    "ALIAS_WIDTH": rf"measure\.width > {NUMBER}",
    "CSV_BYTES": rf"const BYTE_LIMIT: usize = {NUMBER};",
    "ROWS": rf"if self\.list\.len\(\) >= {NUMBER}",
    "REQUESTS": rf"if count >= {NUMBER} \{{\n *return Some\(FileFault::TooMany\);",
    "SENDERS": rf"const MOST_SENDERS: usize = {NUMBER};",
    "SOURCES": rf"const MOST_PARTS: usize = {NUMBER};",
    "WORKERS": rf"How many workers judge the requests, from 1 to {NUMBER}",
}


class Limits(unittest.TestCase):
    def test_each_is_that_of_the_program(self) -> None:
        texts = []
        for path in glob.glob(SOURCES, recursive=True):
            with open(path, encoding="utf-8") as file:
                texts.append(file.read())
        for name, pattern in PLACES.items():
            with self.subTest(name):
                found = {int(number) for text in texts for number in re.findall(pattern, text)}
                self.assertEqual(found, {getattr(limits, name)})


if __name__ == "__main__":
    unittest.main()
