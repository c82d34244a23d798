"""Tests that files are opened, listed and made where the tools say that they are, and nowhere else."""

import ast
import os
import unittest
from collections.abc import Iterator

from support import TOOLS

CALLS = frozenset(
    "open fdopen listdir scandir walk fwalk glob iglob mkdir makedirs mkfifo mknod symlink link rename renames replace"
    " copy copy2 copyfile copytree move mkstemp mkdtemp NamedTemporaryFile TemporaryFile SpooledTemporaryFile"
    " TemporaryDirectory read_text read_bytes write_text write_bytes extract extractall".split()
)
# Text has methods of these names too.
OF_MODULES = frozenset("replace copy link move".split())
MODULES = frozenset("os shutil".split())

OWN = "the tools' own files"
HERE = "the one place of such opens"
WORKER = "a folder of the worker's own, on machines that do not have the tools"
ALLOWED = {
    ("command.py", "_prepare_streams"): "the null device",
    ("command.py", "_drop_output"): "the null device",
    ("command.py", "version"): OWN,
    ("fleet_handed.py", "write_below"): WORKER,
    ("fleet_handed.py", "Handed.folder"): WORKER,
    ("fleet_plan.py", "Fleet.__init__"): "the program, which the user names",
    ("fleet_review.py", "Reviewing.one"): "a folder for copies of a host's policy",
    ("fleet_work.py", "judged"): WORKER,
    ("fleet_work.py", "_report_of"): WORKER,
    ("fleet_cluster.py", "local"): "a folder for the workers of this machine",
    ("foreign.py", "_plain"): HERE,
    ("foreign.py", "_folder"): HERE,
    ("foreign.py", "entries"): HERE,
    ("logs.py", "_handed"): "a descriptor that the command was handed",
    ("outputs.py", "Fresh.__enter__"): HERE,
    ("outputs.py", "Fresh.keep"): HERE,
    ("outputs.py", "_lock"): HERE,
    ("outputs.py", "appended"): HERE,
    ("outputs.py", "folder"): HERE,
    ("outputs.py", "new"): HERE,
    ("outputs.py", "new_folder"): HERE,
    ("outputs.py", "remove_parts"): HERE,
    ("outputs.py", "replacing"): HERE,
    ("outputs.py", "scratch"): HERE,
    ("page.py", "_part"): OWN,
    ("program.py", "sum_of"): "the program, which the user names",
    ("tar.py", "Unpacking._put"): "a folder below one that outputs made for this tar",
    ("transport.py", "Transport.__init__"): OWN,
    ("compare", "main"): "a folder for reports, which outputs writes",
    ("fleet", "do_part"): "a folder for shards",
    ("lint", "version"): OWN,
}


def sources() -> Iterator[tuple[str, str]]:
    """Yields the name and the text of each module, and of each command in Python that is installed."""
    with open(os.path.join(os.path.dirname(TOOLS), "packaging", "commands.txt"), encoding="utf-8") as file:
        commands = [line.split(":")[0] for line in file if not line.startswith("#")]
    package = os.path.join(TOOLS, "kulavemia")
    modules = [name for name in os.listdir(package) if name.endswith(".py")]
    for path in [os.path.join(package, name) for name in modules] + [os.path.join(TOOLS, name) for name in commands]:
        with open(path, encoding="utf-8") as file:
            text = file.read()
        if path.endswith(".py") or text.startswith("#!/usr/bin/python3"):
            yield os.path.basename(path), text


def calls_in(text: str) -> Iterator[tuple[str, str]]:
    """Yields the function and the name of each call by which something is opened, listed or made."""

    def found(node: ast.AST, place: tuple[str, ...]) -> Iterator[tuple[str, str]]:
        if isinstance(node, (ast.FunctionDef, ast.ClassDef)):
            place = (*place, node.name)
        if isinstance(node, ast.Call) and is_meant(node.func):
            yield ".".join(place), ast.unparse(node.func)
        for child in ast.iter_child_nodes(node):
            yield from found(child, place)

    return found(ast.parse(text), ())


def is_meant(function: ast.expr) -> bool:
    """Returns whether a call of this function opens, lists or makes something."""
    if isinstance(function, ast.Name):
        return function.id in CALLS - OF_MODULES
    if not isinstance(function, ast.Attribute) or function.attr not in CALLS:
        return False
    is_module = isinstance(function.value, ast.Name) and function.value.id in MODULES
    return is_module or function.attr not in OF_MODULES


class Opens(unittest.TestCase):
    def test_nothing_is_opened_but_in_its_place(self) -> None:
        found = {(name, place): call for name, text in sources() for place, call in calls_in(text)}
        self.assertGreater(len(found), 20)
        self.assertEqual({key: call for key, call in found.items() if key not in ALLOWED}, {})

    def test_each_call_that_is_meant_is_found(self) -> None:
        text = "class A:\n  def f(self):\n    with open('x'): os.listdir(y)\n"
        text += "def g(): os.replace(a, b); 'x'.replace('a', 'b')"
        self.assertEqual(list(calls_in(text)), [("A.f", "open"), ("A.f", "os.listdir"), ("g", "os.replace")])


if __name__ == "__main__":
    unittest.main()
