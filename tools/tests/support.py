"""Helpers that the tests of the tools share."""

import os
import shutil
import subprocess
import sys
import tempfile
import unittest

TOOLS = os.path.dirname(os.path.dirname(os.path.abspath(__file__)))
DEV = os.path.join(os.path.dirname(TOOLS), "dev")
TESTS = os.path.join(TOOLS, "tests")
DATA = os.path.join(TESTS, "data")
EXAMPLES = os.path.join(os.path.dirname(TOOLS), "examples")
REQUESTS_HEADER = "number,user,host,runas_user,runas_group,command,arguments\n"
sys.path[:0] = [folder for folder in (TOOLS, DEV) if folder not in sys.path]

from kulavemia.command import Fault  # noqa: E402
from kulavemia.program import find  # noqa: E402


def program(name: str) -> str:
    """Returns the path of a built program, or nothing."""
    try:
        return find(None, name)
    except Fault:
        return ""


def has_jinja() -> bool:
    """Returns whether pages can be made."""
    done = subprocess.run(["/usr/bin/python3", "-c", "import jinja2"], stderr=subprocess.DEVNULL, check=False)
    return done.returncode == 0


def has_dask() -> bool:
    """Returns whether Dask's distributed scheduler and the module that encrypts its connections are installed."""
    found = "import importlib.util as u, sys; sys.exit(None in map(u.find_spec, ('distributed', 'cryptography')))"
    return subprocess.run(["/usr/bin/python3", "-c", found], check=False).returncode == 0


def has_module(name: str) -> bool:
    """Returns whether a Python package is installed that tests alone need."""
    found = f"import importlib.util as u, sys; sys.exit(u.find_spec('{name}') is None)"
    return subprocess.run(["/usr/bin/python3", "-c", found], check=False).returncode == 0


# Empty where there is none: the tests that need it are skipped.
PROGRAM = program("sudo_audit")
REVIEW = program("sudo_review")
BROWSER = shutil.which("chromium") or shutil.which("chromium-browser")
POPPLER = shutil.which("pdftotext")
DRIVER = shutil.which("chromedriver")
KEYGEN = shutil.which("ssh-keygen")
JINJA = has_jinja()
SCHEMA = has_module("jsonschema")
DRIVEN = BROWSER and DRIVER and has_module("selenium")
DASK = has_dask()
needs_program = unittest.skipUnless(PROGRAM, "the program sudo_audit is not built")
needs_review = unittest.skipUnless(REVIEW, "the program sudo_review is not built")
needs_jinja = unittest.skipUnless(JINJA, "python3-jinja2 is not installed")
needs_dask = unittest.skipUnless(DASK, "python3-distributed or python3-cryptography is not installed")
needs_browser = unittest.skipUnless(BROWSER, "chromium is not installed")
needs_driver = unittest.skipUnless(DRIVEN, "chromium, chromium-driver or python3-selenium is not installed")
needs_poppler = unittest.skipUnless(POPPLER, "poppler-utils is not installed")
needs_keygen = unittest.skipUnless(KEYGEN, "openssh-client is not installed")
needs_schema = unittest.skipUnless(SCHEMA, "python3-jsonschema is not installed")

for there, missing in (
    (PROGRAM, "the program sudo_audit is not built"),
    (REVIEW, "the program sudo_review is not built"),
    (JINJA, "python3-jinja2 is not installed"),
    (DASK, "python3-distributed or python3-cryptography is not installed"),
    (BROWSER, "chromium is not installed"),
    (DRIVEN, "chromium, chromium-driver or python3-selenium is not installed"),
    (POPPLER, "poppler-utils is not installed"),
    (KEYGEN, "openssh-client is not installed"),
    (SCHEMA, "python3-jsonschema is not installed"),
):
    if not there:
        print(f"tests of the tools: {missing}; what needs it is skipped", file=sys.stderr)


class Case(unittest.TestCase):
    """A test with a folder of its own."""

    maxDiff = None

    def setUp(self) -> None:
        holder = tempfile.TemporaryDirectory()
        self.addCleanup(holder.cleanup)
        self.folder = holder.name

    def path(self, *names: str) -> str:
        """Returns a path in the test's folder."""
        return os.path.join(self.folder, *names)

    def write(self, name: str, text: str | bytes) -> str:
        """Writes a file into the test's folder and returns its path."""
        path = self.path(name)
        os.makedirs(os.path.dirname(path), exist_ok=True)
        with open(path, "wb") as file:
            file.write(text if isinstance(text, bytes) else text.encode("utf-8", "surrogateescape"))
        return path

    def read(self, *names: str) -> str:
        """Returns the text of a file in the test's folder."""
        with open(self.path(*names), encoding="utf-8", errors="surrogateescape", newline="") as file:
            return file.read()

    def rows(self, *names: str) -> list[str]:
        """Returns the lines of a file in the test's folder."""
        return self.read(*names).splitlines()

    def run_tool(
        self, name: str, *words: str, status: int = 0, stdin: bytes = b"", folder: str = TOOLS
    ) -> tuple[str, str]:
        """Runs a command and returns what it wrote, on standard output and on standard error."""
        done = subprocess.run(
            [os.path.join(folder, name), *words],
            input=stdin,
            stdout=subprocess.PIPE,
            stderr=subprocess.PIPE,
            cwd=self.folder,
            check=False,
        )
        out, err = os.fsdecode(done.stdout), os.fsdecode(done.stderr)
        self.assertEqual(done.returncode, status, f"{name} {' '.join(words)}\n{out}{err}")
        return out, err

    def run_dev(self, name: str, *words: str, status: int = 0) -> tuple[str, str]:
        """Runs a command of developers and returns what it wrote, as `run_tool` does."""
        return self.run_tool(name, *words, status=status, folder=DEV)
