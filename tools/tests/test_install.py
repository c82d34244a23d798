"""Tests of `packaging/install` and `packaging/deb`, with a stub in the place of each program."""

import glob
import gzip
import os
import re
import shutil
import subprocess
import tempfile
import unittest

from support import PROGRAM, REVIEW, needs_program, needs_review
from tables import read_table

TESTS = os.path.dirname(os.path.realpath(__file__))
REPOSITORY = os.path.dirname(os.path.dirname(TESTS))
STUB = os.path.join(TESTS, "lint_stub")
PROGRAMS = ("sudo_audit", "sudo_review")


def text_of(*names: str) -> str:
    """Returns the text of a file of the repository."""
    with open(os.path.join(REPOSITORY, *names), encoding="utf-8") as file:
        return file.read()


def command_line_of(program: str) -> str:
    """Returns the source of the command line of a program: that which names it."""
    sources = [text_of(path) for path in glob.glob(os.path.join(REPOSITORY, "crates", "*", "src", "command_line.rt"))]
    source, = [text for text in sources if f'Command::new(alloc, "{program}")' in text]
    return source


def all_below(folder: str) -> list[str]:
    """Returns the paths of all that stands below a folder."""
    return sorted(os.path.relpath(os.path.join(place, name), folder)
                  for place, folders, files in os.walk(folder) for name in folders + files)


def run(*words: str, env: dict[str, str] | None = None) -> str:
    """Runs a command that has to succeed, and returns what it prints."""
    ended = subprocess.run(words, capture_output=True, text=True, env=env, check=False)
    if ended.returncode != 0:
        raise AssertionError(f"{words} ended with status {ended.returncode}: {ended.stderr}")
    return ended.stdout


class Installed(unittest.TestCase):
    """An installation below a folder that stands for the root."""

    def setUp(self) -> None:
        self.root = self.enterContext(tempfile.TemporaryDirectory())

    def at(self, path: str) -> str:
        """Returns where a path of the installed system stands."""
        return os.path.join(self.root, path.lstrip("/"))

    def do(self, action: str, prefix: str = "/usr/local") -> str:
        """Installs or uninstalls below the folder."""
        return run(os.path.join(REPOSITORY, "packaging", "install"), action, "--prefix", prefix,
                   "--destdir", self.root, "--program", STUB, "--review", STUB)

    def write(self, path: str, text: str = "") -> None:
        """Writes a file below the folder."""
        os.makedirs(os.path.dirname(self.at(path)), exist_ok=True)
        with open(self.at(path), "w", encoding="utf-8") as file:
            file.write(text)

    def test_uninstall_leaves_nothing(self) -> None:
        self.do("install")
        for name in PROGRAMS:
            self.assertTrue(os.access(self.at(f"/usr/local/bin/{name}"), os.X_OK), name)
        self.do("uninstall")
        self.assertEqual(all_below(self.root), [])

    def test_uninstall_leaves_what_was_there(self) -> None:
        self.write("/usr/local/bin/other")
        self.write("/usr/local/lib/kulavemia/notes")
        os.makedirs(self.at("/usr/local/share/man/man1"))
        before = all_below(self.root)
        self.do("install")
        self.do("uninstall")
        self.assertEqual(all_below(self.root), before)

    def test_a_second_install_takes_the_place_of_the_first(self) -> None:
        self.do("install")
        first = all_below(self.root)
        self.write("/usr/local/lib/kulavemia/tools/old")
        with open(self.at("/usr/local/lib/kulavemia/installed"), "a", encoding="utf-8") as listed:
            listed.write("file /usr/local/lib/kulavemia/tools/old\n")
        self.do("install")
        self.assertEqual(all_below(self.root), first)
        self.do("uninstall")
        self.assertEqual(all_below(self.root), [])

    def test_a_program_that_is_not_there_changes_nothing(self) -> None:
        self.do("install")
        first = all_below(self.root)
        for option, other in (("--program", "--review"), ("--review", "--program")):
            words = [os.path.join(REPOSITORY, "packaging", "install"), "install", "--destdir", self.root]
            done = subprocess.run([*words, option, "/gone", other, STUB], capture_output=True, text=True, check=False)
            self.assertEqual((done.returncode, done.stderr), (1, "/gone: No such file or directory\n"), option)
            self.assertEqual(all_below(self.root), first)

    def test_each_program_is_the_one_that_is_named(self) -> None:
        other = os.path.join(TESTS, "fleet_stub")
        run(os.path.join(REPOSITORY, "packaging", "install"), "install", "--destdir", self.root,
            "--program", STUB, "--review", other)
        for name, path in zip(PROGRAMS, (STUB, other)):
            self.assertEqual(text_of(self.at("/usr/local/bin"), name), text_of(path))

    def test_what_a_broken_off_install_left_is_no_hindrance(self) -> None:
        self.do("install")
        first = all_below(self.root)
        os.symlink("gone", self.at("/usr/local/bin/kulavemia-lint.new"))
        self.write("/usr/local/bin/sudo_audit.new")
        self.do("install")
        self.assertEqual(all_below(self.root), first)

    def test_compiled_modules_are_removed(self) -> None:
        self.do("install")
        self.write("/usr/local/lib/kulavemia/tools/kulavemia/__pycache__/x.pyc")
        self.do("uninstall")
        self.assertEqual(all_below(self.root), [])

    @unittest.skipUnless(shutil.which("make"), "make is not installed")
    def test_make(self) -> None:
        words = ["make", "-s", "-C", REPOSITORY, f"DESTDIR={self.root}", "PREFIX=/opt/a b", f"PROGRAM={STUB}", f"REVIEW={STUB}"]
        run(*words, "install")
        self.assertLessEqual(set(PROGRAMS), set(os.listdir(self.at("/opt/a b/bin"))))
        self.assertEqual(run(self.at("/opt/a b/bin/kulavemia-lint"), "--version"), f"kulavemia-lint {text_of('VERSION')}")
        run(*words, "uninstall")
        self.assertEqual(all_below(self.root), [])

    def test_uninstall_of_nothing_says_so(self) -> None:
        with self.assertRaisesRegex(AssertionError, "nothing is installed"):
            self.do("uninstall")

    def test_installed_lint_finds_the_installed_program(self) -> None:
        self.do("install", "/opt/k")
        answers = self.enterContext(tempfile.TemporaryDirectory())
        for kind, text in (("output", "ok\n"), ("complaint", ""), ("status", "0")):
            with open(os.path.join(answers, f"a.{kind}"), "w", encoding="utf-8") as file:
                file.write(text)
        environment = {"PATH": "/usr/bin:/bin", "LINT_ANSWERS": answers}
        lint = self.at("/opt/k/bin/kulavemia-lint")
        self.assertEqual(run(lint, "--no-cautions", "a", env=environment), "a: ok\n")
        self.assertEqual(run(lint, "--version", env=environment), f"kulavemia-lint {text_of('VERSION')}")

    def test_installed_help_names_the_installed_commands(self) -> None:
        self.do("install")
        for name in sorted(os.listdir(self.at("/usr/local/bin"))):
            if name.startswith("kulavemia-"):
                with self.subTest(name):
                    text = run(self.at(f"/usr/local/bin/{name}"), "--help")
                    self.assertIn(f"usage: {name} ", text)
                    self.assertNotIn("tools/", text)
                with gzip.open(self.at(f"/usr/local/share/man/man1/{name}.1.gz"), "rt") as page:
                    self.assertNotIn("tools/", page.read())

    def test_each_installed_command_tells_the_version(self) -> None:
        self.do("install")
        names = [name for name in sorted(os.listdir(self.at("/usr/local/bin"))) if name.startswith("kulavemia-")]
        self.assertGreater(len(names), 5)
        for name in names:
            with self.subTest(name):
                tool, version = name.removeprefix("kulavemia-"), text_of("VERSION")
                self.assertEqual(run(self.at(f"/usr/local/bin/{name}"), "--version"), f"{name} {version}")
                self.assertEqual(run(os.path.join(REPOSITORY, "tools", tool), "--version"), f"{tool} {version}")

    def test_installed_documents_name_the_installed_commands(self) -> None:
        self.do("install")
        folder = self.at("/usr/local/share/doc/kulavemia")
        tools = "|".join(name.removeprefix("kulavemia-") for name in os.listdir(self.at("/usr/local/bin")))
        documents = [path for path in all_below(folder) if path.endswith(".md") and path != "CHANGELOG.md"]
        texts = {path: text_of(folder, path) for path in documents}
        self.assertIn('    ssh HOST sudo sh -s <"$(command -v kulavemia-collect)" >HOST.tar\n', texts["docs/TOOLS.md"])
        headings = re.findall(r"^## (.*)$", texts["docs/TOOLS.md"], re.MULTILINE)
        anchors = {re.sub(r"[^\w -]", "", heading).lower().replace(" ", "-") for heading in headings}
        for path, text in texts.items():
            with self.subTest(path):
                self.assertEqual(re.findall(rf"[< `]tools/(?:{tools})[ `\n.,;]", text), [])
                self.assertLessEqual(set(re.findall(r"\(TOOLS\.md#([^)]*)\)", text)), anchors)

    def test_all_commands_of_users_are_installed_and_no_others(self) -> None:
        tools = os.path.join(REPOSITORY, "tools")
        there = {name for name in os.listdir(tools) if os.path.isfile(os.path.join(tools, name))}
        self.do("install")
        self.assertEqual({f"kulavemia-{name}" for name in there}, set(os.listdir(self.at("/usr/local/bin"))) - set(PROGRAMS))
        self.assertEqual(set(os.listdir(self.at("/usr/local/lib/kulavemia/tools"))) - {"kulavemia"}, there)

    def test_each_command_has_a_page_and_completions(self) -> None:
        self.do("install")
        commands = [name for name in os.listdir(self.at("/usr/local/bin"))]
        self.assertIn("kulavemia-lint", commands)
        for name in commands:
            with self.subTest(name):
                with gzip.open(self.at(f"/usr/local/share/man/man1/{name}.1.gz"), "rt") as page:
                    head = page.readline()
                self.assertRegex(head, rf'^\.TH {re.escape(name.upper())} 1 "\d{{4}}-\d\d-\d\d" "Kulavemia ')
                self.assertTrue(os.path.exists(self.at(f"/usr/local/share/bash-completion/completions/{name}")))


class Versions(unittest.TestCase):
    """The version stands in the file VERSION, and the lists of changes and the program have it."""

    def test_lists_of_changes_begin_with_the_version(self) -> None:
        version = text_of("VERSION").strip()
        # (what is not released yet may stand above)
        self.assertEqual(re.findall(r"^## \[([0-9][^]]*)\]", text_of("CHANGELOG.md"), re.MULTILINE)[:1], [version])
        self.assertTrue(text_of("packaging", "debian", "changelog").startswith(f"kulavemia ({version}) "))

    def test_source_of_the_program_has_the_version(self) -> None:
        for program in PROGRAMS:
            found = re.findall(r"\.version\((.*)\)", command_line_of(program))
            self.assertEqual(found, [f'"{text_of("VERSION").strip()}"'], program)

    @needs_program
    def test_program_tells_the_version(self) -> None:
        self.assertEqual(run(PROGRAM, "--version"), f"sudo_audit {text_of('VERSION')}")

    @needs_review
    def test_second_program_tells_the_version(self) -> None:
        self.assertEqual(run(REVIEW, "--version"), f"sudo_review {text_of('VERSION')}")


@unittest.skipUnless(shutil.which("bash"), "bash is not installed")
class Completions(unittest.TestCase):
    """What bash proposes for the words of the programs; the functions of bash-completion are stubs."""

    def proposed(self, *words: str) -> list[str]:
        """Returns what is proposed for the last of some words."""
        script = """
            _init_completion() { words=("${asked[@]}"); cword=$((${#asked[@]} - 1)); cur=${asked[-1]}; prev=${asked[-2]}; }
            _filedir() { COMPREPLY=("a file for $cur"); }
            source "$0"
            asked=("$@")
            complete -p "$1" >/dev/null && _sudo_programs "$1" && printf '%s\\n' "${COMPREPLY[@]}"
        """
        return run("bash", "-c", script, os.path.join(REPOSITORY, "packaging", "bash-completion"), *words).split("\n")[:-1]

    def commands_of(self, program: str) -> list[str]:
        """Returns the commands of a program, in the order in which the source of its command line adds them."""
        return re.findall(r"with_subcommand\(.*, ([a-z]+)\(alloc\)\)", command_line_of(program))

    def test_commands(self) -> None:
        for program in PROGRAMS:
            with self.subTest(program):
                commands = self.commands_of(program)
                self.assertGreater(len(commands), 1)
                self.assertEqual(self.proposed(program, ""), [*commands, "help", "--help", "--version"])
                self.assertEqual(self.proposed(program, "help", ""), commands)
                self.assertEqual(self.proposed(program, "help", commands[0][:3]), commands[:1])

    def test_words_of_commands(self) -> None:
        for program, command in (("sudo_audit", "audit"), ("sudo_review", "report"), ("sudo_review", "rules")):
            with self.subTest(program=program, command=command):
                root = ["--root", "--netgroups", "--addresses", "--hostname"] if program == "sudo_review" else []
                options = [*root, "--users", "--hosts", "--workers", "--help"]
                self.assertEqual(self.proposed(program, command, "p", "-"), options)
                self.assertEqual(self.proposed(program, command, "p", "--workers", "16"), ["16"])
                self.assertEqual(self.proposed(program, command, "p", "s=di"), ["a file for di"])
        options = ["--root", "--netgroups", "--addresses", "--hostname", "--help"]
        self.assertEqual(self.proposed("sudo_review", "check", "-"), options)
        options = ["--root", "--netgroups", "--addresses", "--hostname", "--links", "--without", "--help"]
        self.assertEqual(self.proposed("sudo_review", "cautions", "-"), options)
        self.assertEqual(self.proposed("sudo_review", "cautions", "--without", ""), list(read_table("cautions")["classes"]))
        options = ["--root", "--netgroups", "--addresses", "--hostname", "--users", "--hosts", "--user", "--host", "--help"]
        self.assertEqual(self.proposed("sudo_review", "grants", "p", "-"), options)
        options = ["--root", "--netgroups", "--addresses", "--hostname", "--users", "--hosts", "--all", "--help"]
        self.assertEqual(self.proposed("sudo_review", "roots", "p", "-"), options)
        self.assertEqual(self.proposed("sudo_review", "subjects", "p", "-"), [*options[:-2], "--help"])
        options = ["--netgroups", "--addresses", "--hostname", "--users", "--hosts", "--user", "--host", "--requests", "--help"]
        self.assertEqual(self.proposed("sudo_review", "compare", "p", "q", "-"), options)
        self.assertEqual(self.proposed("sudo_review", "compare", "p", "q", "--requests", "s=di"), ["a file for di"])
        self.assertEqual(self.proposed("sudo_review", "subjects", "p", "--users", "d"), ["a file for d"])
        self.assertEqual(self.proposed("sudo_audit", "expand", "p", "h"), ["host"])
        self.assertEqual(self.proposed("sudo_review", "check", "p", "--hostname", "no.such.host"), [""])


@unittest.skipUnless(shutil.which("dpkg-deb"), "dpkg-deb is not installed")
class Package(unittest.TestCase):
    """The package of Debian."""

    def build(self) -> str:
        """Builds the package, and returns its path."""
        folder = self.enterContext(tempfile.TemporaryDirectory())
        run(os.path.join(REPOSITORY, "packaging", "deb"), STUB, STUB, folder)
        name, = os.listdir(folder)
        return os.path.join(folder, name)

    def test_package(self) -> None:
        package = self.build()
        fields = run("dpkg-deb", "--field", package)
        self.assertIn("Package: kulavemia\n", fields)
        self.assertIn(f"Version: {text_of('VERSION')}", fields)
        self.assertRegex(fields, r"\nDepends: .*python3")
        self.assertIn("\nRecommends: python3-jinja2\n", fields)
        listing = run("dpkg-deb", "--contents", package)
        of_programs = [path for name in PROGRAMS for path in (f"usr/bin/{name}", f"usr/share/man/man1/{name}.1.gz")]
        for path in (*of_programs, "usr/bin/kulavemia-lint -> ../lib/kulavemia/tools/lint", "usr/share/doc/kulavemia/copyright",
                     "usr/share/bash-completion/completions/sudo_review -> sudo_audit"):
            self.assertIn(f" ./{path}\n", listing)
        self.assertNotIn("lib/kulavemia/installed", listing)
        self.assertTrue(all(line.split()[1] == "root/root" for line in listing.splitlines()))

    def test_the_same_tree_gives_the_same_package(self) -> None:
        first, second = self.build(), self.build()
        with open(first, "rb") as one, open(second, "rb") as other:
            self.assertEqual(one.read(), other.read())


if __name__ == "__main__":
    unittest.main()
