"""Tests of tools/lint: physical places, what is read of the program's answers, formats and folders."""

import json
import os
import random
import re
import subprocess
import tempfile
import time
import unittest

from support import PROGRAM, TESTS, TOOLS, needs_program

from kulavemia.command import Fault
from kulavemia.lint.answers import FAILED, RULES, Finding, fault_of, report_of
from kulavemia.lint.formats import github_property, github_text, picture, place_text
from kulavemia.lint.inputs import includes_of
from kulavemia.lint.places import physical_place
from kulavemia.policy import include_of, lines_of
from lint_cases import CASES
from lint_cases import Case as LintCase

LINT = os.path.join(TOOLS, "lint")
STUB = os.path.join(TESTS, "lint_stub")
OUT = "leads out of the folders that are named; --follow reads it"


def found_in(text: str) -> Finding:
    """Returns the finding of a fault's line that is known."""
    found = fault_of(text)
    assert found is not None
    return found


class Folder(unittest.TestCase):
    """A test in a folder of its own, with a stub in the program's place."""

    def setUp(self) -> None:
        self.folder = self.enterContext(tempfile.TemporaryDirectory())
        self.answers = self.enterContext(tempfile.TemporaryDirectory())

    def write(self, name: str, text: bytes = b"", folder: str | None = None) -> None:
        """Writes a file of the folder, or of another one."""
        path = f"{folder or self.folder}/{name}"
        os.makedirs(os.path.dirname(path), exist_ok=True)
        with open(path, "wb") as file:
            file.write(text)

    def answer(self, name: str, status: int, output: str, complaint: str = "") -> None:
        """Has the stub answer so to the check of a file."""
        for kind, text in (("status", str(status)), ("output", output), ("complaint", complaint)):
            self.write(f"{name}.{kind}", text.encode(), self.answers)

    def lint(self, *words: str, program: str = STUB) -> tuple[int, str, str]:
        """Runs the tool in the folder, and returns its status and what it prints."""
        environment = {**os.environ, "LINT_ANSWERS": self.answers}
        done = subprocess.run(
            [LINT, "--program", program, "--no-cautions", *words],
            cwd=self.folder, capture_output=True, check=False, env=environment)
        return done.returncode, done.stdout.decode(), done.stderr.decode()

    def lint_case(self, case: LintCase, *words: str) -> tuple[int, str, str]:
        """Runs the tool on one of the recorded cases."""
        self.write("case", case.policy)
        self.answer("case", case.status, case.output, case.complaint)
        return self.lint(*words, "case")


class Places(Folder):
    """Physical places."""

    def test_places_counted_by_hand(self) -> None:
        for name, case in CASES.items():
            self.write(name, case.policy)
            self.answer(name, case.status, case.output.replace("case:", f"{name}:"),
                        case.complaint.replace("case:", f"{name}:"))
        status, output, _ = self.lint("--format", "json", *CASES)
        self.assertEqual(status, 1)
        for (name, case), report in zip(CASES.items(), json.loads(output)["files"], strict=True):
            with self.subTest(name):
                self.assertEqual(report["status"], case.status)
                self.assertEqual(tuple((f["line"], f["column"]) for f in report["findings"]), case.places)

    def test_place_that_is_not_there(self) -> None:
        self.assertIsNone(physical_place([b"a"], 2, 1))
        self.assertIsNone(physical_place([], 1, 1))
        self.assertIsNone(physical_place([b"a"], 1, 3))

    @needs_program
    def test_real_answers_are_the_recorded_ones(self) -> None:
        for name, case in CASES.items():
            with self.subTest(name):
                self.write("case", case.policy)
                done = subprocess.run([PROGRAM, "check", "case"], cwd=self.folder, capture_output=True, check=False)
                answer = (done.returncode, done.stdout.decode(), done.stderr.decode())
                self.assertEqual(answer, (case.status, case.output, case.complaint))


class Pictures(unittest.TestCase):
    """Pictures of places."""

    def test_caret_stands_under_the_place(self) -> None:
        self.assertEqual(picture(b"alice ALL = ls", 7, 13), ["    7 | alice ALL = ls", "      |             ^"])

    def test_tabs_stay(self) -> None:
        self.assertEqual(picture(b"\ta\tb", 1, 4), ["    1 | \ta\tb", "      | \t \t^"])

    def test_wide_and_combining_letters(self) -> None:
        self.assertEqual(picture("漢e\u0301x".encode(), 1, 4)[1], "      |    ^")

    def test_what_steers_a_terminal_is_escaped(self) -> None:
        self.assertEqual(
            picture(b"a\x1b[31m\xffb", 1, 8), ["    1 | a⟨U+001B⟩[31m⟨byte FF⟩b", "      | " + " " * 22 + "^"])
        self.assertEqual(place_text("a\u202eb\n\u00a0", 1, None), "a⟨U+202E⟩b⟨U+000A⟩⟨U+00A0⟩:1")

    def test_long_lines_are_cut(self) -> None:
        source, caret = picture(b"a" * 500 + b"!" + b"b" * 500, 1, 501)
        self.assertEqual(source[caret.index("^")], "!")
        self.assertTrue(source.endswith("b...") and len(source) < 220)


class Answers(unittest.TestCase):
    """What is read of the program's answers."""

    def test_each_text_of_a_fault(self) -> None:
        texts = {
            "p:1:2: bad quote": "bad-quote", "p:1:2: syntax error, expected )": "syntax-error",
            "p:1:2: syntax error, expected end of line": "syntax-error", "p: text too long": "text-too-long",
            "p:1: too many aliases": "too-many-aliases", "p:1: unsupported %h": "unsupported",
            "p:1: includes too deep": "includes-too-deep", "p:1: too many files": "too-many-files",
            "p:1: missing q": "missing-file", "cannot read p": "cannot-read",
        }
        for text, rule in texts.items():
            with self.subTest(text):
                self.assertEqual((found_in(text).path, found_in(text).rule), ("p", rule))

    def test_paths_that_look_like_places(self) -> None:
        self.assertEqual(found_in("a:1:2: bad quote:3:4: bad quote").path, "a:1:2: bad quote")
        self.assertEqual(found_in("a b\nc:1: unsupported list").path, "a b\nc")
        self.assertEqual(found_in("p:2: missing q:1: missing r").text, "missing q:1: missing r")

    def test_what_is_not_understood_is_no_ok(self) -> None:
        for status, output, complaint in (
                (0, "", ""), (0, "okay\n", ""), (1, "ok\n", ""), (0, "p:1: error: cycle Cmnd_Alias A\nok\n", ""),
                (0, "ok\n", "warning\n"), (4, "", "sudo_audit: out of memory\n"), (-9, "", ""),
                (0, "", "sudo_audit: p:1: missing q\n"), (127, "", "p: not found\n")):
            with self.subTest(output + complaint):
                report = report_of("p", status, output, complaint)
                self.assertEqual((report.status, report.findings[0].rule), (FAILED, "no-answer"))


class Formats(Folder):
    """The four formats."""

    def test_text(self) -> None:
        status, output, complaint = self.lint_case(CASES["joined twice"])
        self.assertEqual((status, complaint), (1, ""))
        self.assertEqual(output.splitlines(), [
            "case:3:3: error: syntax error, expected command",
            "    3 |   , /bin/su",
            "      |   ^",
            "      = sudo_audit: case:1:32: syntax error, expected command",
            "case: refused",
        ])

    def test_text_of_findings(self) -> None:
        _, output, _ = self.lint_case(CASES["a warning"])
        self.assertEqual(output.splitlines(), [
            "case:2: warning: unused Host_Alias W", "    2 | Host_Alias W = web1", "case: ok"])

    def test_sarif_has_what_version_2_1_0_asks_for(self) -> None:
        _, output, _ = self.lint_case(CASES["joined twice"], "--format", "sarif")
        log = json.loads(output)
        self.assertEqual((log["version"], len(log["runs"])), ("2.1.0", 1))
        run = log["runs"][0]
        self.assertEqual(set(run), {"tool", "columnKind", "invocations", "results"})
        rules = [rule["id"] for rule in run["tool"]["driver"]["rules"]]
        self.assertEqual(rules, list(RULES))
        self.assertEqual(run["invocations"], [{"executionSuccessful": True, "exitCode": 1}])
        result, = run["results"]
        self.assertEqual(rules[result["ruleIndex"]], result["ruleId"])
        self.assertEqual((result["level"], result["message"]), ("error", {"text": "syntax error, expected command"}))
        self.assertEqual(result["locations"], [{"physicalLocation": {
            "artifactLocation": {"uri": "case", "uriBaseId": "%SRCROOT%"},
            "region": {"startLine": 3, "startColumn": 3}}}])

    def test_sarif_names_files_by_uris(self) -> None:
        self.write("a b:1%", b"x\n")
        self.answer("a b:1%", 1, "", "sudo_audit: a b:1%:1:2: bad quote\n")
        self.answer("/gone", 4, "", "sudo_audit: cannot read /gone\n")
        _, output, _ = self.lint("--format", "sarif", "a b:1%", "/gone")
        first, second = json.loads(output)["runs"][0]["results"]
        self.assertEqual(first["locations"][0]["physicalLocation"]["artifactLocation"]["uri"], "a%20b%3A1%25")
        self.assertEqual(second["locations"], [{"physicalLocation": {"artifactLocation": {"uri": "file:///gone"}}}])

    def test_github(self) -> None:
        _, output, _ = self.lint_case(CASES["joined twice"], "--format", "github")
        self.assertEqual(
            output, "::error file=case,line=3,col=3,title=syntax-error::syntax error, expected command\n")
        self.assertEqual(github_property("a:b,c%\n"), "a%3Ab%2Cc%25%0A")
        self.assertEqual(github_text("a:b,c%\r\n"), "a:b,c%25%0D%0A")

    def test_github_commands_cannot_be_forged(self) -> None:
        self.write("p\n::error::x", b"y\n")
        self.answer("p\n::error::x", 0, "p\n::error::x:1: warning: unused Cmnd_Alias A\nok\n")
        _, output, _ = self.lint("--format", "github", "p\n::error::x")
        self.assertEqual(output, "::warning file=p%0A%3A%3Aerror%3A%3Ax,line=1,title=unused::unused Cmnd_Alias A\n")

    def test_a_finding_of_a_shared_file_is_told_once(self) -> None:
        for name in ("a", "b"):
            self.answer(name, 1, "", "sudo_audit: case:1:1: bad quote\n")
        _, output, _ = self.lint("--format", "github", "a", "b")
        self.assertEqual(len(output.splitlines()), 1)


class Inputs(Folder):
    """Files and folders."""

    def test_goes_on_to_the_end(self) -> None:
        self.answer("a", 1, "", "sudo_audit: a:1:1: bad quote\n")
        self.answer("b", 4, "", "sudo_audit: cannot read b\n")
        self.answer("c", 0, "ok\n")
        status, output, _ = self.lint("a", "b", "c")
        self.assertEqual(status, 4)
        self.assertEqual([line for line in output.splitlines() if line.count(":") == 1],
                         ["a: refused", "b: not checked", "c: ok"])
        self.assertIn("b: error: cannot read (No such file or directory)", output)

    def test_folder_as_sudo_reads_it(self) -> None:
        for name in ("d/20-b", "d/10-a", "d/x.conf", "d/old~", "d/sub/z"):
            self.write(name)
        for name in ("d/20-b", "d/10-a"):
            self.answer(name, 0, "ok\n")
        os.symlink("gone", os.path.join(self.folder, "d/link"))
        status, output, _ = self.lint("d")
        self.assertEqual(status, 0)
        self.assertEqual(output.splitlines(), [
            "d/link: note: passed over, as sudo does: No such file or directory",
            "d/old~: note: passed over, as sudo does: its name ends in ~",
            "d/sub: note: passed over, as sudo does: it is no regular file",
            "d/x.conf: note: passed over, as sudo does: its name has a dot",
            "d/10-a: ok", "d/20-b: ok"])

    def test_a_named_file_is_checked_whatever_its_name(self) -> None:
        self.answer("d/x.conf", 0, "ok\n")
        self.assertEqual(self.lint("d/x.conf")[:2], (0, "d/x.conf: ok\n"))

    def test_a_name_that_begins_with_a_dash(self) -> None:
        self.answer("./-x", 0, "ok\n")
        self.assertEqual(self.lint("--", "-x")[:2], (0, "./-x: ok\n"))

    def test_the_hook_takes_no_path_for_an_option(self) -> None:
        with open(os.path.join(os.path.dirname(TOOLS), ".pre-commit-hooks.yaml"), encoding="utf-8") as file:
            found = re.search(r"args: \[(.*)\]", file.read().split("- id: ")[1])
        words = found[1].split(", ") if found else []
        self.assertEqual(words, ["--"])
        self.write("--program=x/sudoers")
        self.answer("./--program=x/sudoers", 0, "ok\n")
        self.assertEqual(self.lint(*words, "--program=x/sudoers")[:2], (0, "./--program=x/sudoers: ok\n"))

    def test_a_fifo_or_a_device_is_not_waited_for(self) -> None:
        os.mkfifo(os.path.join(self.folder, "fifo"))
        for path, kind in (("fifo", "a FIFO"), ("/dev/zero", "a device")):
            text = f"{path}: error: {path}: expected a plain file, found {kind}\n{path}: not checked\n"
            self.assertEqual(self.lint(path)[:2], (4, text))

    def test_an_empty_folder_is_named(self) -> None:
        os.mkdir(os.path.join(self.folder, "d"))
        self.assertEqual(self.lint("d")[:2], (0, "d: note: no file to check\n"))

    def test_a_program_that_is_not_there(self) -> None:
        status, output, complaint = self.lint("a", program="/gone")
        self.assertEqual((status, output), (4, ""))
        self.assertEqual(complaint, "lint: /gone: no program\n")

    def test_output_that_cannot_be_written(self) -> None:
        self.answer("a", 0, "ok\n")
        with open("/dev/full", "wb") as full:
            done = subprocess.run([LINT, "--program", STUB, "a"], cwd=self.folder, stdout=full, check=False,
                                  stderr=subprocess.PIPE, env={**os.environ, "LINT_ANSWERS": self.answers})
        self.assertEqual((done.returncode, done.stderr), (4, b"lint: standard output: No space left on device\n"))


class Outside(Folder):
    """Links and includes that lead out of the folders that are named."""

    SECRET = b"TOKEN=s3cret ALL = broken\n"

    def setUp(self) -> None:
        super().setUp()
        self.outside = self.enterContext(tempfile.TemporaryDirectory())
        self.write("secret", self.SECRET, self.outside)
        self.secret = os.path.join(self.outside, "secret")

    def link(self, target: str, name: str) -> None:
        """Makes a link of the folder."""
        os.makedirs(os.path.dirname(f"{self.folder}/{name}"), exist_ok=True)
        os.symlink(target, f"{self.folder}/{name}")

    def refused(self, *words: str, program: str = STUB) -> str:
        """Runs the tool in each format on what leads out, and returns its text."""
        for form in ("json", "sarif", "github", "text"):
            status, output, complaint = self.lint("--format", form, *words, program=program)
            self.assertEqual((status, complaint), (4, ""), output)
            self.assertIn("leads out of the folders that are named", output)
            for part in ("s3cret", "TOKEN", "PATH="):
                self.assertNotIn(part, output)
        return output

    def test_a_link_in_a_folder(self) -> None:
        self.link("/proc/self/environ", "sudoers.d/10-x")
        self.write("sudoers.d/20-y")
        self.answer("sudoers.d/20-y", 0, "ok\n")
        self.assertEqual(self.refused("sudoers.d").splitlines(), [
            f"sudoers.d/10-x: error: a link to /proc/self/environ {OUT}",
            "sudoers.d/10-x: not checked", "sudoers.d/20-y: ok"])

    def test_an_include(self) -> None:
        for line in ("@include {}", "#include {}", "@includedir {}", '@include "{}"', "@include \\\n  {}"):
            with self.subTest(line):
                self.write("sudoers", ("x ALL = ALL\n" + line.format(self.secret) + "\n").encode())
                words = "@includedir" if "dir" in line else "@include"
                output = self.refused("sudoers")
                self.assertTrue(output.startswith(f"sudoers:2: error: {words} {self.secret} leads out"), output)
                self.assertTrue(output.endswith("\nsudoers: not checked\n"), output)

    def test_an_include_through_a_link(self) -> None:
        self.link(self.secret, "inner")
        self.link(self.outside, "folder")
        self.write("sudoers", b"@includedir d\n@include folder/secret\n@include ../x\n")
        self.write("d/10-main", b"@include ../inner\n")
        self.link("../inner", "d/20-link")
        self.assertEqual([line for line in self.refused("sudoers").splitlines() if ": error: " in line], [
            f"d/20-link: error: a link to ../inner {OUT}",
            f"sudoers:2: error: @include folder/secret {OUT}",
            f"sudoers:3: error: @include ../x {OUT}",
            f"d/10-main:1: error: @include ../inner {OUT}"])

    def test_a_name_that_is_a_link_or_has_one_on_its_way(self) -> None:
        self.link(self.outside, "d")
        self.link(self.secret, "sudoers")
        self.assertIn(f"d: error: a link to {self.outside} leads", self.refused("d"))
        self.assertIn(f"sudoers: error: a link to {self.secret} leads", self.refused("sudoers"))
        self.assertIn("d/secret: error: a link on the way", self.refused("d/secret"))
        self.link(".", "here")
        self.assertIn("here: error: a link to . leads", self.refused("here"))

    def test_more_links_than_can_be_followed(self) -> None:
        for number in range(1500):
            self.link(f"l{number + 1}", f"l{number}")
        self.refused("l0")

    def test_what_the_program_says_of_other_files(self) -> None:
        self.write("sudoers")
        own = "sudoers:1: error: cycle Cmnd_Alias A\n"
        self.answer("sudoers", 1, f"{self.secret}:1: error: undefined Cmnd_Alias TOKEN\n{own}")
        status, output, _ = self.lint("sudoers")
        self.assertEqual(status, 4)
        self.assertEqual(output.splitlines(), [
            "sudoers:1: error: cycle Cmnd_Alias A",
            "sudoers: error: a finding in a file outside the folders that are named is not shown; --follow shows it",
            "sudoers: not checked"])

    def test_follow(self) -> None:
        self.link(self.secret, "sudoers")
        self.answer("sudoers", 1, "", "sudo_audit: sudoers:1:15: syntax error, expected =\n")
        status, output, _ = self.lint("--follow", "sudoers")
        self.assertEqual(status, 1)
        self.assertIn("TOKEN=s3cret", output)

    def test_links_and_includes_that_stay_inside(self) -> None:
        self.write("common/10-x")
        self.link("../common/10-x", "d/10-x")
        self.write("sudoers", b"@includedir d\n@include common/10-x\n@include gone\n@include a\0b\n")
        for name in ("sudoers", "d/10-x"):
            self.answer(name, 0, "ok\n")
        self.assertEqual(self.lint("sudoers", "d")[1], "sudoers: ok\nd/10-x: ok\n")
        self.assertIn("d/10-x: error: a link to ../common/10-x leads out", self.lint("d")[1])

    def test_more_files_than_a_policy_includes(self) -> None:
        self.write("sudoers", b"".join(b"@include f%d\n" % number for number in range(1100)))
        status, output, _ = self.lint("sudoers")
        self.assertEqual((status, output.splitlines()[0]), (4, "sudoers: error: includes too many files"))

    def test_each_include_line_is_found(self) -> None:
        drawn = random.Random(1)
        parts = [b"@include", b"#include", b"dir", b"@incl", b"ude", b"/x", b"#", b"y"]
        parts += [b" ", b"\t", b"\\", b"\n", b"\r", b"\\\n"]
        for _ in range(20_000):
            text = b"".join(drawn.choices(parts, k=drawn.randrange(1, 12)))
            wanted = {include[1:] for include in map(include_of, lines_of(text)) if include}
            self.assertLessEqual(wanted, {include[1:] for include in includes_of(text)}, text)

    def test_texts_that_are_made_to_be_slow(self) -> None:
        started = time.process_time()
        for text in (b"\n" * (1 << 24), b" @include" * (1 << 16), b"@include a\n" * (1 << 15), b"@\\\n" * (1 << 18)):
            list(includes_of(text))
        for text in (b"@\\\n" * (1 << 22), b"@include" * (1 << 21), b"@i\n" * (1 << 22), b"@i" + b"\\" * (1 << 23)):
            self.assertRaises(Fault, list, includes_of(text))
        self.assertLess(time.process_time() - started, 30)


@needs_program
class RealRuns(Folder):
    """Runs of the real program."""

    def test_example(self) -> None:
        example = os.path.join(os.path.dirname(TOOLS), "examples", "sudoers")
        self.assertEqual(self.lint(example, program=PROGRAM)[:2], (0, f"{example}: ok\n"))

    def test_what_leads_out_is_read_to_follow_alone(self) -> None:
        self.write("main", b"@include ../" + os.path.basename(self.answers).encode() + b"/secret\n")
        self.write("secret", b"TOKEN ALL\n", self.answers)
        for words, wanted in (((), False), (("--follow",), True)):
            _, output, _ = self.lint(*words, "main", program=PROGRAM)
            self.assertEqual("TOKEN" in output, wanted, output)

    def test_a_fault_in_an_included_file(self) -> None:
        self.write("main", b"@includedir main.d\n")
        self.write("main.d/10", b"alice ALL = \\\n   ls\n")
        status, output, _ = self.lint("main", program=PROGRAM)
        self.assertEqual(status, 1)
        self.assertEqual(output.splitlines()[0], "main.d/10:2:4: error: not a command")


if __name__ == "__main__":
    unittest.main()
