"""Tests of `dev/gate`, with stubs for `rt` and `dev/wrong-bodies`, and tests of its own in the place of the tools'."""

import contextlib
import importlib.machinery
import importlib.util
import os
import subprocess
import time
import unittest
from collections.abc import Iterator
from typing import Any
from unittest import mock

from support import DEV, Case

PROGRAMS = ("sudo_audit", "sudo_review")
SAMPLES = """import os
import unittest


class Samples(unittest.TestCase):
    def test_passes(self) -> None:
        pass

    def test_finds_the_programs(self) -> None:
        for name in ("sudo_audit", "sudo_review"):
            self.assertEqual(os.environ.get(name.upper()), os.path.abspath(f"crates/{name}/out/{name}"))

    @unittest.skip("no moon")
    def test_is_skipped(self) -> None:
        pass
"""
FAILING = """import unittest


class Failing(unittest.TestCase):
    def test_fails_twice(self) -> None:
        for part in range(2):
            with self.subTest(part):
                self.fail()

    def test_has_an_error(self) -> None:
        raise ValueError

    @unittest.expectedFailure
    def test_fails_as_expected(self) -> None:
        self.fail()

    @unittest.expectedFailure
    def test_passes_against_expectation(self) -> None:
        pass
"""
SLEEPING = """import os
import time
import unittest


class Sleeping(unittest.TestCase):
    def test_sleeps(self) -> None:
        open(os.environ["PID"], "w").close()
        time.sleep(60)
"""


def loaded(name: str) -> Any:
    """Returns a command in dev/ as a module."""
    loader = importlib.machinery.SourceFileLoader(name, os.path.join(DEV, name))
    spec = importlib.util.spec_from_loader(name, loader)
    assert spec is not None
    module = importlib.util.module_from_spec(spec)
    loader.exec_module(module)
    return module


@contextlib.contextmanager
def chosen(folder: str, **variables: str) -> Iterator[None]:
    """Works in a folder, with more variables of the environment."""
    with contextlib.chdir(folder), mock.patch.dict(os.environ, variables):
        yield


class Gate(Case):
    def setUp(self) -> None:
        super().setUp()
        self.runnable("tools/tests/prepare", "#!/bin/sh\necho prepared\n")
        self.write("tools/tests/test_samples.py", SAMPLES)
        for name in PROGRAMS:
            self.write(f"crates/{name}/src/main.rt", "")
        self.write("crates.txt", "# Programs.\nlow:\nmiddle: low memchr\nsudo_audit: middle\nsudo_review: middle low\n")
        self.write("crates/sudo_audit/must-fail/01.one.f.x.edit", "")
        self.bodies("echo 2 refused, 0 not")

    def bodies(self, text: str) -> None:
        """Writes the stub of `dev/wrong-bodies`, which has to find the libraries of `rt ci`."""
        self.runnable("dev/wrong-bodies", f'#!/bin/sh\n[ -d "$4/.git" ] || exit 9\n{text}\n')

    def runnable(self, name: str, text: str) -> str:
        """Writes a file that can be run, and returns its path."""
        path = self.write(name, text)
        os.chmod(path, 0o755)
        return path

    def rt(self, text: str) -> None:
        """Writes the stub of `rt`, which has to be called as `rt ci`."""
        self.runnable("bin/rt", f'#!/bin/sh\n[ "$*" = ci ] || exit 9\n{text}')

    by_rt = False

    def start(self, **more: str) -> subprocess.Popen[str]:
        """Starts the gate on the test's folder, with more variables of its environment."""
        environment = {name: value for name, value in os.environ.items() if name not in ("SUDO_AUDIT", "SUDO_REVIEW", "RT_JOBS")}
        environment |= {"PATH": f"{self.path('bin')}:/usr/bin:/bin", **more}
        words = [os.path.join(DEV, "gate"), "--repository", self.folder, *(["--by-rt"] if self.by_rt else [])]
        return subprocess.Popen(
            words, env=environment, text=True, stdout=subprocess.PIPE, stderr=subprocess.STDOUT
        )

    def gate(self, status: int, **more: str) -> list[str]:
        """Runs the gate, and returns the lines that it prints."""
        with self.start(**more) as child:
            lines = child.communicate()[0].splitlines()
        self.assertEqual(child.returncode, status, lines)
        return lines

    def build(self, *programs: str) -> str:
        """Returns the commands that build programs where `rt ci` does, all unless some are named."""
        folders = {name: f"crates/{name}/out" for name in programs or PROGRAMS}
        return "".join(f"mkdir -p {out} && cp {self.path('bin', 'rt')} {out}/{name}\n" for name, out in folders.items())

    def test_the_sum_is_the_last_line(self) -> None:
        said = ["rt: low proved", "rt: low: its tests are proved", "3 passed, 0 failed"]
        self.rt(self.build() + "".join(f"echo {line}\n" for line in [*said, "40 passed, 0 failed"]))
        lines = self.gate(0)
        self.assertEqual([line for line in lines if line.startswith("rt: ") or line == said[-1]], said)
        self.assertEqual(lines[3], "gate: wrong bodies: 2 refused, 0 not")
        self.assertEqual(lines[4:6], [f"gate: the tests of the tools use crates/{name}/out/{name}" for name in PROGRAMS])
        self.assertEqual(lines[6], "prepared")
        self.assertEqual(lines[-4], "skipped: test_samples.Samples.test_is_skipped: no moon")
        self.assertEqual(lines[-3], "gate: proved after minutes: low 0, low (tests) 0")
        took = r"[0-9.]+ min \([0-9.]+ min of processor time\)"
        parts = f"rt ci with wrong bodies beside it took {took}, the other wrong bodies {took}"
        parts += f", the tests of the tools {took}, and all of it {took}"
        self.assertRegex(lines[-2], f"^gate: {parts}, by [0-9]+ checks at a time$")
        self.assertEqual(lines[-1], "44 passed, 0 failed")
        self.assertNotIn("40 passed, 0 failed", lines)

    def test_each_failing_test_counts_once(self) -> None:
        self.write("tools/tests/test_failing.py", FAILING)
        self.write("tools/tests/test_broken.py", "import nothing_of_this_name\n")
        self.rt(f"{self.build()}echo 40 passed, 2 failed; exit 1\n")
        self.assertEqual(self.gate(1)[-1], "43 passed, 6 failed")

    def test_no_program(self) -> None:
        self.rt("echo 3 passed, 1 failed; exit 1\n")
        lines = self.gate(1)
        for name in PROGRAMS:
            built = f"crates/{name}/out/{name}"
            self.assertIn(f"gate: rt ci left no program {built}; tests that find no other one are skipped", lines)
        self.assertEqual(lines[-1], "4 passed, 2 failed")

    def test_one_program_of_two(self) -> None:
        self.rt(f"{self.build('sudo_audit')}echo 3 passed, 0 failed\n")
        lines = self.gate(1)
        self.assertTrue(lines[1].endswith("/sudo_audit"), lines[1])
        self.assertTrue(lines[2].endswith("/sudo_review; tests that find no other one are skipped"), lines[2])
        self.assertEqual(lines[-1], "6 passed, 1 failed")

    def test_no_last_line(self) -> None:
        for text in ("echo stopped; exit 2", "printf stopped", "echo 3 passed, 0 failed; echo stopped"):
            self.rt(text)
            lines = self.gate(1)
            self.assertEqual(lines[-3], "stopped")
            self.assertRegex(lines[-2], "gate: rt ci ended with status [02], and its last line is not")
            self.assertEqual(lines[-1], "0 passed, 1 failed")
        self.rt("kill -9 $$")
        self.assertEqual(self.gate(1)[-1], "0 passed, 1 failed")

    def test_a_status_that_the_numbers_hide(self) -> None:
        self.rt(f"{self.build()}echo 3 passed, 0 failed; exit 7\n")
        lines = self.gate(1)
        self.assertIn("gate: rt ci ended with status 7", lines)
        self.assertEqual(lines[-1], "5 passed, 1 failed")

    def test_rt_runs_on_the_tree(self) -> None:
        self.by_rt = True
        os.unlink(self.path("dev/wrong-bodies"))
        self.rt(f"{self.build()}ls crates/sudo_audit; echo 3 passed, 0 failed\n")
        lines = self.gate(0)
        self.assertEqual(lines[:3], ["must-fail", "out", "src"])
        self.assertFalse([line for line in lines if "wrong bodies" in line])
        self.assertEqual(lines[-1], "5 passed, 0 failed")

    def test_rt_runs_on_a_copy(self) -> None:
        for folder in ("must-fail", "must-fail-further"):
            self.write(f"crates/sudo_audit/{folder}/01.one.f.x.edit", "")
        for name in ("sudo_audit", "rlib/kept"):
            self.write(f"crates/sudo_audit/out/{name}", "")
        self.rt("ls -d .git; ls crates/sudo_audit; mkdir -p crates/sudo_audit/out/rlib; echo 3 passed, 1 failed; exit 1\n")
        lines = self.gate(1)
        self.assertEqual(lines[:2], [".git", "src"])
        self.assertTrue(lines[3].startswith("gate: rt ci left no program crates/sudo_audit/out/sudo_audit"), lines[3])
        self.assertEqual(sorted(os.listdir(self.path("crates/sudo_audit"))), ["must-fail", "must-fail-further", "out", "src"])
        self.assertEqual(os.listdir(self.path("crates/sudo_audit/out/rlib")), ["kept"])

    def test_a_tree_that_cannot_be_copied(self) -> None:
        os.mkfifo(self.path("pipe"))
        lines = self.gate(1)
        self.assertTrue(lines[0].startswith("gate: the tree cannot be copied: "), lines[0])
        self.assertEqual(lines[1:], ["0 passed, 1 failed"])

    def test_wrong_bodies(self) -> None:
        self.rt(f"{self.build()}echo 3 passed, 0 failed\n")
        self.bodies('echo "${3#-}" "$7 $8"; echo 5 refused, 2 not; exit 1')
        lines = self.gate(1, RT_JOBS="7")
        self.assertEqual(lines[0], "-libraries --jobs 7")
        self.assertIn("gate: wrong bodies: 5 refused, 2 not", lines)
        self.assertEqual(lines[-1], "10 passed, 2 failed")

    def test_wrong_bodies_that_say_nothing(self) -> None:
        self.rt(f"{self.build()}echo 3 passed, 0 failed\n")
        self.bodies("echo stopped; exit 5")
        lines = self.gate(1)
        self.assertEqual(lines[0], "stopped")
        self.assertEqual(lines[1], "gate: dev/wrong-bodies ended with status 5, and its last line is not 'N refused, M not'")
        self.assertEqual(lines[-1], "5 passed, 1 failed")
        os.unlink(self.path("dev/wrong-bodies"))
        lines = self.gate(1)
        self.assertEqual(lines[0], "gate: dev/wrong-bodies: No such file or directory")
        self.assertEqual(lines[-1], "5 passed, 1 failed")

    def test_wrong_bodies_behind_a_failure(self) -> None:
        self.rt(f"{self.build()}echo 3 passed, 1 failed; exit 1\n")
        lines = self.gate(1)
        self.assertEqual(lines[0], "gate: wrong bodies are not counted, since rt ci failed")
        self.assertEqual(lines[-1], "5 passed, 1 failed")

    def test_wrong_bodies_beside_rt(self) -> None:
        self.write("crates/sudo_review/must-fail/01.one.f.x.edit", "")
        self.write("crates/low/must-fail/01.one.f.x.edit", "")
        self.bodies(f'shift 6; echo "$@" >>{self.path("tried")}; echo 1 refused, 0 not')
        os.mkdir(self.path(".git"))
        gate = loaded("gate")
        with chosen(self.folder, RT_JOBS="3"), mock.patch.object(os, "getloadavg", return_value=(0.0, 0.0, 0.0)):
            gate.checks_that_fit = lambda: 9
            trier = gate.Trier(".")
            trier.thread.start()
            self.wait_for("--jobs 2 low\n")
            trier.look_at(b"rt: low: its tests are proved\n")
            trier.look_at(b"rt: low proved\n")
            trier.look_at(b"rt: middle is kept: an earlier run proved the same files\n")
            self.wait_for("--jobs 2 low\n--jobs 2 sudo_audit\n--jobs 2 sudo_review\n")
            self.assertEqual(trier.finish(), (3, 0))

    def test_wrong_bodies_behind_rt(self) -> None:
        self.write("crates/sudo_review/must-fail/01.one.f.x.edit", "")
        self.bodies(f'shift 6; echo "$@" >>{self.path("tried")}; echo 1 refused, 0 not')
        os.mkdir(self.path(".git"))
        gate = loaded("gate")
        with chosen(self.folder, RT_JOBS="3"), mock.patch.object(os, "getloadavg", return_value=(99.0, 0.0, 0.0)):
            trier = gate.Trier(".")
            trier.thread.start()
            trier.look_at(b"rt: low proved\n")
            trier.look_at(b"rt: middle proved\n")
            self.assertEqual(trier.finish(), (1, 0))
        self.assertEqual(self.read("tried"), "--jobs 3 sudo_audit sudo_review\n")

    def wait_for(self, text: str) -> None:
        """Waits until this was tried."""
        started = time.monotonic()
        while not (os.path.exists(self.path("tried")) and self.read("tried") == text) and time.monotonic() < started + 30:
            time.sleep(0.05)
        self.assertEqual(self.read("tried"), text)

    def test_to_stop_the_gate_stops_wrong_bodies(self) -> None:
        self.rt(f"{self.build()}echo 3 passed, 0 failed\n")
        self.bodies(f"echo $$ >{self.path('pid')}; echo; echo; exec sleep 60")
        with self.start() as child:
            self.addCleanup(child.kill)
            while not os.path.exists(self.path("pid")) or not self.read("pid"):
                time.sleep(0.05)
            child.terminate()
            child.communicate()
        self.assertFalse(os.path.exists(f"/proc/{self.read('pid').strip()}"))

    def test_checks_at_once(self) -> None:
        self.rt(f'{self.build()}echo "$RT_JOBS"; echo 3 passed, 0 failed\n')
        self.assertIn(int(self.gate(0)[0]), range(1, len(os.sched_getaffinity(0)) + 1))
        lines = self.gate(0, RT_JOBS="7")
        self.assertEqual(lines[0], "7")
        self.assertTrue(lines[-2].endswith(", by 7 checks at a time"), lines[-2])

    def test_no_tests(self) -> None:
        os.unlink(self.path("tools/tests/test_samples.py"))
        self.rt("echo 3 passed, 0 failed")
        self.assertEqual(self.gate(1)[-1], "5 passed, 1 failed")
        self.write("tools/tests/test_leaving.py", "raise SystemExit\n")
        self.assertEqual(self.gate(1)[-1], "5 passed, 1 failed")

    def test_no_rt(self) -> None:
        self.assertEqual(self.gate(1), ["gate: rt: No such file or directory", "0 passed, 1 failed"])

    def test_lines_are_passed_on_as_they_come(self) -> None:
        self.rt(f"echo first; echo second; read -r line <{self.path('.git', 'pipe')}; echo 1 passed, 0 failed\n")
        os.mkdir(self.path(".git"))
        os.mkfifo(self.path(".git", "pipe"))
        with self.start() as child:
            assert child.stdout is not None
            self.assertEqual(child.stdout.readline(), "first\n")
            with open(self.path(".git", "pipe"), "w", encoding="utf-8"):
                pass
            child.communicate()

    def test_to_stop_the_gate_stops_rt(self) -> None:
        self.rt(f"echo $$ >{self.path('pid')}; echo; echo; exec sleep 60\n")
        with self.start() as child:
            assert child.stdout is not None
            child.stdout.readline()
            child.terminate()
            child.communicate()
        self.assertEqual(child.returncode, 143)
        started = time.monotonic()
        while os.path.exists(f"/proc/{self.read('pid').strip()}") and time.monotonic() < started + 5:
            time.sleep(0.05)
        self.assertFalse(os.path.exists(f"/proc/{self.read('pid').strip()}"))

    def test_to_stop_the_gate_stops_the_tests(self) -> None:
        self.write("tools/tests/test_sleeping.py", SLEEPING)
        self.rt("echo 3 passed, 0 failed\n")
        with self.start(PID=self.path("pid")) as child:
            self.addCleanup(child.kill)
            while not os.path.exists(self.path("pid")):
                time.sleep(0.05)
            child.terminate()
            child.communicate(timeout=10)
        self.assertEqual(child.returncode, 143)

    def test_a_process_of_tests_that_ends(self) -> None:
        self.write("tools/tests/test_ending.py", "import os\n\nos._exit(3)\n")
        self.rt(f"{self.build()}echo 3 passed, 0 failed\n")
        lines = self.gate(1)
        self.assertIn("gate: the process of these tests ended early", lines)
        self.assertEqual(lines[-1], "7 passed, 1 failed")


if __name__ == "__main__":
    unittest.main()
