"""Helpers that the tests of a fleet share: small fleets, and their report as one machine gives it."""

import os
import subprocess
import tempfile
import time
from collections.abc import Callable, Sequence

from support import TESTS, TOOLS, Case

from kulavemia.program import Judge, Policy, audit
from kulavemia.requests import Source
from kulavemia.tree import of_tree

STUB = os.path.join(TESTS, "fleet_stub")
HEADER = "number,user,host,runas_user,runas_group,command,arguments\n"
USERS = "user,uid,groups\nroot,0,root:0\njen,1000,jen:1000\n"
HOSTS = "host,interfaces\nweb1,10.0.0.1/8\n"
POLICY = "root ALL = ALL\njen ALL = /usr/bin/id\n"
PATIENCE = 60.0


def requests(numbers: Sequence[int], close: int | None = None, host: str = "web1") -> str:
    """Returns a requests file of these numbers, which name a host."""
    rows = "".join(f"{number},jen,{host},,,/usr/bin/id,\n" for number in numbers)
    return HEADER + rows + (f"close,{close},,,,,\n" if close is not None else "")


class FleetCase(Case):
    """A test of a fleet below the test's folder."""

    program = STUB

    def host(self, name: str, policy: str = POLICY, senders: Sequence[str] = ()) -> None:
        """Makes a host with a policy that includes a folder, and with a requests file of each sender."""
        self.write(f"fleet/{name}/tree/etc/sudoers", policy + "@includedir /etc/sudoers.d\n")
        self.write(f"fleet/{name}/tree/etc/sudoers.d/10-more", "root ALL = /usr/bin/true\n")
        self.write(f"fleet/{name}/users.csv", USERS)
        self.write(f"fleet/{name}/hosts.csv", HOSTS)
        for sender in senders or [name]:
            self.write(f"fleet/{name}/requests/{sender}.csv", requests((1, 2, 3), 3))

    def hosts(self, count: int) -> None:
        """Makes hosts of one sender each."""
        for number in range(count):
            self.host(f"host{number:02}")

    def hosts_with_one_that_waits(self, count: int) -> None:
        """Makes hosts of one sender each, the last of which is judged once the test's folder has a file `go`."""
        self.hosts(count)
        self.host(f"host{count - 1:02}", POLICY + f"# stub wait {self.path('go')}\n")

    def fleet(self, *words: str, status: int = 0) -> tuple[str, str]:
        """Runs the command."""
        return self.run_tool("fleet", "fleet", "--out", "out", "--program", self.program, *words, status=status)

    def start(self, *words: str) -> "subprocess.Popen[str]":
        """Starts the command."""
        return self.process(
            os.path.join(TOOLS, "fleet"), "fleet", "--out", "out", "--program", self.program, *words
        )

    def process(self, *words: str) -> "subprocess.Popen[str]":
        """Starts a process that is ended with the test, as are its temporary files."""
        running = subprocess.Popen(
            words,
            cwd=self.folder,
            env={**os.environ, "TMPDIR": self.folder},
            text=True,
            stdout=subprocess.PIPE,
            stderr=subprocess.STDOUT,
        )

        def end() -> None:
            running.kill()
            running.wait()
            assert running.stdout is not None
            running.stdout.close()

        self.addCleanup(end)
        return running

    def wait_until(self, what: Callable[[], bool]) -> None:
        """Waits until something holds."""
        end = time.monotonic() + PATIENCE
        while not what():
            self.assertLess(time.monotonic(), end, "it did not come to that")
            time.sleep(0.02)

    def results(self) -> int:
        """Returns how many results there are."""
        folder = self.path("out", "shards")
        if not os.path.isdir(folder):
            return 0
        return sum(not name.startswith(".") for name in os.listdir(folder))

    def want_as_one_machine(self, without: Sequence[str] = ()) -> None:
        """Wants the joined report to be that of one machine, host after host."""
        expected = ""
        for name in sorted(os.listdir(self.path("fleet"))):
            if os.path.isdir(self.path("fleet", name)) and name not in without:
                expected += self.of_one_machine(name)
        self.assertEqual(self.read("out", "report.csv"), "sender,number,verdict,place,tags\n" + expected)

    def of_one_machine(self, name: str) -> str:
        """Returns the rows of a host's audit, with the host before each sender."""
        place = self.path("fleet", name)
        files = sorted(os.listdir(os.path.join(place, "requests")), key=lambda file: file.split(".")[0])
        sources = [
            Source(file.split(".")[0], name, 0, os.path.join(place, "requests", file), None) for file in files
        ]
        with tempfile.TemporaryDirectory() as root:
            policy = of_tree(os.path.join(place, "tree"), "/etc/sudoers", root)
            users, hosts = os.path.join(place, "users.csv"), os.path.join(place, "hosts.csv")
            out = os.path.join(root, "report.csv")
            audit(Judge(self.program), Policy(policy.file(), users, hosts, policy.root), sources, out)
            with open(out, encoding="utf-8", newline="") as file:
                return "".join(f"{name}/{row}" for row in file.readlines()[1:])
