"""Requests that ask who can become root."""

import unittest
from unittest import mock

from support import EXAMPLES, Case, needs_program
from kulavemia import limits
from kulavemia.probe import PROGRAMS, Program, programs_of, write

USERS, HOSTS = f"{EXAMPLES}/users.csv", f"{EXAMPLES}/hosts.csv"


class Probe(Case):
    def probe(self, *words: str, status: int = 0) -> tuple[str, str]:
        """Runs the command over the example's users and hosts."""
        return self.run_tool("probe", "--users", USERS, "--hosts", HOSTS, "--out", "out", *words, status=status)

    def test_chosen_users_hosts_and_programs(self) -> None:
        programs = self.write("programs.csv", "kind,command,arguments\nshell,/bin/sh,\neditor,sudoedit,/etc/passwd\n")
        self.probe("--programs", programs, "--user", "jen", "--user", "bob", "--host", "web1.example.org")
        self.assertEqual(
            self.rows("out", "requests", "probe_1.csv")[1:],
            [
                "1,bob,web1.example.org,root,,/bin/sh,",
                "2,bob,web1.example.org,root,,sudoedit,/etc/passwd",
                "3,jen,web1.example.org,root,,/bin/sh,",
                "4,jen,web1.example.org,root,,sudoedit,/etc/passwd",
                "close,4,,,,,",
            ],
        )
        self.assertEqual(
            self.rows("out", "keys", "probe_1.csv"), ["number,kind", "1,shell", "2,editor", "3,shell", "4,editor"]
        )

    def test_the_list_that_comes_with_it(self) -> None:
        programs = programs_of(PROGRAMS)
        self.assertEqual(len(set(programs)), len(programs))
        out, _ = self.probe("--kind", "shell")
        self.assertIn("requests of 32 users on 7 hosts", out)

    def test_many_requests_are_split(self) -> None:
        with mock.patch.object(limits, "REQUESTS", 4):
            write(self.folder, ["a", "b", "c"], ["h", "i"], [Program("shell", "/bin/sh", "")])
        self.assertEqual(
            self.rows("requests", "probe_2.csv")[1:], ["1,c,h,root,,/bin/sh,", "2,c,i,root,,/bin/sh,", "close,2,,,,,"]
        )

    def test_users_by_membership(self) -> None:
        users = self.write("u.csv", "user,uid,gid,group\na,1,5000,domain users\na,1,4,adm\nb,2,,\n")
        self.run_tool("probe", "--users", users, "--hosts", HOSTS, "--out", "out", "--host", "web1.example.org")
        self.assertEqual({row.split(",")[1] for row in self.rows("out", "requests", "probe_1.csv")[1:-1]}, {"a", "b"})

    def test_faults(self) -> None:
        self.assertIn("--user nobody-here: there is none", self.probe("--user", "nobody-here", status=2)[1])
        self.assertIn("--kind x: there is none", self.probe("--kind", "x", status=2)[1])
        self.assertIn("and --at-most is 5", self.probe("--at-most", "5", status=2)[1])
        for text, said in (
            ("kind,command\n", ":1: bad header"),
            ("kind,command,arguments\n", ": no programs"),
            ("kind,command,arguments\ns,sh,\n", ":2: the command is no path: sh"),
        ):
            self.assertIn(said, self.probe("--programs", self.write("p.csv", text), status=3)[1])

    @needs_program
    def test_the_program_takes_them(self) -> None:
        self.probe("--kind", "shell")
        self.run_tool(
            "compare",
            f"{EXAMPLES}/sudoers",
            f"{EXAMPLES}/sudoers",
            "--users",
            USERS,
            "--hosts",
            HOSTS,
            "--requests",
            "out",
        )


if __name__ == "__main__":
    unittest.main()
