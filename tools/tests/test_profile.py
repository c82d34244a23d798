"""Tests of docs/PROFILE.md: what it says the program does, the program does.

Of its tables "Refused here" and "Read here" each policy is checked; of "Another grant" policies are audited.
"""

import csv
import io
import re
import subprocess
import unittest
from typing import NamedTuple

from support import PROGRAM, Case, needs_program
from test_documents import CODE, prose_of, rows_of

USERS = """user,uid,groups
root,0,root:0
alice,1000,alice:1000 adm:4
bob,1001,bob:1001 EXAMPLEadmins:6000
eve,1004,EXAMPLE\\admins:6001
operator,11,operator:37
postgres,33,postgres:33
bo\\x62,1002,bob:1001
al\\ice,1003,bob:1001
"""
HOSTS = """host,interfaces
web1.example.org,10.1.2.3/16 127.0.0.1/8
WEB1,
lo,10.9.9.9/32 127.5.0.1/8
"""
HEADER = "number,user,host,runas_user,runas_group,command,arguments"
FAULT = re.compile(r"^`((?:\d+:\d+: )?[a-z][^`]*)`")


class Grant(NamedTuple):
    """A policy of the page, a request under it, and the verdicts, sudo's where its testsudoers shows it."""

    policy: str
    user: str
    runas_user: str
    runas_group: str
    command: str
    arguments: str
    verdict: str
    sudo: str = ""
    host: str = "web1.example.org"


DEFAULT_TARGET = "Defaults runas_default=postgres\nalice ALL = /bin/ls"
ALIAS_OF_USERS = "Runas_Alias R = operator\nalice ALL = (R:adm) /bin/id"
ALIAS_OF_GROUPS = "Runas_Alias G = adm\nalice ALL = (operator:G) /bin/id"
ALIAS_OF_MEMBERS = "Runas_Alias G = %operator\nalice ALL = (bob:G) /bin/id"
REGULAR_ARGUMENTS = "alice ALL = /bin/ls ^a, /bin/cat b$"
LOCALE = "Defaults sudoers_locale=C.UTF-8\nalice ALL = /bin/echo ?"
GRANTS = [
    Grant("alice ALL = /bin/ls\\\n-l", "alice", "", "", "/bin/ls-l", "", "allow", "nomatch"),
    Grant("alice ALL = /bin/ls\\\n-l", "alice", "", "", "/bin/ls", "-l", "nomatch", "allow"),
    Grant("alice ALL = /usr/bin/ls -l\\\n    -a", "alice", "", "", "/usr/bin/ls", "-l-a", "allow", "nomatch"),
    Grant("alice ALL = /usr/bin/ls -l\\\n    -a", "alice", "", "", "/usr/bin/ls", "-l -a", "nomatch", "allow"),
    Grant("alice ALL = /bin/ls foo\\ \nbob ALL=ALL", "bob", "", "", "/bin/sh", "", "allow", "nomatch"),
    Grant("User_Alias A = ali\\\nce\nA ALL = ALL", "alice", "", "", "/bin/sh", "", "allow", "refused"),
    Grant("alice web\\\n1 = ALL", "alice", "", "", "/bin/sh", "", "allow", "refused"),
    Grant('"bo\\x62" ALL = ALL', "bob", "", "", "/bin/sh", "", "allow", "nomatch"),
    Grant('"bo\\x62" ALL = ALL', "bo\\x62", "", "", "/bin/sh", "", "nomatch", "allow"),
    Grant("alice ALL = /bin/ls a\\\\b", "alice", "", "", "/bin/ls", "a\\b", "allow", "nomatch"),
    Grant("alice ALL = /bin/ls a\\\\b", "alice", "", "", "/bin/ls", "ab", "nomatch", "allow"),
    Grant("alice ALL = /usr/bin/passwd [^-]*", "alice", "", "", "/usr/bin/passwd", "-l", "allow", "nomatch"),
    Grant("alice ALL = /usr/bin/passwd [^-]*", "alice", "", "", "/usr/bin/passwd", "bob", "nomatch", "allow"),
    Grant(REGULAR_ARGUMENTS, "alice", "", "", "/bin/cat", "b$", "allow", "nomatch"),
    Grant(REGULAR_ARGUMENTS, "alice", "", "", "/bin/ls", "a, /bin/cat b", "nomatch", "allow"),
    Grant("alice ALL = /bin/ls [[\\:word\\:]]", "alice", "", "", "/bin/ls", "w]", "allow", "nomatch"),
    Grant('alice "web?" = ALL', "alice", "", "", "/bin/sh", "", "nomatch", "allow"),
    Grant("Alice ALL = ALL", "alice", "", "", "/bin/sh", "", "nomatch", "allow"),
    Grant("%ADM ALL = ALL", "alice", "", "", "/bin/sh", "", "nomatch", "allow"),
    Grant("alice ALL = (Postgres) ALL", "alice", "postgres", "", "/bin/sh", "", "nomatch", "allow"),
    Grant("alice ALL = ALL, !/bin/sh", "alice", "", "", "/usr/bin/sh", "", "allow"),
    Grant("alice ALL = /bin/ls", "alice", "", "", "/usr/bin/ls", "", "nomatch"),
    Grant("alice ALL = /usr/bin/*", "alice", "", "", "/bin/ls", "", "nomatch", "allow"),
    Grant("alice ALL = /bin/ls", "alice", "", "", "/usr/bin/../bin/ls", "", "nomatch"),
    Grant("alice ALL = /usr/bin/sudoedit /etc/x", "alice", "", "", "sudoedit", "/etc/x", "nomatch", "refused"),
    Grant("alice ALL = ALL, !/usr/bin/sudoedit", "alice", "", "", "sudoedit", "/etc/x", "allow", "refused"),
    Grant("alice ALL = (#2001) /bin/ls", "alice", "#2001", "", "/bin/ls", "", "unknown-target", "allow"),
    Grant(DEFAULT_TARGET, "alice", "root", "", "/bin/ls", "", "allow", "nomatch"),
    Grant(DEFAULT_TARGET, "alice", "postgres", "", "/bin/ls", "", "nomatch", "allow"),
    Grant("Defaults !root_sudo\nroot ALL = ALL", "root", "", "", "/bin/ls", "", "allow"),
    Grant("Defaults !authenticate\nalice ALL = /bin/ls", "alice", "", "", "/bin/ls", "", "allow"),
    Grant("Defaults targetpw\nALL ALL = (ALL) ALL", "bob", "", "", "/bin/ls", "", "allow"),
    Grant("Defaults runas_check_shell\nalice ALL = (ALL) /bin/ls", "alice", "bob", "", "/bin/ls", "", "allow"),
    Grant("alice ALL = /bin/id", "alice", "root", "adm", "/bin/id", "", "nomatch", "allow"),
    Grant("alice ALL = /bin/id", "alice", "", "adm", "/bin/id", "", "nomatch", "allow"),
    Grant("alice ALL = (operator) /bin/id", "alice", "alice", "adm", "/bin/id", "", "nomatch", "allow"),
    Grant("alice ALL = (!alice:adm) /bin/id", "alice", "", "adm", "/bin/id", "", "nomatch", "allow"),
    Grant("alice ALL = (:operator) /bin/id", "alice", "", "", "/bin/id", "", "allow", "nomatch"),
    Grant(ALIAS_OF_USERS, "alice", "operator", "adm", "/bin/id", "", "allow", "nomatch"),
    Grant(ALIAS_OF_GROUPS, "alice", "operator", "adm", "/bin/id", "", "allow", "nomatch"),
    Grant(ALIAS_OF_MEMBERS, "alice", "", "operator", "/bin/id", "", "allow", "nomatch"),
    Grant("alice ALL = /bin/l!\\*", "alice", "", "", "/bin/l!", "*", "nomatch", "allow"),
    Grant("alice ALL = /bin/l!\\*", "alice", "", "", "/bin/l!*", "", "allow", "nomatch"),
    Grant('"al\\ice" ALL = ALL', "alice", "", "", "/bin/sh", "", "allow", "nomatch"),
    Grant('"al\\ice" ALL = ALL', "al\\ice", "", "", "/bin/sh", "", "nomatch", "allow"),
    Grant('"%EXAMPLE\\admins" ALL = ALL', "bob", "", "", "/bin/sh", "", "allow", "nomatch"),
    Grant('"%EXAMPLE\\admins" ALL = ALL', "eve", "", "", "/bin/sh", "", "nomatch", "allow"),
    Grant("\\#1000 ALL = ALL", "alice", "", "", "/bin/sh", "", "nomatch", "allow"),
    Grant("alice web\\* = ALL", "alice", "", "", "/bin/sh", "", "nomatch", "allow"),
    Grant("alice ALL = /bin/ls \\\\*", "alice", "", "", "/bin/ls", "\\x", "allow", "nomatch"),
    Grant("alice ALL = /bin/ls \\\\*", "alice", "", "", "/bin/ls", "*", "nomatch", "allow"),
    Grant("alice ALL = /bin/ls [\\\\]", "alice", "", "", "/bin/ls", "\\", "allow", "nomatch"),
    Grant("alice ALL = /bin/ls [\\\\]", "alice", "", "", "/bin/ls", "[]", "nomatch", "allow"),
    Grant("alice ALL = /bin/ls [[=a=]]", "alice", "", "", "/bin/ls", "a]", "allow", "nomatch"),
    Grant("alice ALL = /bin/ls [[=a=]]", "alice", "", "", "/bin/ls", "a", "nomatch", "allow"),
    Grant("alice ALL = /bin/ls [[.]", "alice", "", "", "/bin/ls", ".", "allow", "nomatch"),
    Grant("alice ALL = /usr/bin/[l/]s", "alice", "", "", "/usr/bin/ls", "", "allow", "nomatch"),
    Grant("alice ALL = ALL, !/usr/bin/*", "alice", "", "", "/usr/bin/.x", "", "deny", "allow"),
    Grant("alice ALL = /opt/*", "alice", "", "", "/opt/x", "", "allow", "nomatch"),
    Grant("alice ALL = /", "alice", "", "", "/init", "", "allow", "refused"),
    Grant("alice ALL = sudoedit!x", "alice", "", "", "sudoedit", "!x", "nomatch", "allow"),
    Grant('alice ALL = /bin/ls ""', "alice", "", "", "/bin/ls", "", "allow"),
    Grant("alice 0.0.0.0/0 = ALL", "alice", "", "", "/bin/ls", "", "allow", "nomatch"),
    Grant("alice 010.1.2.3 = ALL", "alice", "", "", "/bin/ls", "", "allow", "nomatch"),
    Grant("Defaults !fqdn\nalice web1.example.org = ALL", "alice", "", "", "/bin/ls", "", "allow"),
    Grant(LOCALE, "alice", "", "", "/bin/echo", "é", "nomatch", "allow"),
    Grant("Defaults fast_glob\nalice ALL = /usr/*/", "alice", "", "", "/usr/bin/ls", "", "allow", "nomatch"),
    Grant("Defaults requiretty\nalice ALL = ALL", "alice", "", "", "/bin/ls", "", "allow"),
    Grant("alice [[\\:upper\\:]]* = ALL", "alice", "", "", "/bin/sh", "", "nomatch", "allow", "WEB1"),
    Grant("alice [[\\:ALPHA\\:]]* = ALL", "alice", "", "", "/bin/sh", "", "allow", "nomatch", "web1.example.org"),
    Grant("alice [[\\:al\\pha\\:]]* = ALL", "alice", "", "", "/bin/sh", "", "nomatch", "allow", "web1.example.org"),
    Grant("alice 10.9.9.9 = ALL", "alice", "", "", "/bin/sh", "", "allow", "nomatch", "lo"),
    Grant("alice 127.5.0.1 = ALL", "alice", "", "", "/bin/sh", "", "nomatch", "allow", "lo"),
]


def policy_of(cell: str) -> str | None:
    """Returns the policy that the first cell of a row shows, or `None` if it shows none."""
    lines = CODE.findall(cell)
    if re.search("<(TAB|CR)>", cell) or not cell.startswith("lines `") and len(lines) != 1:
        return None
    if not re.match(r"(lines )?`[\w@#!\"%^]", cell):
        return None
    return "\n".join(lines) + "\n"


def rows_below(heading: str) -> list[tuple[str, str]]:
    """Returns the first two cells of the rows of a table of the profile."""
    return [(cells[0], cells[1]) for above, cells in rows_of("docs/PROFILE.md", ["Policy", "Here", "sudo"]) if above == heading]


@needs_program
class Profile(Case):
    """The column "Here" of the profile."""

    def check(self, policy: str) -> tuple[int, str]:
        """Returns the status of a check of a policy, and what is printed."""
        path = self.write("policy", policy)
        done = subprocess.run([PROGRAM, "check", path], capture_output=True, text=True, check=False)
        return done.returncode, done.stdout + done.stderr

    def verdict(self, grant: Grant) -> str:
        """Returns the verdict on the request of a grant."""
        request = ["1", grant.user, grant.host, grant.runas_user, grant.runas_group, grant.command, grant.arguments]
        fields = io.StringIO()
        csv.writer(fields, lineterminator="\n").writerow(request)
        requests = self.write("requests.csv", f"{HEADER}\n{fields.getvalue()}close,1,,,,,\n")
        words = ["--users", self.write("users.csv", USERS), "--hosts", self.write("hosts.csv", HOSTS), f"s={requests}"]
        policy = self.write("policy", grant.policy + "\n")
        done = subprocess.run([PROGRAM, "audit", policy, *words], capture_output=True, text=True, check=False)
        self.assertEqual(done.returncode, 0, done.stderr)
        return list(csv.reader(done.stdout.splitlines()))[1][2]

    def test_what_is_refused_here(self) -> None:
        tried = 0
        for cell, here in rows_below("Refused here, read by sudo"):
            policy, fault = policy_of(cell), FAULT.match(here)
            if policy and fault:
                tried += 1
                with self.subTest(policy=policy):
                    status, printed = self.check(policy)
                    self.assertEqual(status, 1)
                    self.assertIn(fault.group(1), printed)
        self.assertGreater(tried, 10)

    def test_what_is_read_here(self) -> None:
        tried = 0
        for cell, _ in rows_below("Read here, refused by sudo"):
            policy = policy_of(cell)
            if policy:
                tried += 1
                with self.subTest(policy=policy):
                    self.assertTrue(self.check(policy)[1].endswith("ok\n"))
        self.assertGreater(tried, 10)
        self.assertEqual(self.check("alice ALL = /bin/ls\r\n"), (0, "ok\n"))

    def test_other_grants(self) -> None:
        shown = "\n".join(prose_of("docs/PROFILE.md"))
        for grant in GRANTS:
            with self.subTest(grant=grant):
                self.assertEqual(self.verdict(grant), grant.verdict)
                self.assertIn(f"`{grant.policy.splitlines()[0]}`", shown)


if __name__ == "__main__":
    unittest.main()
