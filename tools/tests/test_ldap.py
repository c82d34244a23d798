"""Rules of LDAP as a policy, by the commands of docs/TOOLS.md: data/rules.ldif is what ldapsearch wrote of a server."""

import os
import re
import shutil
import subprocess
import unittest

from support import DATA, REQUESTS_HEADER, TOOLS, Case, needs_program

from kulavemia.program import Judge, Policy, audit, find
from kulavemia.requests import named_sources
from kulavemia.tree import of_tree

WRITTEN = """Defaults env_reset

# sudoRole alice
alice 192.0.2.0/24, shop1.example.org = (ALL : ALL) NOPASSWD: ALL

# sudoRole operators
%ops ALL = (root) /usr/bin/systemctl restart nginx, /usr/bin/journalctl --no-pager -u nginx

# sudoRole größe
max ALL = ALL, !/usr/bin/su
"""
ASKED = (
    ("alice", "/usr/bin/id,"),
    ("olga", "/usr/bin/journalctl,--no-pager -u nginx"),
    ("max", "/usr/bin/su,"),
    ("max", "/usr/bin/id,"),
)
USERS = "user,uid,groups\nroot,0,root:0\nalice,1,a:1\nolga,2,ops:9\nmax,3,a:1\n"


@unittest.skipUnless(shutil.which("cvtsudoers"), "cvtsudoers, of Debian's package sudo, is not installed")
class Rules(Case):
    def setUp(self) -> None:
        super().setUp()
        shutil.copy(os.path.join(DATA, "rules.ldif"), self.folder)
        self.write("hosts/web1/tree/etc/sudoers", "max ALL = !/usr/bin/id\n")
        with open(os.path.join(os.path.dirname(TOOLS), "docs", "TOOLS.md"), encoding="utf-8") as file:
            commands = re.findall(r"^    ((?:cvtsudoers|echo) .*ldap.*)$", file.read(), re.MULTILINE)
        self.assertEqual(len(commands), 2)
        for command in commands:
            subprocess.run(command, shell=True, cwd=self.folder, check=True)

    def test_the_form(self) -> None:
        self.assertEqual(self.read("hosts", "web1", "tree", "etc", "sudoers.ldap"), WRITTEN)

    @needs_program
    def test_an_audit(self) -> None:
        rows = [f"{number},{user},shop1.example.org,,,{asked}" for number, (user, asked) in enumerate(ASKED, 1)]
        asked = self.write("asked.csv", REQUESTS_HEADER + "\n".join([*rows, f"close,{len(rows)},,,,,\n"]))
        users = self.write("users.csv", USERS)
        hosts = self.write("hosts.csv", "host,interfaces\nshop1.example.org,\n")
        policy = of_tree(self.path("hosts", "web1", "tree"), "/etc/sudoers", self.path("copy"))
        out = self.path("report.csv")
        audit(Judge(find(None)), Policy(policy.file(), users, hosts, policy.root), named_sources([f"s={asked}"]), out)
        self.assertEqual(
            [row.split(",")[2:] for row in self.rows("report.csv")[1:]],
            [
                ["allow", "/etc/sudoers.ldap:4", "NOPASSWD SETENV"],
                ["allow", "/etc/sudoers.ldap:7", ""],
                ["deny", "/etc/sudoers.ldap:10", ""],
                ["allow", "/etc/sudoers.ldap:10", "SETENV"],
            ],
        )


if __name__ == "__main__":
    unittest.main()
