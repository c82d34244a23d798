"""The file of netgroups on its way through the tools: each run of sudo_review gets it, and no run of sudo_audit."""

import json
import os
import unittest

from fleet_case import FleetCase, requests
from noting import NotingCase
from recorded import faults_of
from support import PROGRAM, REQUESTS_HEADER, REVIEW, Case, needs_jinja, needs_program, needs_review, needs_schema
from test_fleet_roots import FleetRoots

NETGROUPS = "netgroup,host,user,domain\nops,,ann,\nweb,web1,-,\n"


class NetgroupCase(Case):
    """A test with two policies, a directory and netgroups."""

    def setUp(self) -> None:
        super().setUp()
        self.write("old", "+ops ALL = /opt/a\n")
        self.write("new", "+ops ALL = /opt/a\nbob +web = (+ops) NOPASSWD: /opt/b\n")
        self.write("d/users.csv", "user,uid,groups\nroot,0,root:0\nann,1001,ann:1001\nbob,1002,bob:1002\n")
        self.write("d/hosts.csv", "host,interfaces\nweb1,\nweb2,\n")
        self.write("n.csv", NETGROUPS)
        self.write("bad.csv", NETGROUPS + "ops,10.0.0.1,,\n")
        rows = ("1,bob,web1,ann,,/opt/b,", "2,bob,web2,ann,,/opt/b,", "3,ann,web2,,,/opt/a,", "close,3,,,,,")
        self.write("r.csv", REQUESTS_HEADER + "\n".join(rows) + "\n")


@needs_review
class Compare(NetgroupCase):
    def compare(self, *words: str, status: int) -> tuple[str, str]:
        """Compares the answers to the requests."""
        words = ("old", "new", "--users", "d/users.csv", "--hosts", "d/hosts.csv", *words, "s=r.csv")
        return self.run_tool("compare", *words, status=status)

    def test_both_policies_have_them(self) -> None:
        out, err = self.compare("--netgroups", "n.csv", status=1)
        self.assertEqual(out.splitlines()[1:], ["gained,s,1,bob,web1,ann,,/opt/b,,nomatch,allow,,NOPASSWD,,new:2"])
        self.assertEqual(err, "compare: 1 gained, 0 gained and lost, 0 lost, 0 other\n")

    def test_the_new_policy_has_others(self) -> None:
        self.write("other.csv", "netgroup,host,user,domain\nops,,bob,\nweb,-,-,\n")
        out, _ = self.compare("--netgroups", "n.csv", "--new-netgroups", "other.csv", status=0)
        self.assertEqual(out.splitlines()[1:], ["lost,s,3,ann,web2,,,/opt/a,,allow,nomatch,,,old:1,"])
        self.assertIn("old:1: unsupported netgroup", self.compare("--new-netgroups", "n.csv", status=5)[1])

    def test_what_is_refused(self) -> None:
        self.assertEqual(self.compare(status=5)[1], "compare: sudo_review: old:1: unsupported netgroup\n")
        said = "compare: bad.csv: sudo_review: netgroups: row 4: bad row\n"
        self.assertEqual(self.compare("--netgroups", "bad.csv", status=5)[1], said)
        os.mkfifo(self.path("fifo"))
        said = "compare: fifo: expected a plain file, found a FIFO\n"
        self.assertEqual(self.compare("--netgroups", "fifo", status=3)[1], said)

    @needs_program
    def test_the_first_program_is_not_asked(self) -> None:
        out, _ = self.compare("--netgroups", "n.csv", "--program", PROGRAM, "--review", REVIEW, status=1)
        self.assertIn("gained,s,1,", out)


@needs_program
@needs_review
class Lint(NetgroupCase):
    def lint(self, *words: str, status: int = 0) -> str:
        """Returns what the tool prints."""
        return self.run_tool("lint", *words, status=status)[0]

    def test_a_policy_is_read_with_them(self) -> None:
        self.write("p", "+ops ALL = /opt/a, A\nUser_Alias B = +ops\nCmnd_Alias A = /bin/ls\n")
        self.assertIn("p:1: error: unsupported netgroup\n", self.lint("p", status=1))
        shown = self.lint("p", "--netgroups", "n.csv").splitlines()
        self.assertEqual(shown[0], "p:2: warning: unused User_Alias B")
        self.assertTrue(shown[2].startswith("p:3: warning: caution: linked: "), shown)
        self.assertEqual(shown[-1], "p: ok")
        self.write("p", "+ops ALL = A\n")
        self.assertIn("p:1: error: undefined Cmnd_Alias A\n", self.lint("p", "--netgroups", "n.csv", status=1))
        self.write("p", "+other ALL = ALL\n")
        self.assertIn("p:1: error: unsupported netgroup\n", self.lint("p", "--netgroups", "n.csv", status=1))

    def test_the_file_is_refused(self) -> None:
        self.write("p", "+ops ALL = ALL\n")
        said = "p: error: no cautions: sudo_review: netgroups: row 4: bad row"
        self.assertIn(said, self.lint("p", "--netgroups", "bad.csv", status=4))
        self.assertIn("cannot read gone: no such file", self.lint("p", "--netgroups", "gone", status=4))
        os.mkfifo(self.path("fifo"))
        self.assertIn("fifo: expected a plain file", self.run_tool("lint", "p", "--netgroups", "fifo", status=4)[1])
        said = "lint: --netgroups is for sudo_review, which --no-cautions does not ask\n"
        self.assertEqual(self.run_tool("lint", "p", "--no-cautions", "--netgroups", "n.csv", status=4)[1], said)


@needs_program
@needs_review
@needs_jinja
class Replay(NotingCase, NetgroupCase):
    def replay(self, *words: str, status: int = 1) -> tuple[str, str]:
        """Makes a page of the policies."""
        words = ("--policy", "new", "--old-policy", "old", "--directory", "d", "--out", "out", *self.programs, *words)
        return self.run_tool("replay", *words, status=status)

    def test_each_run_of_the_second_program_gets_them(self) -> None:
        out, _ = self.replay("--netgroups", "n.csv")
        self.assertEqual(out.splitlines()[0], "netgroups: n.csv")
        runs = self.runs("sudo_review")
        commands = {run[0] for run in runs}
        self.assertEqual(commands, {"check", "cautions", "grants", "roots", "subjects", "report", "compare"})
        for run in runs:
            self.assertEqual(run[run.index("--netgroups") + 1], "n.csv")
        self.assertEqual(self.runs("sudo_audit"), [])
        self.assertIn("new:1,ann,ALL,,,/opt/a,,\n", self.read("out", "review", "grants.csv"))
        self.assertIn('new:2,bob,web1,(ann),,/opt/b,NOPASSWD,\n', self.read("out", "review", "grants.csv"))
        files = json.loads(self.read("out", "review.json"))["files"]
        self.assertIn(("directory", "n.csv", len(NETGROUPS)), [(file["role"], file["path"], file["bytes"]) for file in files])

    def test_those_of_the_directory(self) -> None:
        self.write("d/netgroups.csv", NETGROUPS)
        self.assertEqual(self.replay("--no-probe")[0].splitlines()[0], "netgroups: d/netgroups.csv")
        self.write("d/netgroups.csv", NETGROUPS + "ops,,bob,\n")
        self.assertIn("out is of other inputs (the directory differs)", self.replay("--no-probe", status=2)[1])
        os.unlink(self.path("d", "netgroups.csv"))
        said = "replay: sudo_review: new:1: unsupported netgroup\n"
        self.assertEqual(self.run_tool("replay", "--policy", "new", "--directory", "d", "--out", "o", status=5)[1], said)

    def test_those_that_were_collected(self) -> None:
        for name, text in (
            ("policy", "/etc/sudoers\n"),
            ("tree/etc/sudoers", "+ops ALL = ALL\n"),
            ("passwd", "root:x:0:0::/:/bin/sh\nann:x:1:1::/:/bin/sh\n"),
            ("group", "root:x:0:\nann:x:1:\n"),
            ("addr.json", "[]"),
            ("netgroup", "ops                   ( ,ann,)\n"),
            ("domain", "(none)\n"),
        ):
            self.write(f"web1/{name}", text)
        words = ("replay", "--collected", "web1", "--out", "out", "--no-probe")
        out, _ = self.run_tool(*words)
        self.assertEqual(out.splitlines()[0], "netgroups: out/directory/netgroups.csv")
        self.assertIn("/etc/sudoers:1,ann,ALL,,,ALL,,\n", self.read("out", "review", "grants.csv"))
        files = {file["path"] for file in json.loads(self.read("out", "review.json"))["files"]}
        self.assertTrue({"web1/netgroup", "web1/domain", "out/directory/netgroups.csv"} <= files, files)
        self.write("web1/netgroup", "ops                   ( ,root,)\n")
        self.assertIn("out is of other inputs (the directory differs)", self.run_tool(*words, status=2)[1])
        out, _ = self.run_tool(*words[:4], "o", "--no-probe", "--netgroups", "n.csv")
        self.assertEqual(out.splitlines()[0], "netgroups: n.csv")
        self.assertFalse(os.path.exists(self.path("o", "directory", "netgroups.csv")))

    def test_a_file_that_is_refused(self) -> None:
        said = "replay: bad.csv: sudo_review: netgroups: row 4: bad row\n"
        self.assertEqual(self.replay("--netgroups", "bad.csv", status=5)[1], said)
        self.assertIn("gone: No such file", self.replay("--netgroups", "gone", status=4)[1])


@needs_review
class Roots(FleetRoots):
    """Who can become root on the hosts of a fleet."""

    def setUp(self) -> None:
        super().setUp()
        self.host("a", "+ops ALL = ALL\n")
        self.host("b", "+ops ALL = ALL\n")
        self.write("fleet/a/netgroups.csv", NETGROUPS)

    def test_a_host_has_its_own(self) -> None:
        self.fleet(status=1)
        said = "sudo_review: /etc/sudoers.d/10-own:1: unsupported netgroup"
        self.assertIn(f"b,refused,0,0,,{said}", self.rows("out", "reviewed.csv"))
        self.assertEqual(self.marks(), {"ann": "A", "bob": "·", "root": "R"})
        self.assertIn("netgroups,a/netgroups.csv,", self.read("out", "roots", "a", "files.csv"))
        self.assertEqual(self.read("out", "roots", "a", "netgroups.csv"), NETGROUPS)

    def test_the_fleets_own(self) -> None:
        self.write("fleet/netgroups.csv", NETGROUPS.replace("ann", "bob"))
        self.fleet()
        self.assertEqual(self.marks(), {"ann": "A ·", "bob": "· A", "root": "R R"})
        self.write("fleet/netgroups.csv", NETGROUPS)
        self.fleet()
        self.assertEqual(self.marks(), {"ann": "A A", "bob": "· ·", "root": "R R"})

    @needs_jinja
    @needs_schema
    def test_they_are_among_what_an_auditor_signs(self) -> None:
        self.fleet(status=1)
        self.run_tool("page", "--fleet", "out", "--out", "out/page.html")
        self.assertEqual(faults_of(json.loads(self.read("out", "review.json")), "fleet"), [])
        self.assertIn("  roots/a/netgroups.csv\n", self.read("out", "review.sha256"))
        self.assertIn('class="path">a/netgroups.csv<', self.read("out", "page.html"))


@needs_program
@needs_review
class Shards(FleetCase):
    """The audit of a fleet."""

    def audited(self, *words: str, status: int) -> str:
        """Returns the report of all hosts."""
        self.run_tool("fleet", "fleet", "--out", "out", *words, "--part", "1/1")
        self.run_tool("fleet", "fleet", "--out", "out", *words, "--join", status=status)
        return self.read("out", "report.csv")

    def test_each_shard_gets_them(self) -> None:
        for name in ("web1", "web2"):
            self.host(name, "+ops ALL = NOPASSWD: /usr/bin/id\n")
            self.write(f"fleet/{name}/requests/{name}.csv", requests((1,), 1))
        self.write("fleet/web1/netgroups.csv", "netgroup,host,user,domain\nops,,jen,\n")
        self.write("fleet/netgroups.csv", "netgroup,host,user,domain\nops,-,-,\n")
        report = self.audited("--review", REVIEW, status=0)
        self.assertEqual(report.splitlines()[1:], ["web1/web1,1,allow,/etc/sudoers:1,NOPASSWD", "web2/web2,1,nomatch,,"])
        self.write("fleet/netgroups.csv", "netgroup,host,user,domain\nops,-,jen,\n")
        report = self.audited("--review", REVIEW, status=0)
        self.assertIn("web2/web2,1,allow,/etc/sudoers:1,NOPASSWD\n", report)

    def test_the_first_program_gets_none(self) -> None:
        self.host("web1", "+ops ALL = NOPASSWD: /usr/bin/id\n")
        self.host("web2")
        self.write("fleet/netgroups.csv", "netgroup,host,user,domain\nops,,jen,\n")
        report = self.audited("--program", PROGRAM, status=1)
        self.assertIn("web2/web2,1,allow,/etc/sudoers:2,\n", report)
        self.assertIn("sudo_audit: /etc/sudoers:1: unsupported netgroup", self.read("out", "status.csv"))


if __name__ == "__main__":
    unittest.main()
