"""The name of a policy's host on its way through the tools: each run of sudo_review gets it, and no run of sudo_audit."""

import json
import os
import random
import subprocess
import unittest

from fleet_case import FleetCase, requests
from noting import NotingCase
from recorded import faults_of
from support import PROGRAM, REQUESTS_HEADER, REVIEW, Case, needs_jinja, needs_program, needs_review, needs_schema
from test_fleet_roots import FleetRoots
from test_hostname import BAD_NAMES, DIRECTIVES, NAMES, PIECES

from kulavemia.hostname import is_name, of_this_machine, short_name
from kulavemia.netgroups import named_in
from kulavemia.policy import include_of, lines_of, rewritten

LINES = 200
REFUSED = "sudo_review: hint: %h is not read: the hosts file has db1, which is not web1"


@needs_review
class Names(Case):
    def test_the_program_takes_the_same_names(self) -> None:
        self.write("p", "")
        further = ("web1.", "web1..", "-x", "_", "a.-b", "x" * 255, "x" * 254 + ".", "x" * 255 + ".", "web1\n", "\udcff")
        for name in (*NAMES, *BAD_NAMES, *further):
            self.assertEqual(self.status_of(f"--hostname={name}"), 0 if is_name(name) else 2, name)

    def test_the_program_reads_the_same_paths(self) -> None:
        read = 0
        for number in range(LINES):
            draw = random.Random(f"handed.{number}")
            path = draw.choice((("gone.", "%h"), ("/gone/%h",), ('"', "/gone/%h", '"'), ('"', "gone%h", '"')))
            parts = [draw.choice(DIRECTIVES[:2]), " ", *path]
            for _ in range(draw.randint(0, 2)):
                parts.insert(draw.randrange(len(parts) + 1), draw.choice(PIECES))
            text = "".join(parts).encode() + b"\n"
            missing = self.missing_by(text)
            if not missing:
                continue
            read += 1
            root = b"/%h/r h" if missing.startswith(b"/") else b""
            with self.subTest(text=text):
                found = include_of(next(lines_of(text)), "web1.example.org")
                assert found is not None
                self.assertEqual((found.path, self.missing_by(rewritten(text, b"/%h/r h"))), (missing, root + missing))
        self.assertGreater(read, LINES // 3)

    def missing_by(self, text: bytes) -> bytes:
        """Returns the path of which the program says that it is missing, empty if it says something else."""
        self.write("p", text)
        words = [REVIEW, "check", "p", "--hostname=web1.example.org"]
        said = subprocess.run(words, cwd=self.folder, capture_output=True, check=False).stderr
        before, _, path = said.partition(b" missing ")
        return path.removesuffix(b"\n") if before == b"sudo_review: p:1:" else b""

    def status_of(self, word: str) -> int:
        """Returns the status of a check with a word."""
        words = [REVIEW, "check", "p", word]
        return subprocess.run(words, cwd=self.folder, capture_output=True, check=False).returncode


class HostnameCase(Case):
    """A test with two policies that have `%h`, and a directory."""

    def setUp(self) -> None:
        super().setUp()
        self.write("old", "ann ALL = /opt/a\n@include rules.%h\n")
        self.write("new", "ann ALL = /opt/a\n@include rules.%h\n@includedir more.%h\n")
        self.write("rules.web1", "bob ALL = /opt/b\n")
        self.write("more.web1/x", "Ann ALL = /opt/c\nbob ALL = NOPASSWD: /opt/b\n")
        self.write("d/users.csv", "user,uid,groups\nroot,0,root:0\nann,1001,ann:1001\nbob,1002,bob:1002\n")
        self.write("d/hosts.csv", "host,interfaces\nweb1.example.org,\n")
        self.write("two.csv", "host,interfaces\nweb1,\ndb1,\n")
        rows = ("1,bob,web1.example.org,,,/opt/b,", "2,ann,web1.example.org,,,/opt/a,", "close,2,,,,,")
        self.write("r.csv", REQUESTS_HEADER + "\n".join(rows) + "\n")

    def refuses_names(self, *words: str) -> None:
        """Wants a command to refuse what is no name of a host, as its own words."""
        for name in ("", "a b", "../x", "--root=x", "web1..x"):
            self.assertIn("is no name of a host", self.run_tool(*words, f"--hostname={name}", status=2)[1])


@needs_review
class Compare(HostnameCase):
    def compare(self, *words: str, status: int) -> tuple[str, str]:
        """Compares the answers to the requests."""
        words = ("old", "new", "--users", "d/users.csv", "--hosts", "d/hosts.csv", *words, "s=r.csv")
        return self.run_tool("compare", *words, status=status)

    def test_both_policies_are_of_the_host(self) -> None:
        out, err = self.compare("--hostname", "web1.example.org", status=1)
        wanted = "gained,s,1,bob,web1.example.org,,,/opt/b,,allow,allow,,NOPASSWD,rules.web1:1,more.web1/x:2"
        self.assertEqual(out.splitlines()[1:], [wanted])
        self.assertIn("compare: warning: more.web1/x:1: case: ", err)
        self.assertIn("compare: 1 gained, 0 gained and lost, 0 lost, 0 other\n", err)

    def test_what_is_refused(self) -> None:
        said = "compare: sudo_review: old:2: unsupported %h\n"
        self.assertIn("gone: no program", self.compare("--hostname", "web1", "--review", "gone", status=5)[1])
        self.assertIn(f"{said}compare: {REFUSED}\n", self.compare("--hostname", "web1", "--hosts", "two.csv", status=5)[1])
        self.assertEqual(self.compare("--hostname", "db1", status=5)[1], "compare: sudo_review: old:2: missing rules.db1\n")
        self.refuses_names("compare", "old", "new", "--users", "u", "--hosts", "h", "s=r.csv")

    @needs_program
    def test_the_first_program_is_not_asked(self) -> None:
        out, _ = self.compare("--hostname", "web1", "--program", PROGRAM, status=1)
        self.assertIn("gained,s,1,", out)
        self.assertIn("old:2: unsupported %h", self.compare("--program", PROGRAM, status=5)[1])


@needs_program
@needs_review
class Lint(HostnameCase):
    def lint(self, *words: str, status: int = 0) -> str:
        """Returns what the tool prints."""
        return self.run_tool("lint", *words, status=status)[0]

    def test_a_policy_is_read_as_on_its_host(self) -> None:
        self.assertIn("new:2: error: unsupported %h\n", self.lint("new", status=1))
        shown = self.lint("new", "--hostname", "web1.example.org").splitlines()
        self.assertTrue(shown[0].startswith("more.web1/x:1: warning: caution: case: "), shown)
        self.assertEqual(shown[-1], "new: ok")
        self.assertIn("old:2: error: missing rules.db1\n", self.lint("old", "--hostname=db1", status=1))
        self.write("rules.db1", "bob ALL = TOOLS\n")
        self.assertIn("rules.db1:1: error: undefined Cmnd_Alias TOOLS\n", self.lint("old", "--hostname=db1", status=1))

    def test_what_the_name_leads_to_stays_below_the_folders(self) -> None:
        self.write("secret", "TOKEN ALL\n")
        self.write("p/sudoers", "@include rules.%h\n@includedir %h/%h\n")
        os.symlink("../secret", self.path("p", "rules.db1"))
        self.write("p/db1/db1/x", "")
        shown = self.lint("p/sudoers", "--hostname", "db1", status=4)
        self.assertIn("p/sudoers:1: error: @include rules.db1 leads out", shown)
        self.assertIn("p/sudoers: not checked\n", shown)
        self.assertIn("TOKEN", self.lint("p/sudoers", "--hostname", "db1", "--follow", status=1))
        self.write("p/sudoers", '@include "\\x2e./secret"\n')
        self.assertIn("@include ../secret leads out", self.lint("p/sudoers", status=4))
        self.write("p/sudoers", "@include rules.%h\n@includedir %h/%h\n")
        self.write("p/rules.web1", "")
        os.symlink("..", self.path("p", "web1"))
        self.assertIn("@includedir web1/web1 leads out", self.lint("p/sudoers", "--hostname", "web1", status=4))

    def test_what_is_refused(self) -> None:
        said = "lint: --hostname is for sudo_review, which --no-cautions does not ask\n"
        self.assertEqual(self.run_tool("lint", "old", "--no-cautions", "--hostname", "web1", status=4)[1], said)
        self.assertIn("gone: no program", self.run_tool("lint", "old", "--hostname", "web1", "--review", "gone", status=4)[1])
        self.refuses_names("lint", "old")


@needs_program
@needs_review
@needs_jinja
class Replay(NotingCase, HostnameCase):
    def replay(self, *words: str, status: int = 1) -> tuple[str, str]:
        """Makes a page of the policies."""
        words = ("--policy", "new", "--old-policy", "old", "--directory", "d", "--out", "out", *words)
        return self.run_tool("replay", *words, *self.programs, status=status)

    def test_each_run_of_the_second_program_gets_it(self) -> None:
        self.assertEqual(self.replay("--hostname", "web1")[0].splitlines()[0], "hostname: web1")
        commands = {run[0] for run in self.runs("sudo_review")}
        self.assertEqual(commands, {"check", "cautions", "grants", "roots", "subjects", "report", "compare"})
        for run in self.runs("sudo_review"):
            self.assertIn("--hostname=web1", run)
        self.assertEqual(self.runs("sudo_audit"), [])
        self.assertIn("more.web1/x:2,bob,ALL,,,/opt/b,NOPASSWD,\n", self.read("out", "review", "grants.csv"))
        found = json.loads(self.read("out", "review.json"))
        files = {(file["role"], file["path"]) for file in found["files"]}
        self.assertTrue({("policy", "more.web1/x"), ("policy before", "rules.web1"), ("policy", "rules.web1")} <= files, files)
        self.assertIn("bob ALL = NOPASSWD: /opt/b", self.read("out", "page.html"))
        self.assertIn("out is of other inputs (the command line differs)", self.replay("--hostname", "web1.", status=2)[1])

    def test_what_is_refused(self) -> None:
        self.assertIn("replay: sudo_review: new:2: unsupported %h\n", self.replay(status=5)[1])
        self.write("d/hosts.csv", self.read("two.csv"))
        said = self.run_tool("replay", "--policy", "old", "--directory", "d", "--out", "o", "--hostname", "web1", status=5)[1]
        self.assertEqual(said.splitlines()[-2:], ["replay: sudo_review: old:2: unsupported %h", f"replay: {REFUSED}"])
        self.refuses_names("replay", "--policy", "old", "--directory", "d", "--out", "o")

    def collect(self, **more: str) -> None:
        """Makes what is collected of a host, and its policy."""
        policy = "ann ALL = ALL\n@include /etc/rules.%h\n@includedir more.%h\n"
        for name, text in {
            "policy": "/etc/sudoers\n",
            "tree/etc/sudoers": policy,
            "tree/etc/rules.web1": "bob ALL = /opt/b\n",
            "tree/etc/more.web1/x": "bob ALL = /opt/c\n",
            "passwd": "root:x:0:0::/:/bin/sh\nann:x:1:1::/:/bin/sh\nbob:x:2:2::/:/bin/sh\n",
            "group": "root:x:0:\nann:x:1:\nbob:x:2:\n",
            "addr.json": "[]",
            "hostname": "web1.example.org\n",
            **more,
        }.items():
            self.write(f"host/{name}", text)

    def test_the_name_of_a_collected_host(self) -> None:
        self.collect()
        words = ("replay", "--collected", "host", "--out", "out", *self.programs)
        self.assertEqual(self.run_tool(*words)[0].splitlines()[0], "hostname: web1.example.org")
        for run in self.runs("sudo_review"):
            self.assertIn("--hostname=web1.example.org", run)
        self.assertEqual(self.runs("sudo_audit"), [])
        grants = self.read("out", "review", "grants.csv")
        for line in ("/etc/rules.web1:1,bob,ALL,,,/opt/b,,\n", "/etc/more.web1/x:1,bob,ALL,,,/opt/c,,\n"):
            self.assertIn(line, grants)
        self.assertIn("bob ALL = /opt/c", self.read("out", "page.html"))
        self.collect(hostname="web2\n")
        self.assertIn("out is of other inputs (the ", self.run_tool(*words, status=2)[1])
        self.assertIn("missing rules.web2", self.run_tool(*words[:4], "o", "--no-probe", status=5)[1].replace("/etc/", ""))

    def test_a_collected_name_that_is_none(self) -> None:
        for name in ("../web1", "--root=x", "web1 x"):
            self.collect(hostname=f"{name}\n")
            said = self.run_tool("replay", "--collected", "host", "--out", "o", "--no-probe", status=3)[1]
            self.assertIn(f"replay: its policy has %h, and {name} is no name of a host", said)
        words = ("replay", "--collected", "host", "--out", "o", "--no-probe", "--hostname", "web1", *self.programs)
        self.assertIn("hint: %h is not read: the hosts file has web1 x", self.run_tool(*words, status=5)[1])

    def test_no_name_where_none_stands(self) -> None:
        self.collect(**{"hostname": "../web1\n", "tree/etc/sudoers": "ann ALL = /opt/%h\n# %h\n"})
        out, _ = self.run_tool("replay", "--collected", "host", "--out", "out", "--no-probe", *self.programs)
        self.assertEqual(out.splitlines()[0], "check: 0 warnings")
        self.assertNotIn("--hostname", self.read("sudo_review", "words"))


@needs_jinja
class Pages(HostnameCase):
    def test_rules_of_files_with_the_name(self) -> None:
        self.run_tool("page", "--policy", "new", "--hostname", "web1.x", "--out", "page.html")
        self.assertIn("bob ALL = NOPASSWD: /opt/b", self.read("page.html"))
        self.assertIn("rules.%h: No such file", self.run_tool("page", "--policy", "new", "--out", "page.html", status=4)[1])
        self.refuses_names("page", "--policy", "new", "--out", "page.html")


class Directory(Case):
    def test_netgroups_of_this_machines_files(self) -> None:
        self.write("p", "@include q.%h\n+a ALL = ALL\n")
        self.write(f"q.{short_name(of_this_machine()) or '%h'}", "+b ALL = ALL\n")
        self.assertEqual(named_in(self.path("p")), ["a", "b"])


@needs_review
class Roots(FleetRoots):
    """Who can become root on the hosts of a fleet."""

    def setUp(self) -> None:
        super().setUp()
        for name in ("a", "b"):
            self.host(name, "@include /etc/rules.%h\n")
            self.write(f"fleet/{name}/tree/etc/rules.{name}", "ann ALL = ALL\n")

    def test_each_host_by_its_own_name(self) -> None:
        self.write("fleet/b/hostname", "c.example.org\n")
        self.write("fleet/b/hosts.csv", "host,interfaces\nc,\n")
        self.write("fleet/b/tree/etc/rules.c", "bob ALL = ALL\n")
        self.fleet()
        self.assertEqual(self.marks(), {"ann": "A ·", "bob": "· A", "root": "R R"})
        self.assertIn("policy,/etc/rules.c,", self.read("out", "roots", "b", "files.csv"))

    def test_a_name_stops_no_other_host(self) -> None:
        for number, name in enumerate(("../a", "--root=/", "-x y", "\x1b[31m", "ä", "x" * 256)):
            self.host(f"h{number}", "@include /etc/rules.%h\n")
            self.write(f"fleet/h{number}/hostname", f"{name}\n")
        self.host("h6", "@include /etc/rules.%h\n")
        os.symlink("/etc/hostname", self.path("fleet", "h6", "hostname"))
        self.host("h7", "@include /etc/rules.%h\n")
        self.write("fleet/h7/hostname", "a\n")
        self.host("h8", "bob ALL = ALL\n")
        self.write("fleet/h8/hostname", "../a\n")
        out, _ = self.fleet(status=1)
        self.assertEqual(out, "3 hosts reviewed; 8 refused, 0 failed\n")
        rows = dict(line.split(",", 1) for line in self.rows("out", "reviewed.csv"))
        self.assertIn("its policy has %h, and ../a is no name of a host", rows["h0"])
        self.assertIn("is no name of a host", rows["h5"])
        self.assertIn("h6/hostname: expected a plain file, found a link", rows["h6"])
        self.assertIn("missing /etc/rules.a", rows["h7"])
        self.assertEqual(self.marks(), {"ann": "A A ·", "bob": "· · A", "root": "R R R"})

    def test_the_fleets_own_policy_and_hosts(self) -> None:
        for name in ("a", "b"):
            os.rename(self.path("fleet", name, "tree"), self.path(f"{name}.tree"))
            os.unlink(self.path("fleet", name, "hosts.csv"))
        os.rename(self.path("a.tree"), self.path("fleet", "tree"))
        self.write("fleet/tree/etc/rules.b", "bob ALL = ALL\n")
        self.write("fleet/hosts.csv", "host,interfaces\na.example.org,\nb,\n")
        self.fleet()
        self.assertEqual(self.marks(), {"ann": "A ·", "bob": "· A", "root": "R R"})
        self.write("fleet/b/hostname", "a\n")
        self.fleet(status=1)
        said = "1: unsupported %h; hint: %h is not read: the hosts file has b, which is not a"
        self.assertIn(said, self.read("out", "reviewed.csv"))

    @needs_jinja
    @needs_schema
    def test_a_page_of_them(self) -> None:
        self.fleet()
        self.run_tool("page", "--fleet", "out", "--out", "out/page.html")
        self.assertEqual(faults_of(json.loads(self.read("out", "review.json")), "fleet"), [])
        self.assertIn('class="path">/etc/rules.a<', self.read("out", "page.html"))


@needs_program
@needs_review
class Shards(FleetCase):
    """The audit of a fleet."""

    policy = "@include /etc/rules.%h\njen ALL = /usr/bin/id\n"

    def setUp(self) -> None:
        super().setUp()
        for name in ("web1", "web2"):
            self.host(name, self.policy)
            self.write(f"fleet/{name}/hosts.csv", f"host,interfaces\n{name},\n")
            self.write(f"fleet/{name}/tree/etc/rules.{name}", f"Cmnd_Alias {name.upper()} = /usr/bin/id\n")
            self.write(f"fleet/{name}/requests/{name}.csv", requests((1,), 1, name))

    def audited(self, *words: str, status: int) -> list[str]:
        """Returns the rows of the report of all hosts."""
        self.run_tool("fleet", "fleet", "--out", "out", *words, "--part", "1/1")
        self.run_tool("fleet", "fleet", "--out", "out", *words, "--join", status=status)
        return self.rows("out", "report.csv")[1:]

    def test_each_shard_gets_its_own(self) -> None:
        wanted = [f"{name}/{name},1,allow,/etc/sudoers:2," for name in ("web1", "web2")]
        self.assertEqual(self.audited("--review", REVIEW, status=0), wanted)
        self.write("fleet/web2/hostname", "db1\n")
        self.assertEqual(self.audited("--review", REVIEW, status=1), wanted[:1])
        self.assertIn("web2,1,refused,0,", self.read("out", "status.csv"))
        self.write("fleet/web2/hostname", "a b\n")
        self.assertEqual(self.audited("--review", REVIEW, status=1), wanted[:1])
        self.assertIn('web2,,refused,0,"its policy has %h, and a b is no name of a host', self.read("out", "status.csv"))

    def test_the_fleets_own_policy(self) -> None:
        os.rename(self.path("fleet", "web1", "tree"), self.path("fleet", "tree"))
        self.write("fleet/tree/etc/rules.web3", "jen ALL = NOPASSWD: /usr/bin/id\n")
        os.rename(self.path("fleet", "web2"), self.path("fleet", "web3"))
        os.rename(self.path("fleet", "web3", "tree"), self.path("unused"))
        self.write("fleet/web3/hosts.csv", "host,interfaces\nweb3,\n")
        self.write("fleet/web3/requests/web2.csv", requests((1,), 1, "web3"))
        self.write("fleet/tree/etc/sudoers", "jen ALL = /usr/bin/id\n@include /etc/rules.%h\n")
        report = self.audited("--review", REVIEW, status=0)
        self.assertEqual(report, ["web1/web1,1,allow,/etc/sudoers:1,", "web3/web2,1,allow,/etc/rules.web3:1,NOPASSWD"])

    def test_hosts_of_others(self) -> None:
        self.write("fleet/web1/hosts.csv", "host,interfaces\nweb1,\ndb1,\n")
        self.assertEqual(self.audited("--review", REVIEW, status=1), ["web2/web2,1,allow,/etc/sudoers:2,"])
        said = "sudo_review: /etc/sudoers:1: unsupported %h; hint: %h is not read: the hosts file has db1, which is not web1"
        self.assertIn(f'web1,1,refused,0,"{said}"\n', self.read("out", "status.csv"))

    def test_the_first_program_gets_none(self) -> None:
        self.host("web3", "jen ALL = /usr/bin/id\n")
        self.write("fleet/web1/hostname", "a b\n")
        self.audited("--program", PROGRAM, status=1)
        status = self.read("out", "status.csv")
        self.assertEqual(status.count("sudo_audit: /etc/sudoers:1: unsupported %h"), 2)
        self.assertIn("web3,1,done,3,\n", status)


if __name__ == "__main__":
    unittest.main()
