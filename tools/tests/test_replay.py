"""From logs to the page."""

import csv
import hashlib
import html
import json
import os
import re
import shlex
import shutil
import subprocess
import time
import unittest
from collections.abc import Iterable

from recorded import faults_of
from support import EXAMPLES, PROGRAM, TOOLS, Case, needs_jinja, needs_keygen, needs_program, needs_review, needs_schema
from kulavemia import differences
from kulavemia.command import Fault
from kulavemia.program import Policy
from kulavemia.review import Asked

LOG = """Nov 20 10:01:02 web1 sudo[1]:    steve : TTY=pts/0 ; PWD=/ ; USER=operator ; COMMAND=/usr/local/op_commands/rotate
Nov 20 10:02:02 web1 sudo[2]:    jen : TTY=pts/0 ; PWD=/ ; USER=root ; COMMAND=/usr/bin/id <script>alert(1)</script>
Nov 20 10:03:02 web1 sudo[3]:    millert : command not allowed ; TTY=pts/0 ; PWD=/ ; USER=root ; COMMAND=/usr/bin/bash
Nov 20 10:04:02 web1 sudo[4]:    guest : 3 incorrect password attempts ; TTY=pts/0 ; PWD=/ ; USER=root ; COMMAND=/usr/bin/id
"""
USERS = ((1, "ann"), (2, "ben"), (3, "dan"), (4, "eve"), (5, "kim"))
DIGEST = "sha224:0GomF8mNN3wlDt1HD9XldjJ3SNgpFdbjO1+NsQ=="
PROGRAMS = "kind,command,arguments\nany command,/none/such,\nshell,/usr/bin/bash,\n"


@needs_program
@needs_review
@needs_jinja
class Replay(Case):
    def setUp(self) -> None:
        super().setUp()
        self.write("auth.log", LOG)
        self.write("programs.csv", PROGRAMS)

    def replay(self, *words: str, status: int = 0, domain: str = "example.org") -> tuple[str, str]:
        """Runs the command over the test's log."""
        naming = ["--domain", domain] if domain else []
        return self.run_tool(
            "replay", "--out", "out", "--programs", "programs.csv", *naming, *words, "auth.log", status=status
        )

    def test_the_example(self) -> None:
        out, _ = self.replay("--policy", f"{EXAMPLES}/sudoers", "--directory", EXAMPLES)
        self.assertIn("logs: 2 accepted, 1 refused and 1 failed requests of 1 senders", out)
        self.assertEqual(
            self.rows("out", "requests", "report.csv")[1:],
            [
                f"web1_example_org,1,allow,{EXAMPLES}/sudoers:54,",
                "web1_example_org,2,nomatch,,",
                f"web1_example_org,3,allow,{EXAMPLES}/sudoers:45,NOPASSWD SETENV",
                "web1_example_org,4,nomatch,,",
            ],
        )
        page = self.read("out", "page.html")
        for part in (
            "Would be denied now: 1",
            "Would be allowed now: 1",
            "&lt;script&gt;alert(1)",
            "auth.log:2",
            "Rules that decided no request of the logs: 18 of 20",
        ):
            self.assertTrue(part in page, part)
        self.assertEqual(len(self.rows("out", "probe", "report.csv")), 1 + 32 * 7 * 2)

    def test_hosts_that_are_not_found_are_told(self) -> None:
        example = ("--policy", f"{EXAMPLES}/sudoers", "--directory", EXAMPLES, "--no-probe")
        self.assertEqual(self.replay(*example)[1], "")
        shutil.rmtree(self.path("out"))
        self.assertEqual(
            self.replay(*example, domain="")[1],
            "replay: warning: 4 requests are not judged, since hosts.csv does not have their hosts: web1; all hosts of"
            " hosts.csv are in one domain: say --domain example.org, or name them by --host-map\n",
        )
        self.assertIn("web1,1,unknown-host,,", self.rows("out", "requests", "report.csv"))
        shutil.rmtree(self.path("out"))
        err = self.replay(*example, domain="example.com")[1]
        self.assertIn("web1.example.com; name them by --host-map, or add them to hosts.csv\n", err)

    def test_what_a_change_does(self) -> None:
        with open(f"{EXAMPLES}/sudoers", encoding="utf-8") as file:
            text = file.read().replace("@includedir sudoers.d", "")
        old = self.write("old", text)
        new = self.write("new", text.replace("jen ALL, !SERVERS", "jen ALL"))
        out, _ = self.replay("--policy", new, "--old-policy", old, "--directory", EXAMPLES, status=1)
        self.assertIn("changes: 11 gained, 0 gained and lost, 0 lost, 0 other", out)
        self.assertTrue(all(row.startswith("gained,") for row in self.rows("out", "changes.csv")[1:]))
        self.assertRegex(out, r"differences: [1-9]\d* gained, 0 gained and lost, 0 lost, 0 other, 0 may\n")
        table = list(csv.DictReader(self.rows("out", "differences.csv")))
        self.assertEqual({(row["users"], row["answer"]) for row in table}, {("jen", "gained")})
        self.assertIn("differences.csv", self.read("out", "review.sha256"))
        self.assertIn("some commands are answered otherwise", " ".join(json.loads(self.read("out", "review.json"))["sentences"]))

    def test_what_no_request_shows_may_change_too(self) -> None:
        self.write("d/users.csv", "user,uid,groups\nroot,0,root:0\nann,1,ann:1\n")
        self.write("d/hosts.csv", "host,interfaces\nweb1,\n")
        self.write("old", "ann ALL = /bin/a\n")
        self.write("new", "ann ALL = /bin/a, /opt/never/asked\n")
        words = ("replay", "--policy", "new", "--old-policy", "old", "--directory", "d", "--out", "out", "--no-probe")
        out = self.run_tool(*words, status=1)[0]
        self.assertIn("changes: 0 gained, 0 gained and lost, 0 lost, 0 other\ndifferences: 3 gained,", out)
        self.assertTrue(any(row.startswith("ann,ALL,root,") for row in self.rows("out", "differences.csv")))

    def test_a_comparison_that_takes_too_long(self) -> None:
        stub = self.write("stub", "#!/bin/sh\nexec sleep 60\n")
        os.chmod(stub, 0o755)
        asked = Asked(stub, Policy(self.write("p", ""), self.write("u", ""), self.write("h", "")))
        with self.assertRaisesRegex(differences.Uncompared, "that takes more than 0 minutes"):
            differences.write(asked, asked, self.path("table"), 0.1)
        self.assertFalse(os.path.exists(self.path("table")))

    def test_a_comparison_that_the_program_refuses(self) -> None:
        files = [self.write(f"{folder}/etc/sudoers", "") for folder in ("old", "new")]
        for said, reason in (
            ("new/etc/sudoers:3: unsupported digest", "a form of rules (sudo_review: /etc/sudoers:3: unsupported digest)"),
            ("old/etc/sudoers:3: unsupported option", "(sudo_review: /etc/sudoers:3: unsupported option, in the policy before)"),
            ("new/etc/sudoers:3: unsupported list", ""),
            ("new/etc/sudoers:3:1: syntax error, expected =", ""),
        ):
            place = self.path(said.partition(":")[0])
            stub = self.write("stub", f"#!/bin/sh\necho 'sudo_review: {place}:{said.partition(':')[2]}' >&2\nexit 1\n")
            os.chmod(stub, 0o755)
            roots = [file.removesuffix("/etc/sudoers") for file in files]
            old, new = (Asked(stub, Policy(file, file, file, root)) for file, root in zip(files, roots))
            with self.assertRaises(differences.Uncompared if reason else Fault) as raised:
                differences.write(old, new, self.path("table"))
            self.assertTrue(str(raised.exception).endswith(reason), raised.exception)
            self.assertFalse(os.path.exists(self.path("table")))

    def test_what_sudo_reads_otherwise_may_change_too(self) -> None:
        self.write("d/users.csv", "user,uid,groups\nroot,0,root:0\nann,1,ann:1\nkim,2,kim:2\n")
        self.write("d/hosts.csv", "host,interfaces\nweb1,\n")
        self.write("old", "ann ALL = ALL\n")
        self.write("new", "Defaults !authenticate\nann ALL = ALL\n")
        words = ("replay", "--policy", "new", "--old-policy", "old", "--directory", "d", "--out", "out", "--no-probe")
        err = self.run_tool(*words)[1]
        self.assertIn("replay: warning: new:1: defaults: authenticate: decides for sudo, has no effect here: only one of", err)
        said = "Only one of the two policies has one construct that sudo reads or judges otherwise: no change that is listed"
        self.assertIn(said, " ".join(json.loads(self.read("out", "review.json"))["sentences"]))
        self.assertTrue("<li>new:1: defaults: authenticate: decides for sudo" in self.read("out", "page.html"))

    def test_too_many_probes(self) -> None:
        self.write("d/users.csv", "user,uid,groups\nroot,0,root:0\n" + "".join(f"u{at},{at + 1},u:1\n" for at in range(999)))
        self.write("d/hosts.csv", "host,interfaces\nweb1,\n")
        self.write("policy", "u1 ALL = ALL\n")
        self.write("programs.csv", "kind,command,arguments\n" + "".join(f"shell,/bin/sh{at},\n" for at in range(1001)))
        words = ("replay", "--policy", "policy", "--directory", "d", "--programs", "programs.csv", "--out", "out")
        out, err = self.run_tool(*words)
        self.assertIn("1,001,000 probes are left out: they only illustrate, and --at-most 1001000 makes them\n", err)
        self.assertNotIn("probes", out)
        self.assertFalse(os.path.exists(self.path("out", "probe")))
        self.assertIn("1001000 probes, and --at-most is 1002; name", self.run_tool(*words, "--at-most", "1002", status=2)[1])

    def test_what_was_collected(self) -> None:
        self.write("web1/policy", "/etc/sudoers\n")
        self.write("web1/tree/etc/sudoers", "root ALL = ALL\n@includedir /etc/sudoers.d\n")
        self.write("web1/tree/etc/sudoers.d/10-jen", "jen ALL = \\\n  ALL\n")
        self.write("web1/passwd", "root:x:0:0::/:/bin/sh\njen:x:1:1::/:/bin/sh\n")
        self.write("web1/group", "root:x:0:\njen:x:1:\n")
        self.write("web1/addr.json", "[]")
        self.write("web1/hostname", "web1.example.org\n")
        self.write("web1/missing", "/etc/nsswitch.conf: sudoers: files sss: not gathered\n")
        self.assertEqual(
            self.replay("--collected", "web1")[1],
            "replay: warning: web1/missing: /etc/nsswitch.conf: sudoers: files sss: not gathered\n",
        )
        self.assertIn(
            "web1_example_org,2,allow,/etc/sudoers.d/10-jen:1,SETENV", self.rows("out", "requests", "report.csv")
        )
        page = self.read("out", "page.html")
        self.assertFalse(self.folder in page)
        for part in ("jen ALL = ALL", "nsswitch.conf: sudoers: files sss", 'class="path">/etc/sudoers.d/10-jen<'):
            self.assertTrue(part in page, part)
        # The sums are those of the files as they were collected, and not of the copies.
        files = {file["path"]: file["sha256"] for file in json.loads(self.read("out", "review.json"))["files"]}
        with open(self.path("web1", "tree", "etc", "sudoers"), "rb") as file:
            self.assertEqual(files["/etc/sudoers"], hashlib.sha256(file.read()).hexdigest())
        self.assertIn("web1/passwd", files)

    def test_rules_that_could_not_be_gathered_leave_no_cell_sure(self) -> None:
        self.write("web1/policy", "/etc/sudoers\n")
        self.write("web1/tree/etc/sudoers", "root ALL = ALL\njen ALL = ALL\n")
        self.write("web1/passwd", "".join(f"{name}:x:{at}:{at}::/:/bin/sh\n" for at, name in enumerate(("root", "jen", "kim"))))
        self.write("web1/group", "root:x:0:\njen:x:1:\nkim:x:2:\n")
        self.write("web1/addr.json", "[]")
        for lacks, wanted in (
            ("/etc/nsswitch.conf: sudoers: files sss: not gathered\n", "?A ? R"),
            ("/etc/sudoers.d/20-web: cannot be read\n", "?A ? R"),
            ("/var/log/auth.log: cannot be read\n", "A · R"),
        ):
            self.write("web1/missing", lacks)
            shutil.rmtree(self.path("out"), ignore_errors=True)
            self.run_tool("replay", "--collected", "web1", "--out", "out", "--no-probe")
            self.assertEqual(" ".join(self.marks_shown().values()), wanted, lacks)
            sentences = " ".join(json.loads(self.read("out", "review.json"))["sentences"])
            self.assertEqual("but sudo may decide otherwise" in sentences, "?" in wanted)
            self.assertIn("Something could not be gathered", sentences)

    def test_lines_without_a_host_are_of_the_only_host(self) -> None:
        self.write("directory/users.csv", "user,uid,groups\nroot,0,root:0\nguest,1,guest:1\n")
        self.write("directory/hosts.csv", "host,interfaces\nweb1,\n")
        policy = self.write("policy", "guest ALL = /usr/bin/id\n")
        self.write("auth.log", "Nov 20 10:04:02 : guest : TTY=pts/0 ; PWD=/ ; USER=root ; COMMAND=/usr/bin/id\n")
        words = ("--policy", policy, "--directory", "directory", "--no-probe")
        out, err = self.replay(*words)
        self.assertIn("logs: 1 accepted, 0 refused and 0 failed requests of 1 senders; 0 to list, 0 other lines\n", out)
        self.assertEqual(err, "")
        self.assertIn(f"web1,1,allow,{policy}:1,", self.rows("out", "requests", "report.csv"))
        self.assertIn("In a file of syslog any user of the host can forge an entry.", self.read("out", "page.html"))

    def test_a_log_of_lines_that_cannot_be_read(self) -> None:
        self.write("auth.log", LOG.splitlines()[0] + "\n" + LOG.replace("Nov", "on Nov"))
        example = ("--policy", f"{EXAMPLES}/sudoers", "--directory", EXAMPLES, "--no-probe")
        out, err = self.replay(*example, status=3)
        self.assertIn("logs: 1 accepted", out)
        self.assertIn("4 of 5 lines under sudo's name are left out", err)
        self.assertTrue(os.path.exists(self.path("out", "page.html")))

    def test_an_audit_without_a_source_says_so(self) -> None:
        example = ("--policy", f"{EXAMPLES}/sudoers", "--directory", EXAMPLES, "--no-probe", "--out", "out")
        self.assertEqual(
            self.run_tool("replay", *example)[1], "replay: warning: there is no log: nothing is audited\n"
        )
        shutil.rmtree(self.path("out"))
        self.write("auth.log", "Nov 20 10:01:02 web1 sshd[1]: hello\n")
        self.assertIn("an audit of it has no source", self.run_tool("replay", *example, "auth.log")[1])

    def test_a_policy_of_another_machine(self) -> None:
        policy = self.write("web1/sudoers", "@includedir /etc/sudoers.d\n")
        err = self.replay("--policy", policy, "--directory", EXAMPLES, status=3)[1]
        self.assertIn(f"{policy}:1: the policy includes /etc/sudoers.d of this machine", err)
        self.assertIn("tools/collect", err)

    def test_a_policy_that_is_refused_is_told_by_its_own_path(self) -> None:
        self.write("tree/etc/sudoers", "@include /etc/more\n")
        self.write("tree/etc/more", "a b c\n")
        err = self.replay("--tree", "tree", "--directory", EXAMPLES, status=5)[1]
        self.assertIn("replay: sudo_review: /etc/more:1:5: syntax error", err)

    @needs_schema
    def test_what_the_page_rests_on(self) -> None:
        self.replay("--policy", f"{EXAMPLES}/sudoers", "--directory", EXAMPLES)
        record = json.loads(self.read("out", "review.json"))
        self.assertEqual(faults_of(record), [])
        self.assertEqual([program["name"] for program in record["programs"]], ["sudo_audit", "sudo_review"])
        self.assertTrue(all(program["version"] for program in record["programs"]))
        self.assertEqual([(log["path"], log["taken"], log["passed_over"]) for log in record["logs"]], [("auth.log", 4, 0)])
        hosts = {host["name"]: (host["requests"], host["first"][5:], host["last"][5:]) for host in record["hosts"]}
        self.assertEqual(hosts["web1.example.org"], (4, "11-20T10:01:02", "11-20T10:04:02"))
        self.assertEqual(hosts["db1.example.org"], (0, "", ""))
        page = self.read("out", "page.html")
        for sentence in record["sentences"]:
            self.assertTrue(html.escape(sentence, quote=False) in page, sentence)
        self.assertEqual(len(record["rules"]), 20)
        self.assertEqual(sum(rule["allowed"] for rule in record["rules"]), 2)
        done = subprocess.run(["sha256sum", "-c", "review.sha256"], cwd=self.path("out"), stdout=subprocess.PIPE, check=True)
        names = ["page.html", "review.json", *(f"review/{name}.csv" for name in ("cautions", "grants", "roots", "subjects"))]
        names += ["requests/report.csv", "probe/report.csv", "requests/rules.csv"]
        self.assertEqual(done.stdout.decode().splitlines(), [f"{name}: OK" for name in names])

    def test_who_can_become_root(self) -> None:
        self.write("d/users.csv", "user,uid,groups\nroot,0,root:0\n" + "".join(f"{user},{at},staff:50\n" for at, user in USERS))
        self.write("d/hosts.csv", "host,interfaces\nweb1,\n")
        rules = (
            "eve ALL = (ALL) NOPASSWD: ALL",
            "ben ALL = (eve) NOPASSWD: ALL",
            "ann ALL = (root) ALL, !/opt/su",
            "dan ALL = NOPASSWD: /usr/local/bin/*",
            "gus ALL = ALL",
            "#1234 ALL = NOPASSWD: ALL",
        )
        self.assertEqual(self.marks(rules), {"ann": "B", "ben": "A!", "dan": "L?", "eve": "A!", "kim": "·", "root": "R"})
        record = json.loads(self.read("out", "review.json"))
        named = [subject["name"] for subject in record["subjects"] if subject["what"] == "unknown"]
        self.assertEqual(named, ["gus", "#1234"])
        (reached,) = [row for row in record["roots"]["reached"] if row["users"] == ["dan"]]
        self.assertEqual([grant["command"] for grant in reached["grants"]], ["/usr/local/bin/*"])
        self.assertIn("Of these, one gets there through another user or group: ben.", record["sentences"])

    def test_a_caution_that_is_about_cells(self) -> None:
        self.write("d/users.csv", "user,uid,groups\nroot,0,root:0\nann,1,ann:1\nkim,2,kim:2\n")
        self.write("d/hosts.csv", "host,interfaces\nweb1,\n")
        for line, wanted in (
            ("", "A ·"),
            ("Defaults !authenticate", "A? ·"),
            ("Defaults:kim targetpw", "A? ·"),
            ("Defaults runas_default=kim", "?A ?"),
            ("Kim ALL = /opt/x", "?A ?"),
            ("Defaults noexec", "A ·"),
            ("kim ALL = (kim) /bin/ls [^a]", "A ·"),
        ):
            shutil.rmtree(self.path("out"), ignore_errors=True)
            marks = self.marks(["ann ALL = ALL", line])
            self.assertEqual(f"{marks['ann']} {marks['kim']}", wanted, line)
        page = self.read("out", "page.html")
        self.assertTrue("What sudo reads otherwise: 2" in page)

    def test_what_depends_is_not_sure(self) -> None:
        self.write("d/users.csv", "user,uid,groups\nroot,0,root:0\n" + "".join(f"{user},{at},staff:50\n" for at, user in USERS))
        self.write("d/hosts.csv", "host,interfaces\nweb1,\n")
        rules = (
            f"ann ALL = {DIGEST} ALL",
            "ben ALL = NOTAFTER=20270101000000Z NOPASSWD: ALL",
            "dan ALL = (ben) CHROOT=/srv ALL",
            "eve ALL = ALL",
            f"eve ALL = (kim) {DIGEST} /opt/x",
        )
        wanted = {"ann": "?A", "ben": "?A!", "dan": "?A", "eve": "A", "kim": "·", "root": "R"}
        self.assertEqual(self.marks(rules), wanted)
        record = json.loads(self.read("out", "review.json"))
        said = " ".join(record["sentences"])
        for part in (
            "Four users can run any command as root on web1, one of them without a password, three of them perhaps: ",
            "Of these, one gets there through another user or group: dan.",
            "For one of these it depends on a digest, which is not judged: ann.",
            "For two of these it depends on the time, which is not judged: ben and dan.",
            "For one of these it depends on another root folder, which is not judged: dan.",
            "The other known user has no way to root by sudo on web1, whatever command is asked for and whether what rules"
            " depend on is met or not: that is proved.",
            "What rules depend on is not judged (a digest, the time and another root folder): an answer",
        ):
            self.assertIn(part, said)
        self.assertNotIn("sudo reads or judges", said)
        depends = {row["users"][0]: row["depends"] for row in record["roots"]["reached"]}
        self.assertEqual([depends[user] for user in ("dan", "eve")], [["time", "chroot"], []])
        self.assertEqual([rule["depends"] for rule in record["rules"]], ["", "digest", "time", "chroot", "", "digest"])
        page = self.read("out", "page.html")
        self.assertTrue("perhaps any command as root; it depends on the time and another root folder" in page)
        self.assertTrue('<td data-label="Depends on">another root folder</td>' in page)

    def test_notes_of_hostile_text(self) -> None:
        self.write("d/users.csv", "user,uid,groups\nroot,0,root:0\nann,1,ann:1\n")
        self.write("d/hosts.csv", "host,interfaces\nweb1,\n")
        marked, long = "/x&lt;script&gt;{{7*7}}", "/" + "very-long/" * 2000
        # A command of a policy that stands for a note of its own is one too.
        for rule in (f"ann ALL = CHROOT={marked} /opt/x", f"ann ALL = CHROOT={long} /opt/x", "ann ALL = /d[z-a], /opt/x"):
            shutil.rmtree(self.path("out"), ignore_errors=True)
            self.assertEqual(self.marks([rule]), {"ann": "?L", "root": "R"}, rule[:80])
            page = self.read("out", "page.html")
            self.assertTrue(html.escape(rule) in page and ">49<" not in page)
        for value in ("<b>x</b>", "2027010100;", "99999999999999999999"):
            self.write("policy", f"root ALL = ALL\nann ALL = NOTAFTER={value} /opt/x\n")
            words = ("--out", "other", "--policy", "policy", "--directory", "d", "--no-probe")
            self.assertIn("sudo_review: policy:2: unsupported option\n", self.run_tool("replay", *words, status=5)[1])
            shutil.rmtree(self.path("other"))

    @needs_schema
    def test_requests_that_depend_are_not_judged(self) -> None:
        self.write("d/users.csv", "user,uid,groups\nroot,0,root:0\nann,1,ann:1\nben,2,ben:2\n")
        self.write("d/hosts.csv", "host,interfaces\nweb1,\n")
        log = "Nov 20 10:01:0{} web1 sudo[1]: {} : TTY=pts/0 ; PWD=/ ; USER=root ; COMMAND=/opt/{}\n"
        asked = (("ann", "x"), ("ann", "y"), ("ben", "x"), ("ben", "x"))
        self.write("auth.log", "".join(log.format(at, *request) for at, request in enumerate(asked)))
        rules = f"ann ALL = {DIGEST} /opt/x\nann ALL = /opt/y\nben ALL = /opt/x\nben ALL = NOTBEFORE=20260101000000Z !/opt/x\n"
        self.write("policy", rules)
        words = ("--policy", "policy", "--directory", "d", "--no-probe")
        self.replay(*words, domain="")
        table = ["place,commands,allowed,denied,depends", "policy:1,1,1,0,digest", "policy:2,1,1,0,", "policy:3,1,0,0,"]
        self.assertEqual(self.rows("out", "requests", "rules.csv"), [*table, "policy:4,1,0,2,time"])
        record = json.loads(self.read("out", "review.json"))
        self.assertEqual(faults_of(record), [])
        found = record["requests"]
        self.assertEqual([found["same"], found["denied"]["count"], found["unknown"]["count"]], [1, 0, 3])
        page = self.read("out", "page.html")
        for part in ("depends on what is not judged</strong>: the time", "0 allowed, 2 denied, if met", "Not judged: 3"):
            self.assertTrue(part in page, part)

    @needs_schema
    def test_a_change_of_what_depends_is_not_settled(self) -> None:
        self.write("d/users.csv", "user,uid,groups\nroot,0,root:0\nann,1,ann:1\n")
        self.write("d/hosts.csv", "host,interfaces\nweb1,\n")
        self.write("auth.log", "Nov 20 10:01:02 web1 sudo[1]: ann : TTY=pts/0 ; PWD=/ ; USER=root ; COMMAND=/opt/x\n")
        old, new = f"root ALL = ALL\nann ALL = {DIGEST} /opt/x\n", "root ALL = ALL\nann ALL = NOTAFTER=2030010100 /opt/x\n"
        for name, text in (("old", old), ("new", new)):
            self.write(f"{name}/etc/sudoers", text)
        words = ("--tree", "new", "--old-tree", "old", "--directory", "d", "--no-probe")
        out, err = self.replay(*words, status=1, domain="")
        self.assertIn("changes: 0 gained, 0 gained and lost, 0 lost, 0 other, 1 may\n", out)
        self.assertIn("differences: 0 gained, 0 gained and lost, 0 lost, 0 other, 3 may\n", out)
        table = [*csv.DictReader(self.rows("out", "differences.csv"))]
        self.assertEqual({(row["users"], row["answer"], row["depends"]) for row in table}, {("ann", "may", "digest time")})
        record = json.loads(self.read("out", "review.json"))
        self.assertEqual(faults_of(record), [])
        self.assertIsNone(record["uncompared"])
        self.assertEqual(record["differences"]["may"]["rows"], table)
        said = " ".join(record["sentences"])
        self.assertIn("no command is known to be answered otherwise, but in three rows it may change.", said)
        self.assertIn("none is known to gain or lose anything.", said)
        self.assertIn("Only one of the two policies has two constructs", said)
        page = self.read("out", "page.html")
        for part in ("May change: 3", "May change: 1", "<small>depends on a digest and the time</small>"):
            self.assertTrue(part in page, part)
        self.assertFalse("was not judged for every command" in page or "Nothing: both policies" in page or self.folder in page)
        # A further run says the same.
        self.assertEqual(self.replay(*words, status=1, domain=""), (out, err))

    def marks(self, rules: Iterable[str]) -> dict[str, str]:
        """Returns the mark of each user on the only host, under rules and that for root."""
        self.write("policy", "root ALL = (ALL) ALL\n" + "".join(f"{rule}\n" for rule in rules))
        self.run_tool("replay", "--out", "out", "--policy", "policy", "--directory", "d", "--no-probe")
        return self.marks_shown()

    def marks_shown(self) -> dict[str, str]:
        """Returns the mark of each user on the only host of the page."""
        data = json.loads(re.findall('id="data">(.*?)</script>', self.read("out", "page.html"))[0])["roots"]
        marks = [data["cells"][data["rows"][row][0]][1] for row in data["rowOf"]]
        return dict(zip(data["users"], marks))

    @needs_keygen
    def test_a_signature(self) -> None:
        subprocess.run(["ssh-keygen", "-q", "-t", "ed25519", "-N", "", "-f", self.path("-key")], check=True)
        given = ("--policy", f"{EXAMPLES}/sudoers", "--directory", EXAMPLES, "--no-probe")
        self.replay(*given, "--sign=-key")
        self.assertTrue(self.read("out", "review.sha256.sig").startswith("-----BEGIN SSH SIGNATURE-----"))
        self.replay(*given)
        self.assertFalse(os.path.exists(self.path("out", "review.sha256.sig")))
        self.assertIn("ssh-keygen: ", self.replay(*given, "--sign", "gone", status=4)[1])

    def test_words(self) -> None:
        self.assertIn(
            "--directory or --collected is wanted", self.replay("--policy", f"{EXAMPLES}/sudoers", status=2)[1]
        )
        given = ("--policy", f"{EXAMPLES}/sudoers", "--directory", EXAMPLES)
        self.replay(*given, "--program", "/gone", status=5)
        self.replay(*given, "--review", "/gone", status=5)
        self.assertIn("--rows is not below 0", self.replay(*given, "--rows", "-1", status=2)[1])
        self.assertFalse(os.path.exists(self.path("out")))
        os.makedirs(self.path("out"))
        self.write("out/x", "")
        self.assertIn(
            "out is not empty", self.replay("--policy", f"{EXAMPLES}/sudoers", "--directory", EXAMPLES, status=2)[1]
        )


CUT = """#!/bin/sh
[ "$1" = audit ] || exec {program} "$@"
printf 'x' >>{folder}/audits
[ "$(cat {folder}/audits)" = {at} ] && kill -9 $PPID
exec {program} "$@"
"""


@needs_program
@needs_review
@needs_jinja
class Continued(Case):
    """A replay that is cut off, and started again."""

    def setUp(self) -> None:
        super().setUp()
        self.write("auth.log", LOG)
        self.write("programs.csv", PROGRAMS)
        self.write("policy", "root ALL = ALL\njen ALL = /usr/bin/id\n")
        self.write("old", "root ALL = ALL\n")
        self.given = ["--policy", "policy", "--old-policy", "old", "--directory", EXAMPLES, "--domain", "example.org"]
        self.given += ["--programs", "programs.csv", "auth.log"]

    def replay(self, out: str, *words: str, status: int = 1) -> tuple[str, str]:
        """Runs the command into a folder."""
        return self.run_tool("replay", "--out", out, *self.given, *words, status=status)

    def cut(self, at: int) -> str:
        """Returns a program that kills the command at the audit of this number, and goes on later."""
        place, named = shlex.quote(self.folder), shlex.quote(os.path.abspath(PROGRAM or ""))
        text = CUT.format(program=named, folder=place, at="x" * at)
        os.chmod(self.write("program", text), 0o755)
        return self.path("program")

    def test_a_run_that_was_cut_off_continues(self) -> None:
        self.replay("whole")
        names = ["requests/report.csv", "requests/senders.csv", "probe/report.csv", "changes.csv"]
        for at in range(1, 5):
            self.replay(f"out{at}", "--program", self.cut(at), status=-9)
            if at > 1:
                before = os.stat(self.path(f"out{at}", "requests", "report.csv"))
            out, _ = self.replay(f"out{at}", "--program", self.path("program"))
            self.assertIn("logs: 2 accepted, 1 refused and 1 failed requests of 1 senders", out)
            self.assertRegex(out, r"changes: [1-9]\d* gained")
            for name in names:
                self.assertEqual(self.read("whole", name), self.read(f"out{at}", name), name)
            if at > 1:
                after = os.stat(self.path(f"out{at}", "requests", "report.csv"))
                self.assertEqual((before.st_ino, before.st_mtime_ns), (after.st_ino, after.st_mtime_ns))
            os.unlink(self.path("audits"))

    def test_what_is_done_is_told_again(self) -> None:
        first = self.replay("out")
        before = os.stat(self.path("out", "probe", "report.csv")).st_mtime_ns
        self.assertEqual(self.replay("out"), first)
        self.assertEqual(os.stat(self.path("out", "probe", "report.csv")).st_mtime_ns, before)

    def test_other_inputs_are_refused_by_name(self) -> None:
        self.replay("out")
        before = {name: self.read("out", name) for name in ("page.html", "changes.csv", ".steps.json")}
        said = "replay: out is of other inputs ({} differs); remove it, or name another folder\n"
        for name, shown in (
            ("auth.log", "the log auth.log"),
            ("policy", "the policy"),
            ("old", "the policy before"),
            ("programs.csv", "the list of programs"),
        ):
            text = self.read(name)
            times = os.stat(self.path(name))
            self.write(name, text + "\n")
            self.assertEqual(self.replay("out", status=2)[1], said.format(shown))
            self.write(name, text)
            os.utime(self.path(name), ns=(times.st_atime_ns, times.st_mtime_ns))
        self.assertEqual(self.replay("out", "--year", "2020", status=2)[1], said.format("the command line"))
        self.assertEqual({name: self.read("out", name) for name in before}, before)
        self.replay("out", "--workers", "1")

    def test_inputs_may_change_before_any_step_is_done(self) -> None:
        self.write("policy", "what\n")
        self.replay("out", status=5)
        self.write("policy", "root ALL = ALL\njen ALL = /usr/bin/id\n")
        self.replay("out")

    def test_a_second_run_is_refused_while_the_first_works(self) -> None:
        program = self.path("program")
        named = shlex.quote(os.path.abspath(PROGRAM or ""))
        self.write("program", f"#!/bin/sh\n: >here\nwhile [ ! -e go ]; do sleep 0.05; done\nexec {named} \"$@\"\n")
        os.chmod(program, 0o755)
        words = [os.path.join(TOOLS, "replay"), "--out", "out", *self.given, "--program", program]
        quiet = subprocess.DEVNULL
        with subprocess.Popen(words, cwd=self.folder, stdout=quiet, stderr=quiet) as running:
            end = time.monotonic() + 30
            while not os.path.exists(self.path("here")):
                self.assertLess(time.monotonic(), end)
                time.sleep(0.02)
            said = f"replay: out: the process {running.pid} works in this folder\n"
            self.assertEqual(self.replay("out", status=4)[1], said)
            self.write("go", "")
            self.assertEqual(running.wait(60), 1)


if __name__ == "__main__":
    unittest.main()
