"""What changes between two audits."""

import os
import unittest

from support import EXAMPLES, REQUESTS_HEADER, REVIEW, Case, needs_program, needs_review
from kulavemia.answers import REPORT_HEADER, Verdict
from kulavemia.compare import kind_of, warnings
from kulavemia.requests import HEADER

REQUESTS = ",".join(HEADER) + "\n1,a,h,,,/x,\n2,b,h,root,,/y,-z\n3,c,h,,,/x,\n4,d,h,,,/x,\nclose,4,,,,,\n"
REPORT = ",".join(REPORT_HEADER) + "\n"


class Kinds(unittest.TestCase):
    def test_verdicts_and_tags(self) -> None:
        def kind(old: str, new: str) -> str | None:
            before, after = old.partition(" "), new.partition(" ")
            return kind_of(Verdict(before[0], "p:1", before[2]), Verdict(after[0], "p:2", after[2]))

        for old, new, wanted in (
            ("allow", "allow", None),
            ("deny", "nomatch", "other"),
            ("nomatch", "allow", "gained"),
            ("unknown-host", "allow", "gained"),
            ("allow", "deny", "lost"),
            ("allow", "unknown-user", "lost"),
            ("allow", "allow NOPASSWD", "gained"),
            ("allow SETENV", "allow", "lost"),
            ("allow NOEXEC", "allow", "gained"),
            ("allow NOEXEC", "allow EXEC", "gained"),
            ("allow", "allow PASSWD", "other"),
            ("allow NOPASSWD", "allow SETENV", "gained and lost"),
            ("allow", "allow INTERCEPT", "lost"),
            ("allow", "allow LOG_INPUT", "other"),
        ):
            self.assertEqual(kind(old, new), wanted, f"{old} {new}")


class Command(Case):
    def setUp(self) -> None:
        super().setUp()
        self.write("r.csv", REQUESTS)
        self.write("old.csv", REPORT + "s,1,allow,p:1,\ns,2,nomatch,,\ns,3,allow,p:1,NOPASSWD\ns,4,deny,p:3,\n")

    def compare(self, new: str, status: int) -> tuple[str, str]:
        """Compares with another report."""
        self.write("new.csv", REPORT + new)
        return self.run_tool("compare", "old.csv", "new.csv", "--reports", "s=r.csv", status=status)

    def test_what_is_gained_and_lost_stands_apart(self) -> None:
        out, err = self.compare("s,1,deny,q:9,\ns,2,allow,q:2,\ns,3,allow,q:1,NOPASSWD\ns,4,nomatch,,\n", 1)
        self.assertEqual(
            out.splitlines()[1:],
            [
                "gained,s,2,b,h,root,,/y,-z,nomatch,allow,,,,q:2",
                "lost,s,1,a,h,,,/x,,allow,deny,,,p:1,q:9",
                "other,s,4,d,h,,,/x,,deny,nomatch,,,p:3,",
            ],
        )
        self.assertEqual(err, "compare: 1 gained, 0 gained and lost, 1 lost, 1 other\n")

    def test_what_is_not_settled(self) -> None:
        self.write("old.csv", REPORT + "s,1,depends,p:1,\ns,2,nomatch,,\ns,3,allow,p:1,\ns,4,depends,p:3,\n")
        out, err = self.compare("s,1,depends,q:9,NOPASSWD\ns,2,nomatch,,\ns,3,allow,q:1,\ns,4,depends,p:3,\n", 0)
        rows = ["may,s,1,a,h,,,/x,,depends,depends,,NOPASSWD,p:1,q:9", "may,s,4,d,h,,,/x,,depends,depends,,,p:3,p:3"]
        self.assertEqual(out.splitlines()[1:], rows)
        self.assertEqual(err, "compare: 0 gained, 0 gained and lost, 0 lost, 0 other, 2 may\n")

    def test_nothing_gained(self) -> None:
        self.compare("s,1,deny,q:9,\ns,2,nomatch,,\ns,3,allow,q:1,NOPASSWD\ns,4,deny,p:3,\n", 0)

    def test_reports_of_other_requests(self) -> None:
        whole = "s,1,allow,p:1,\ns,2,nomatch,,\ns,3,allow,p:1,NOPASSWD\ns,4,deny,p:3,\n"
        for new, said in (
            (whole.replace("s,2", "s,5"), "new.csv:3: request 5 of s, and old.csv has request 2 of s there"),
            (whole + "s,5,allow,,\n", "new.csv:6: request 5 of s has no row in old.csv"),
            (whole[:-15], "new.csv: no row for request 4 of s"),
            (whole.replace("s,2", "s,x"), "new.csv:3: x is no number"),
            (whole.replace("s,2,", "s,2,,"), "new.csv:3: 6 fields, expected 5"),
        ):
            self.assertIn(said, self.compare(new, 3)[1])
        self.write("short.csv", REQUESTS.replace("4,d,h,,,/x,\n", ""))
        self.assertIn(
            "old.csv:5: there is no request of the number 4",
            self.run_tool("compare", "old.csv", "old.csv", "--reports", "s=short.csv", status=3)[1],
        )
        self.write("long.csv", REQUESTS.replace("close", "5,e,h,,,/x,\nclose"))
        self.assertIn(
            "old.csv: requests of s have no row",
            self.run_tool("compare", "old.csv", "old.csv", "--reports", "s=long.csv", status=3)[1],
        )

    def test_a_file_stays_if_the_reports_are_refused(self) -> None:
        self.write("out.csv", "before\n")
        self.write("new.csv", REPORT + "s,1,allow,p:1,\n")
        self.run_tool("compare", "old.csv", "new.csv", "--reports", "s=r.csv", "--out", "out.csv", status=3)
        self.assertEqual(self.read("out.csv"), "before\n")
        self.assertEqual(sorted(os.listdir(self.folder)), ["new.csv", "old.csv", "out.csv", "r.csv"])
        self.compare("s,1,allow,p:1,\ns,2,nomatch,,\ns,3,allow,p:1,NOPASSWD\ns,4,deny,p:3,\n", 0)
        self.run_tool("compare", "old.csv", "new.csv", "--reports", "s=r.csv", "--out", "out.csv")
        self.assertNotEqual(self.read("out.csv"), "before\n")
        self.run_tool("compare", "old.csv", "new.csv", "--reports", "s=r.csv", "--out", "/dev/null")

    def test_a_sender_may_begin_with_a_dash(self) -> None:
        self.write("-old.csv", REPORT + "-h,1,allow,p:1,\n-h,2,nomatch,,\n-h,3,allow,p:1,\n-h,4,deny,p:3,\n")
        self.run_tool("compare", "--reports", "--", "-old.csv", "-old.csv", "-h=r.csv")

    def test_numbers_of_many_digits(self) -> None:
        said = self.compare(f"s,{'9' * 5000},allow,p:1,\n", 3)[1]
        self.assertIn("is no number", said)

    def test_words(self) -> None:
        self.assertIn("--users and --hosts are wanted", self.run_tool("compare", "a", "b", "s=r.csv", status=2)[1])
        self.assertIn("no requests", self.run_tool("compare", "a", "b", "--reports", status=2)[1])
        self.assertIn("expected NAME=PATH", self.run_tool("compare", "a", "b", "--reports", "x", status=2)[1])
        self.assertIn(
            "no program",
            self.run_tool(
                "compare", "a", "b", "--users", "u", "--hosts", "h", "--program", "/gone", "s=r.csv", status=5
            )[1],
        )

    @needs_review
    def test_cautions_of_one_policy_alone(self) -> None:
        self.write("users", "user,uid,groups\nroot,0,root:0\nann,1,ann:1\n")
        self.write("hosts", "host,interfaces\nweb1,\n")
        self.write("r.csv", f"{REQUESTS_HEADER}1,ann,web1,,,/opt/x,\nclose,1,,,,,\n")
        counts = "compare: 0 gained, 0 gained and lost, 0 lost, 0 other\n"
        end = "has no effect here: only one of the policies has this, and no change that is listed shows what sudo makes of it\n"
        first = "Defaults targetpw\nann ALL = /bin/x, /opt/x\n"
        for old, new, said in (
            (first, first, ""),
            (first, f"# moved\n{first.replace('/bin/x', '/sbin/x')}", ""),
            (first, f"Defaults !authenticate\n{first}", "new:1: defaults: authenticate: decides for sudo, "),
            (first, f"{first}Defaults targetpw\n", "new:3: defaults: targetpw: decides for sudo, "),
            (first, "ann ALL = /bin/x, /opt/x\n", "old:1: defaults: targetpw: decides for sudo, "),
        ):
            self.write("old", old)
            self.write("new", new)
            words = ("old", "new", "--users", "users", "--hosts", "hosts", "--review", REVIEW, "s=r.csv")
            found = self.run_tool("compare", *words)[1]
            rest = end.replace("here:", "here, in the policy before:") if said.startswith("old") else end
            self.assertEqual(found, (f"compare: warning: {said}{rest}" if said else "") + counts)

    def test_many_warnings_are_cut(self) -> None:
        found = warnings([f"p:{at}: x" for at in range(25)])
        self.assertEqual((len(found), found[-1]), (21, "5 more constructs are in one of the policies alone"))
        self.assertEqual(len(warnings([f"p:{at}: x" for at in range(20)])), 20)

    @needs_program
    def test_two_policies(self) -> None:
        with open(f"{EXAMPLES}/sudoers", encoding="utf-8") as file:
            old = file.read().replace("@includedir sudoers.d", "")
        self.write("old", old)
        self.write(
            "new", old.replace("fred ALL = (DB) NOPASSWD: ALL", "fred ALL = (DB) ALL\nsteve mail = (operator) ALL")
        )
        sources = [f"web={EXAMPLES}/web.csv", f"ops={EXAMPLES}/ops-odd.csv", f"ops={EXAMPLES}/ops-even.csv"]
        out, _ = self.run_tool(
            "compare",
            "old",
            "new",
            "--users",
            f"{EXAMPLES}/users.csv",
            "--hosts",
            f"{EXAMPLES}/hosts.csv",
            *sources,
            status=1,
        )
        self.assertEqual(
            out.splitlines()[1:],
            [
                "gained,web,8,steve,mail.example.org,operator,,/usr/local/op_commands/rotate,,nomatch,allow,,SETENV,,new:51"
            ],
        )
        self.assertRegex(
            self.run_tool(
                "compare",
                self.write("bad", "x y z\n").rpartition("/")[2],
                "new",
                "--users",
                f"{EXAMPLES}/users.csv",
                "--hosts",
                f"{EXAMPLES}/hosts.csv",
                *sources,
                status=5,
            )[1],
            "sudo_(audit|review): bad:1:",
        )


if __name__ == "__main__":
    unittest.main()
