"""The file of IPv6 addresses on its way through the tools: each run of sudo_review gets it, and no run of sudo_audit."""

import json
import os

from noting import NotingCase
from support import REQUESTS_HEADER, Case, needs_jinja, needs_program, needs_review

ADDRESSES = "host,address\nweb1,2001:db8::1/64\n"


class AddressCase(Case):
    """A test with two policies, a directory and addresses."""

    def setUp(self) -> None:
        super().setUp()
        self.write("old", "ann web1 = /opt/a\n")
        self.write("new", "ann web1 = /opt/a\nbob 2001:db8::/32 = NOPASSWD: /opt/b\n")
        self.write("d/users.csv", "user,uid,groups\nroot,0,root:0\nann,1001,ann:1001\nbob,1002,bob:1002\n")
        self.write("d/hosts.csv", "host,interfaces\nweb1,\nweb2,\n")
        self.write("a.csv", ADDRESSES)
        self.write("bad.csv", ADDRESSES + "web2,10.0.0.1\n")
        rows = ("1,bob,web1,,,/opt/b,", "2,bob,web2,,,/opt/b,", "close,2,,,,,")
        self.write("r.csv", REQUESTS_HEADER + "\n".join(rows) + "\n")


@needs_review
class Compare(AddressCase):
    def compare(self, *words: str, status: int) -> tuple[str, str]:
        """Compares the answers to the requests."""
        words = ("old", "new", "--users", "d/users.csv", "--hosts", "d/hosts.csv", *words, "s=r.csv")
        return self.run_tool("compare", *words, status=status)

    def test_both_policies_have_them(self) -> None:
        out, _ = self.compare("--addresses", "a.csv", status=1)
        self.assertEqual(out.splitlines()[1:], ["gained,s,1,bob,web1,,,/opt/b,,nomatch,allow,,NOPASSWD,,new:2"])

    def test_the_new_policy_has_others(self) -> None:
        self.write("other.csv", "host,address\nweb2,2001:db8::2\n")
        out, _ = self.compare("--addresses", "a.csv", "--new-addresses", "other.csv", status=1)
        self.assertEqual(out.splitlines()[1:], ["gained,s,2,bob,web2,,,/opt/b,,nomatch,allow,,NOPASSWD,,new:2"])

    def test_what_is_refused(self) -> None:
        self.assertIn("new:2:9: syntax error", self.compare(status=5)[1])
        said = "compare: bad.csv: sudo_review: addresses: row 3: bad row\n"
        self.assertEqual(self.compare("--addresses", "bad.csv", status=5)[1], said)
        os.mkfifo(self.path("fifo"))
        said = "compare: fifo: expected a plain file, found a FIFO\n"
        self.assertEqual(self.compare("--addresses", "fifo", status=3)[1], said)


@needs_program
@needs_review
class Lint(AddressCase):
    def test_a_policy_is_read_with_them(self) -> None:
        self.assertIn("new:2:9: error: syntax error", self.run_tool("lint", "new", status=1)[0])
        self.assertEqual(self.run_tool("lint", "new", "--addresses", "a.csv", status=0)[0].splitlines()[-1], "new: ok")
        self.assertIn("fifo", self.refused("fifo"))
        self.assertIn("--addresses is for sudo_review", self.refused("a.csv", "--no-cautions"))

    def refused(self, file: str, *words: str) -> str:
        """Returns what the tool says where it refuses the words."""
        if file == "fifo":
            os.mkfifo(self.path("fifo"))
        return self.run_tool("lint", "new", "--addresses", file, *words, status=4)[1]


@needs_program
@needs_review
@needs_jinja
class Replay(NotingCase, AddressCase):
    def test_each_run_of_the_second_program_gets_them(self) -> None:
        words = ("--policy", "new", "--old-policy", "old", "--directory", "d", "--addresses", "a.csv", "--out", "out")
        out, _ = self.run_tool("replay", *words, *self.programs, status=1)
        self.assertIn("addresses: a.csv\n", out)
        self.assertEqual(self.runs("sudo_audit"), [])
        for run in self.runs("sudo_review"):
            self.assertEqual(run[run.index("--addresses") + 1], "a.csv")
        files = json.loads(self.read("out", "review.json"))["files"]
        self.assertIn(("directory", "a.csv", len(ADDRESSES)), [(file["role"], file["path"], file["bytes"]) for file in files])
        self.write("a.csv", ADDRESSES + "web2,2001:db8::2\n")
        said = self.run_tool("replay", *words, *self.programs, status=2)[1]
        self.assertIn("out is of other inputs (the directory differs)", said)
