"""Foreign text in what people open: control characters are shown, and a spreadsheet finds no formula."""

import csv
import glob
import io
import itertools
import json
import os
import re
import shutil
import unittest
from collections.abc import Sequence
from unittest import mock

from support import EXAMPLES, REQUESTS_HEADER, Case, needs_jinja, needs_program, needs_review
from kulavemia import program
from kulavemia.answers import verdicts
from kulavemia.requests import sources_of
from kulavemia.shown import Form, shown_records
from kulavemia.text import exact, visible

LOG = """Nov 20 10:01:02 web1 sudo[1]: jen : PWD=/ ; USER=root ; COMMAND=/bin/echo #033[31mred#012next#007 \udcff
Nov 20 10:02:02 web1 sudo[2]: bob : TTY=pts/0 ; PWD=/ ; USER=root ; COMMAND=list -U #033[31mbob
Nov 20 10:03:02 web1 sudo[3]: #033[31mno \x07request
Nov 20 10:04:02 web1 sudo[4]: jen : 3 \x9bincorrect attempts ; TTY=pts/0 ; PWD=/ ; USER=root ; COMMAND=/bin/id
"""
LINE = "Nov 20 10:01:02 {host} sudo[1]: {user} : PWD=/ ; USER=root ; COMMAND=/bin/id\n"
REPORT = "sender,number,verdict,line,tags\n"
FORMULAS = ("=cmd|' /C calc'!A0", "+1", "-1", "@SUM(1)", "\t=1", "\r=1", "'=1")
PROGRAMS = "kind,command,arguments\nany command,/none/such,\n"
# When a page was made, and how long before its files were.
TIMES = re.compile(r"\d{4}-\d\d-\d\dT[0-9:+-]+|\d+ \w+ before|in the minute before")


def event(kind: str, **fields: str | list[str]) -> str:
    """Returns a line of sudo's log of JSON."""
    return json.dumps({kind: {"submithost": "web1.example.org", "runuser": "root", **fields}}) + "\n"


class Forms(Case):
    def test_a_field_that_begins_as_a_formula_has_an_apostrophe(self) -> None:
        fields = [*FORMULAS, "a=b", "", "1-2", "x\x1b"]
        marked = ["'=cmd|' /C calc'!A0", "'+1", "'-1", "'@SUM(1)", "'⟨U+0009⟩=1", "'⟨U+000D⟩=1", "''=1"]
        self.assertEqual(Form(True).row(fields), ",".join([*marked, "a=b", "", "1-2", "x⟨U+001B⟩"]) + "\n")
        self.assertEqual(Form().row(fields[:4]), ",".join(fields[:4]) + "\n")

    def test_what_is_written_is_read_back(self) -> None:
        texts = ["=1", "'x", "'", "''-", "\t=1", "a\x1bb", "a⟨U+001B⟩b", "'⟨byte FF⟩", "\udcff", "x\r\ny", "⟨", "⟨⟩", '"']
        for form in (Form(), Form(True)):
            path = self.write("x.csv", form.head(("a", "b")) + "".join(form.row((text, text[:1])) for text in texts))
            rows = [fields for _, fields in shown_records(path, ("a", "b"))]
            self.assertEqual(rows, [[text, text[:1]] for text in texts])

    def test_no_two_texts_are_shown_alike(self) -> None:
        characters = [chr(code) for code in range(0x110000) if not 0xD800 <= code < 0xDC80 and not 0xDD00 <= code < 0xE000]
        for start in range(0, len(characters), 1000):
            text = "".join(characters[start : start + 1000])
            self.assertTrue(visible(text).isprintable())
            self.assertEqual(exact(visible(text)), text)
        parts = ("⟨", "⟩", "U+001B", "\x1b", "byte FF", "\udcff", "U+27E8", "")
        texts = {"".join(some) for some in itertools.product(parts, repeat=4)}
        self.assertEqual(len({visible(text) for text in texts}), len(texts))
        self.assertTrue(all(exact(visible(text)) == text for text in texts))

    def test_what_is_not_shown_so_stays_as_it_is(self) -> None:
        for text in ("⟨U+0041⟩", "⟨U+1B⟩", "⟨U+0001B⟩", "⟨U+001b⟩", "⟨byte 41⟩", "⟨U+D800⟩", "⟨U+DC80⟩", "⟨U+FFFFFF⟩", "⟨U+001B"):
            self.assertEqual(exact(text), text)


class Reports(Case):
    """Rows of the program's reports."""

    ROWS = (
        ("s", "1", "allow", "/etc/sudoers:2", "NOPASSWD"),
        ("s", "2", "allow", "/etc/sudoers.d/a\x1b[31m\r\nb:1", ""),
        ("s", "3", "allow", "/etc/sudoers.d/a⟨U+001B⟩[31m:1", ""),
        ("s", "4", "allow", '/etc/sudoers.d/a",\udcff:1', ""),
        ("s", "5", "nomatch", "", ""),
    )

    def copied(self, form: Form, root: str, found: Sequence[tuple[str, ...]]) -> str:
        """Returns the copied rows of a report."""
        out = io.BytesIO()
        text = io.StringIO(newline="")
        csv.writer(text, lineterminator="\n").writerows([REPORT.strip().split(","), *found])
        rows = program.Rows(out, form, root)
        rows.copy(io.BytesIO(text.getvalue().encode("utf-8", "surrogateescape")), "sudo_audit")
        return out.getvalue().decode()

    def test_a_name_of_a_file_is_shown_and_read_back(self) -> None:
        for piece in (1, 40, 1 << 20):
            for form, root in ((Form(), ""), (Form(True), ""), (Form(), "/etc")):
                with mock.patch.object(program, "_PIECE", piece):
                    text = self.copied(form, root, self.ROWS * 3)
                self.assertEqual([line for line in text.split("\n") if not line.isprintable()], [])
                head = form.head(("sender", "number", "verdict", "place", "tags"))
                found = [(verdict.place, verdict.tags) for _, _, _, verdict in verdicts(self.write("r.csv", head + text))]
                self.assertEqual(found, [(row[3].removeprefix(root), row[4]) for row in self.ROWS] * 3)

    def test_a_report_of_the_program_is_read_as_it_is(self) -> None:
        path = self.write("r.csv", REPORT + "s,1,allow,a⟨U+001B⟩:1,\ns,2,allow,a\x1b:1,\n")
        self.assertEqual([verdict.place for *_, verdict in verdicts(path)], ["a⟨U+001B⟩:1", "a\x1b:1"])

    def test_plain_rows_are_copied_as_they_stand(self) -> None:
        plain = [row for row in self.ROWS if row[3].isascii() and row[3].isprintable()] * 1000
        text = self.copied(Form(), "", plain)
        self.assertEqual(text, "".join(",".join(row) + "\n" for row in plain))


class Logs(Case):
    def test_control_characters_of_a_log_are_harmless_in_each_file_that_is_shown(self) -> None:
        log = self.write("log", LOG)
        self.run_tool("requests", log, "--out", "out")
        asked = '1,jen,web1,root,,/bin/echo,"\x1b[31mred\nnext\x07 \udcff"\n'
        self.assertIn(asked, self.read("out", "requests", "web1.csv"))
        for name, part in (
            ("keys/web1.csv", "failed,3 ⟨U+009B⟩incorrect attempts,"),
            ("lists.csv", "list,-U ⟨U+001B⟩[31mbob,"),
            ("skipped.csv", "no request: #033[31mno ⟨U+0007⟩request"),
            ("senders.csv", "web1,web1,2,"),
        ):
            text = self.read("out", name)
            self.assertIn(part, text)
            self.assertTrue(text.replace("\n", "").isprintable(), text)

    def test_names_of_hosts_are_harmless_in_the_table_of_senders(self) -> None:
        log = self.write("log", event("accept", submituser="jen", submithost="\x1b[2Jweb\n1", command="/bin/id"))
        self.run_tool("requests", log, "--out", "out")
        self.assertIn(",⟨U+001B⟩[2Jweb⟨U+000A⟩1,1,", self.rows("out", "senders.csv")[1])

    def test_a_usage_error_is_harmless(self) -> None:
        err = self.run_tool("requests", "log", "--out", "out", "--\x1b[31m\n", status=2)[1]
        self.assertIn("unrecognized arguments: --⟨U+001B⟩[31m⟨U+000A⟩\n", err)
        err = self.run_tool("requests", "\x1b[31m\nx: done", "--out", "out", status=4)[1]
        self.assertEqual(err, "requests: ⟨U+001B⟩[31m⟨U+000A⟩x: done: No such file or directory\n")

    def test_a_comparison_is_harmless(self) -> None:
        asked = '1,jen,web1,,,/bin/echo,"\x1b[31mred\nnext\x07"\n2,"=cmd|\n",web1,,,/bin/id,-x\nclose,2,,,,,\n'
        self.write("r.csv", REQUESTS_HEADER + asked)
        self.write("old.csv", REPORT + "s,1,nomatch,,\ns,2,nomatch,,\n")
        self.write("new.csv", REPORT + "s,1,allow,p\x1b:1,\ns,2,allow,p:2,\n")
        words = ("old.csv", "new.csv", "--reports", "s=r.csv")
        out, _ = self.run_tool("compare", *words, status=1)
        first = "gained,s,1,jen,web1,,,/bin/echo,⟨U+001B⟩[31mred⟨U+000A⟩next⟨U+0007⟩,nomatch,allow,,,,p⟨U+001B⟩:1"
        second = "gained,s,2,=cmd|⟨U+000A⟩,web1,,,/bin/id,-x,nomatch,allow,,,,p:2"
        self.assertEqual(out.splitlines()[1:], [first, second])
        self.run_tool("compare", *words, "--out", "changes.csv", status=1)
        self.assertEqual(self.read("changes.csv"), out)
        self.run_tool("compare", *words, "--out", "changes.csv", "--spreadsheet", status=1)
        self.assertIn(",'=cmd|⟨U+000A⟩,web1,,,/bin/id,'-x,", self.read("changes.csv"))


class Spreadsheets(Case):
    def setUp(self) -> None:
        super().setUp()
        events = [event("reject", submituser=x, submithost=x, reason=x, command="/bin/id") for x in FORMULAS]
        events += [event("accept", submituser=name, command="list", runargv=["list", name]) for name in FORMULAS]
        self.log = self.write("log", "".join(events) + event("exit"))
        self.run_tool("requests", self.log, "--out", "plain")
        self.run_tool("requests", self.log, "--out", "out", "--spreadsheet")

    def test_no_field_is_a_formula(self) -> None:
        for path in glob.glob(self.path("out", "*.csv")) + glob.glob(self.path("out", "keys", "*.csv")):
            with open(path, encoding="utf-8", newline="") as file:
                self.assertEqual(file.read(1), "\ufeff", path)
                fields = [field for row in csv.reader(file) for field in row]
            self.assertFalse([field for field in fields if field.startswith(("=", "+", "-", "@", "\t", "\r"))], path)

    def test_the_files_of_an_audit_are_as_they_are(self) -> None:
        for name in os.listdir(self.path("plain", "requests")):
            self.assertEqual(self.read("out", "requests", name), self.read("plain", "requests", name))
        plain, marked = sources_of(self.path("plain")), sources_of(self.path("out"))
        self.assertEqual([source.name for source in plain], [source.name for source in marked])
        self.assertEqual(plain[0].name, FORMULAS[0])


@needs_program
@needs_review
@needs_jinja
class Replay(Case):
    """The program and the page over hostile logs."""

    def replay(self, log: str, *words: str) -> tuple[str, str]:
        """Runs the command over a log."""
        shutil.rmtree(self.path("out"), ignore_errors=True)
        self.write("log", log)
        self.write("programs.csv", PROGRAMS)
        given = ("--policy", f"{EXAMPLES}/sudoers", "--directory", EXAMPLES, "--programs", "programs.csv")
        return self.run_tool("replay", *given, "--out", "out", *words, "log")

    def test_a_host_of_a_log_is_no_option_of_the_program(self) -> None:
        names = ("-h", "--workers", "--workers=99", "--", "a=b", "x" * 200)
        log = "".join(LINE.format(host=name, user="jen") for name in names)
        log += event("accept", submituser="jen", submithost="web1\nreplay: page: other.html", command="/bin/id")
        out, err = self.replay(log)
        self.assertIn("logs: 7 accepted, 0 refused and 0 failed requests of 7 senders;", out)
        verdicts = {row.split(",")[2] for row in self.rows("out", "requests", "report.csv")[1:]}
        self.assertEqual(verdicts, {"unknown-host"})
        self.assertEqual(len(err.splitlines()), 1)

    def test_a_user_of_a_log_is_no_option_of_the_program(self) -> None:
        names = ("-h", "--users", "--help", "a=b", "A=B", "--workers 3")
        self.replay("".join(LINE.format(host="web1.example.org", user=name) for name in names), "--by", "user")
        self.assertEqual(len(self.rows("out", "requests", "report.csv")), 1 + len(names))

    def test_the_page_shows_what_a_spreadsheet_was_spared(self) -> None:
        log = event("reject", submituser="jen", reason="command not allowed", command="/bin/id", runargv=["id", "-u"])
        log = log + event("accept", submituser="=cmd|x", command="/bin/id", runargv=["id", "-u"])
        pages = []
        for words in ((), ("--spreadsheet",)):
            self.replay(log, *words)
            pages.append(TIMES.sub("", self.read("out", "page.html")))
        self.assertEqual(*pages)

    def test_files_of_a_policy_whose_names_are_shown_alike(self) -> None:
        shown, hidden = "10-⟨U+001B⟩[31m", "10-\x1b[31m"
        for number, tree in enumerate(("tree", "old"), 1):
            self.write(f"{tree}/etc/sudoers", "root ALL = ALL\n@includedir /etc/sudoers.d\n")
            self.write(f"{tree}/etc/sudoers.d/{shown}", f"jen ALL = /bin/shown{number}\n")
            self.write(f"{tree}/etc/sudoers.d/{hidden}", f"jen ALL = NOPASSWD: /bin/hidden{number}\n")
        rows = [event("accept", submituser="jen", command=f"/bin/{name}1") for name in ("shown", "hidden")]
        self.write("log", "".join(rows))
        words = ("--directory", EXAMPLES, "--tree", "tree", "--old-tree", "old", "--out", "out", "--no-probe", "log")
        for more in ((), ("--spreadsheet",)):
            shutil.rmtree(self.path("out"), ignore_errors=True)
            self.run_tool("replay", *words, *more, status=1)
            report = self.read("out", "requests", "report.csv")
            self.assertTrue(report.replace("\n", "").removeprefix("\ufeff").isprintable(), report)
            places = [verdict.place for *_, verdict in verdicts(self.path("out", "requests", "report.csv"))]
            self.assertEqual(places, [f"/etc/sudoers.d/{name}:1" for name in (shown, hidden)])
            self.assertIn("10-⟨U+27E8⟩U+001B⟩[31m:1,", report)
            page = self.read("out", "page.html")
            for name, file in (("shown1", "⟨U+27E8⟩U+001B⟩[31m"), ("hidden1", "⟨U+001B⟩[31m")):
                self.assertRegex(page, rf">/etc/sudoers\.d/10-{re.escape(file)}:1</a><br><code>jen ALL = [^<]*{name}<")
            self.assertNotIn("\x1b", page)

    def test_a_policy_whose_name_begins_with_a_dash(self) -> None:
        shutil.copy(f"{EXAMPLES}/users.csv", self.path("-u.csv"))
        shutil.copy(f"{EXAMPLES}/hosts.csv", self.path("-h.csv"))
        self.write("-p", "root ALL = ALL\n")
        self.write("r.csv", REQUESTS_HEADER + "1,root,web1.example.org,,,/bin/id,\nclose,1,,,,,\n")
        files = ("--users=-u.csv", "--hosts=-h.csv")
        self.run_tool("compare", *files, "--", "-p", "-p", "s=r.csv")
        out, _ = self.replay(event("accept", submituser="jen", command="/bin/id"), "--policy=-p")
        self.assertIn("check: 0 warnings", out)


if __name__ == "__main__":
    unittest.main()
