"""The page."""

import json
import re
import unittest
from unittest import mock

from browsing import browsed
from support import EXAMPLES, Case, needs_browser, needs_jinja, needs_program
from kulavemia import evidence
from kulavemia.answers import Answer, Verdict
from kulavemia.compare import CHANGE_HEADER
from kulavemia.command import Fault
from kulavemia.effects import Effect
from kulavemia.grants import Grants
from kulavemia.messages import AS_EDIT, MAY_BE_EDIT
from kulavemia.numbering import Numbering
from kulavemia.page import Caution, Inputs, Page, Subject, as_json, rendered
from kulavemia.page import write as write_page
from kulavemia.probes import Probes
from kulavemia.record import record_of
from kulavemia.requests import LOG_KEY, Request, Writer
from kulavemia.review import COMPARE, HEADERS, RULES
from kulavemia.roots import Roots
from kulavemia.sorting import Tally
from kulavemia.sums import File
from kulavemia.text import visible
from kulavemia.uses import Uses

POLICY = f"{EXAMPLES}/sudoers"
HOSTILE = (
    "/bin/echo </script><script>document.title='owned'</script><img src=x onerror=\"document.title='owned'\"> '\""
    " \x1b[31m \u202egnp.exe \u2028 {{ 7*7 }} &lt; \udcff"
)


def asked(
    outcome: str,
    verdict: str,
    command: str = "/bin/id",
    user: str = "jen",
    reason: str = "",
    line: str = "1",
    place: str = "",
) -> Answer:
    """Returns an answer to a request of a log."""
    return Answer(
        "s",
        1,
        Request(user, "web1", "root", "", command, ""),
        Verdict(verdict, place, ""),
        ("log", line, "", outcome, reason, ""),
    )


def hostile_evidence() -> evidence.Evidence:
    """Returns evidence of hostile text in every part."""
    file, tally = File(HOSTILE, 1, HOSTILE, 1), Tally(1, 2, 3, HOSTILE, HOSTILE)
    host = evidence.Host(HOSTILE, True, HOSTILE, HOSTILE, 1, HOSTILE, HOSTILE)
    made = evidence.Made(HOSTILE, HOSTILE, HOSTILE, HOSTILE, HOSTILE)
    programs = [evidence.Program(HOSTILE, HOSTILE, HOSTILE)]
    return evidence.Evidence(made, programs, [file], [file], [file], [file], [evidence.Log(file, tally)], [host], [HOSTILE])


class Text(unittest.TestCase):
    def test_hidden_characters_are_named(self) -> None:
        self.assertEqual(visible("a\x1b\u202e\u2028\udcff\x00é "), "a⟨U+001B⟩⟨U+202E⟩⟨U+2028⟩⟨byte FF⟩⟨U+0000⟩é ")

    def test_json_ends_no_tag(self) -> None:
        text = as_json(["</script><!--", "\u2028&", "\udcff"])
        self.assertTrue(text.isascii() and not re.search("[<>&]", text), text)
        self.assertEqual(json.loads(text), ["</script><!--", "\u2028&", "\udcff"])


class Requests(unittest.TestCase):
    def test_uses(self) -> None:
        uses = Uses()
        uses.take_all(
            [
                asked("accepted", "allow", place="p:1"),
                asked("accepted", "deny"),
                asked("accepted", "nomatch"),
                asked("accepted", "nomatch", line="2"),
                asked("refused", "allow", place="p:2"),
                asked("refused", "nomatch"),
                asked("failed", "nomatch"),
                asked("failed", "unknown-user"),
                asked("accepted", "unknown-host"),
            ]
        )
        self.assertEqual(
            (uses.denied.count, uses.allowed.count, uses.unknown.count, uses.same, uses.failed, uses.count),
            (3, 1, 2, 2, 1, 9),
        )
        self.assertEqual(
            [(found.count, found.verdict.verdict) for found in uses.denied.list()], [(2, "nomatch"), (1, "deny")]
        )
        self.assertEqual((uses.places["p:1"], uses.places["p:2"]), (1, 1))

    def test_a_request_that_may_be_one_to_edit_is_as_then_if_either_way_is(self) -> None:
        for plain, edit, same, denied in (
            ("nomatch", "allow", 1, 0),
            ("allow", "nomatch", 1, 0),
            ("allow", "allow", 1, 0),
            ("nomatch", "deny", 0, 1),
            ("depends", "allow", 1, 0),
            # Either way may be allowed: nobody would be denied for sure.
            ("nomatch", "depends", 0, 0),
            ("depends", "deny", 0, 0),
        ):
            uses = Uses()
            first, second = asked("accepted", plain, place="p:1"), asked("accepted", edit, "sudoedit", place="p:2")
            uses.take_all([with_note(first, MAY_BE_EDIT), with_note(second, f"octal read, {AS_EDIT}")] * 2)
            self.assertEqual((uses.count, uses.same, uses.denied.count), (2, 2 * same, 2 * denied))
            self.assertEqual(sum(uses.places.values()), 2)
        uses = Uses()
        uses.take_all([with_note(asked("accepted", "nomatch"), MAY_BE_EDIT), asked("accepted", "allow")])
        self.assertEqual((uses.count, uses.same, uses.denied.count), (2, 1, 1))


def with_note(answer: Answer, note: str) -> Answer:
    """Returns an answer whose key has a note."""
    return answer._replace(key=(*answer.key[:-1], note))


@needs_jinja
class Made(Case):
    def has(self, text: str, part: str) -> None:
        """Wants a part in a page, and does not print the whole page where it is not there."""
        self.assertTrue(part in text, f"{part} is not in the page")

    def hostile_page(self) -> str:
        """Makes a page of hostile text in every part, and returns its path."""
        log = self.write("log", HOSTILE + "\n")
        page = Page(Inputs(f"<b>{HOSTILE}", policy=POLICY, facts=[(HOSTILE, HOSTILE)]))
        page.uses = Uses()
        for outcome, verdict in (("accepted", "deny"), ("refused", "allow"), ("accepted", "unknown-user")):
            answer = asked(outcome, verdict, HOSTILE, HOSTILE, HOSTILE, place=f"{HOSTILE}:1")
            page.uses.take_all([answer._replace(key=(log, "1", HOSTILE, outcome, HOSTILE, HOSTILE))])
        page.log_texts = page._log_texts()
        name = HOSTILE.replace("/", "-")
        page.evidence = hostile_evidence()
        page.roots = Roots([name], [name], Grants([[f"{name}:1", "ALL", "ALL", name, "!", name, name, ""]], [name], [name]), True)
        page.roots.take_all([[name, name, name, "all", name, f"{name}:1", name, name, name]])
        page.cautions = [Caution(f"{name}:1", "case", name, name, Effect("who", name))]
        page.subjects = [Subject(f"{name}:1", "user", name, "unknown", name)]
        path = self.path("page.html")
        write_page(page, path)
        return path

    def test_text_is_escaped(self) -> None:
        text = self.read(self.hostile_page())
        self.assertEqual(len(re.findall("<script", text)), 2)
        self.assertEqual(len(re.findall("<img", text)), 0)
        self.assertIsNone(re.search("[\x1b\u202e\u2028\udc80-\udcff]", text))
        self.has(text, "{{ 7*7 }}")
        self.has(text, "⟨U+202E⟩gnp.exe")

    def test_nothing_is_loaded_from_elsewhere(self) -> None:
        text = self.read(self.hostile_page())
        self.has(text, "default-src 'none'")
        self.assertFalse(re.search(r"https?://|\bsrc=\"|@import|url\(", text.partition('id="data"')[0]))
        self.assertFalse("unsafe" in text)

    def test_rules_without_use_and_links(self) -> None:
        page = Page(Inputs("t", policy=POLICY))
        page.uses = Uses()
        page.uses.take_all([asked("accepted", "allow", place=f"{POLICY}:52")])
        text = rendered(page)
        assert page.rules is not None
        self.assertEqual(
            [rule.place for rule in page.unused()],
            [rule.place for rule in page.rules.all() if rule.place != f"{POLICY}:52"],
        )
        targets = set(re.findall('id="([^"]+)"', text))
        self.assertFalse({link for link in re.findall('href="#([^"]+)"', text)} - targets)

    def test_a_tab_in_a_rule_is_a_blank(self) -> None:
        policy = self.write("policy", "root\tALL=(ALL:ALL)\tALL\n")
        text = rendered(Page(Inputs("t", policy=policy)))
        self.has(text, "root ALL=(ALL:ALL) ALL")
        self.assertFalse("U+0009" in text)

    def test_rows_that_are_left_out_are_told(self) -> None:
        page = Page(Inputs("t", rows=2))
        page.uses = Uses()
        page.uses.take_all([asked("accepted", "deny", f"/bin/{at}") for at in range(5)])
        self.has(rendered(page), "2 of 5 different requests are shown.")
        page.uses = Uses()
        with mock.patch("kulavemia.uses.GROUPS_LIMIT", 3):
            page.uses.take_all([asked("accepted", "deny", f"/bin/{at}") for at in range(5)])
        self.has(rendered(page), "2 further requests, each unlike those above, are left out.")

    def test_changes(self) -> None:
        header = "change,sender,number,user,host,runas_user,runas_group,command,arguments,old_verdict,new_verdict"
        header += ",old_tags,new_tags,old_place,new_place\n"
        rows = "".join(f"gained,s,{at},jen,h{at},root,,/bin/x,,nomatch,allow,,,,p:1\n" for at in range(5))
        path = self.write("c.csv", header + rows)
        self.has(rendered(Page(Inputs("t", changes=path))), "5 hosts")
        with self.assertRaisesRegex(Fault, "c.csv:2: x is no change"):
            Page(Inputs("t", changes=self.write("c.csv", header + rows.replace("gained", "x", 1))))

    def test_what_changes_for_every_command(self) -> None:
        header = ",".join(HEADERS[COMPARE]) + "\n"
        rows = '"ann, bob",ALL,root,,gained,/bin/x,-v,nomatch,,,allow,p:1,,\n' * 3
        rows += "cid,ALL,root,,other,/bin/x,,allow,p:1,,allow,p:1,NOPASSWD,\n"
        rows += "dora,ALL,root,,may,,,allow,p:2,,deny,p:3,,digest time\n"
        path = self.write("d.csv", header + rows)
        page = Page(Inputs("t", differences=path, rows=2))
        text = rendered(page)
        for said in ("Gained: 4", "2 of 4 rows are shown.", "May change: 1", "<code>/bin/x -v</code>", "nor is it settled"):
            self.has(text, said)
        self.has(text, "<small>depends on a digest and the time</small>")
        said = "some commands are answered otherwise: in four rows users gain something and in one row it may change."
        self.has(" ".join(page.sentences()), said)
        found = record_of(page)["differences"]
        self.assertEqual((found["gained"]["count"], len(found["gained"]["rows"]), found["gained"]["left_out"]), (4, 2, 2))
        earlier = header.replace(",depends", "") + "cid,ALL,root,,lost,/bin/x,,allow,p:1,,nomatch,,\n"
        page = Page(Inputs("t", differences=self.write("d.csv", earlier)))
        self.assertEqual(record_of(page)["differences"]["lost"]["rows"][0]["depends"], "")
        page = Page(Inputs("t", differences=self.write("d.csv", header)))
        self.has(rendered(page), "Nothing: both policies answer every command alike.")
        self.has(" ".join(page.sentences()), "every command is answered as it was, to each known user on each known host.")

    def test_a_comparison_that_was_not_made_is_told(self) -> None:
        page = Page(Inputs("t", uncompared="that takes more than 10 minutes <b>"))
        text = rendered(page)
        self.has(text, "<strong>What changes was not judged for every command</strong>: that takes more than 10 minutes &lt;b")
        self.assertFalse("Nothing: both policies" in text)
        self.assertEqual(record_of(page)["uncompared"], "that takes more than 10 minutes <b>")
        said = "What changes since the policy before was not judged for every command: that takes more than 10 minutes <b>."
        self.assertEqual(page.sentences(), [said])

    def test_many_lines_that_depend_stand_together(self) -> None:
        page = Page(Inputs("t", rows=5))
        page.cautions = [Caution("p:1", "case", "a name", "Ann ALL = ALL", Effect("who", "May differ."))]
        noted = Effect("noted", "Meant.")
        page.cautions += [Caution(f"p:{at}", "depends", "time: <b>", f"rule {at}", noted) for at in range(2, 10)]
        page.cautions.append(Caution("p:10", "depends", "digest: x", "rule 10", Effect("noted", "Meant too.")))
        text = rendered(page)
        self.has(text, "What sudo reads otherwise: 10")
        self.has(text, "<summary>8 lines</summary>")
        self.assertEqual((text.count("Meant."), text.count("Meant too."), text.count("May differ.")), (1, 1, 1))
        self.assertEqual([at for at in range(2, 11) if f"<code>rule {at}</code>" in text], [2, 3, 4, 5, 6, 10])
        self.has(text, "<p>and 3 more</p>")
        # How the program takes it in its other tables is not what this page does.
        self.has(text, "<strong>depends</strong>: time</td>")
        self.assertEqual(len(record_of(page)["cautions"]), 10)

    def test_changes_that_are_not_settled(self) -> None:
        header = ",".join(CHANGE_HEADER) + "\n"
        rows = "may,s,1,jen,h,root,,/bin/x,,depends,depends,,,p:1,p:1\n"
        page = Page(Inputs("t", changes=self.write("c.csv", header + rows)))
        self.has(rendered(page), "May change: 1</h3>")
        self.has(" ".join(page.sentences()), "none is known to gain or lose anything. For one of the requests")
        self.assertEqual(record_of(page)["changes"]["may"], 1)
        rows = "gained,s,1,jen,h,root,,/bin/x,,nomatch,depends,,,,p:1\n"
        page = Page(Inputs("t", changes=self.write("c.csv", header + rows)))
        self.assertFalse("May change" in rendered(page))
        self.has(" ".join(page.sentences()), "one gains something and none loses something, one of them perhaps, by rules")

    def test_what_rules_depend_on(self) -> None:
        self.write("r/rules.csv", f"{','.join(HEADERS[RULES])}\n{POLICY}:52,3,2,0,digest time\n{POLICY}:45,1,4,1,\n")
        page = Page(Inputs("t", policy=POLICY))
        page.inputs = page.inputs._replace(requests=self.path("r"))
        page.uses = Uses()
        plain, edit = asked("accepted", "depends", place=f"{POLICY}:52"), asked("accepted", "allow", "sudoedit", place="p:9")
        page.uses.take_all([with_note(plain, MAY_BE_EDIT), with_note(edit, AS_EDIT), plain])
        page.counts = page._counts()
        self.assertEqual(page.depends, {f"{POLICY}:52": "digest time"})
        text = rendered(page)
        self.has(text, '<th scope="col">Depends on</th>')
        self.has(text, '<td data-label="Depends on">a digest and the time</td>')
        self.has(text, "1 allowed, 0 denied, if met")
        self.has(text, "4 allowed, 1 denied</td>")
        self.has(text, "<strong>depends on what is not judged</strong>")
        rules = {rule["place"]: rule for rule in record_of(page)["rules"]}
        self.assertEqual([rules[f"{POLICY}:{line}"]["depends"] for line in (45, 52)], ["", "digest time"])
        # A table of an earlier version has no such column.
        self.write("r/rules.csv", f"place,commands,allowed,denied\n{POLICY}:52,3,2,0\n")
        page.depends, page.counts = {}, page._counts()
        self.assertEqual((page.depends, page.counts[f"{POLICY}:52"].allowed), ({}, 1))
        self.assertFalse('<th scope="col">Depends on' in rendered(page))

    def test_probes_that_may_be_allowed_are_told_apart(self) -> None:
        probes = Probes(Numbering())
        for verdict in ("allow", "depends", "nomatch"):
            request = Request("jen", "web1", "root", "", f"/bin/{verdict}", "")
            probes.take(Answer("s", 1, request, Verdict(verdict, "p:1", ""), ("shell",)))
        probes.take_all([])
        self.assertEqual(probes.data()["cells"][0], [[0, "", [0]], [0, "", [1], 1]])

    @needs_browser
    def test_hostile_text_runs_nothing_in_a_browser(self) -> None:
        found = browsed(self.hostile_page())
        self.has(found, "data-ready=")
        self.has(found, "&lt;/script&gt;&lt;script&gt;")
        self.assertFalse("<title>owned" in found or "<img" in found)


@needs_jinja
@needs_program
class Command(Case):
    def test_from_reports(self) -> None:
        writer = Writer(self.path("r"), LOG_KEY)
        writer.add(
            "web", Request("jen", "web1.example.org", "", "", "/bin/id", ""), ("log", "7", "", "accepted", "", "")
        )
        writer.finish()
        self.write("r/report.csv", "sender,number,verdict,line,tags\nweb,1,nomatch,,\n")
        self.run_tool("page", "--requests", "r", "--policy", POLICY, "--out", "page.html")
        self.assertTrue("Would be denied now: 1" in self.read("page.html"))
        err = self.run_tool("page", "--probe", "r", "--policy", POLICY, "--out", "x.html", status=2)[1]
        self.assertIn("--review, --users and --hosts are wanted together", err)
        self.assertIn("nothing to show", self.run_tool("page", "--out", "x.html", status=2)[1])
        said = self.run_tool("page", "--requests", "r", "--rows", "-1", "--out", "x.html", status=2)[1]
        self.assertIn("--rows is not below 0", said)


if __name__ == "__main__":
    unittest.main()
