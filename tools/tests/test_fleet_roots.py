"""Who can become root on the hosts of a fleet, each by its own policy, and the page of it."""

import json
import os
import re
import unittest
from collections.abc import Sequence

from browsing import Browser
from recorded import faults_of
from support import Case, needs_driver, needs_jinja, needs_review, needs_schema
from kulavemia.evidence import Evidence, Made
from kulavemia.fleet_evidence import FILES_HEADER
from kulavemia.fleet_record import record_of
from kulavemia.fleet_review import REVIEWED_HEADER, reviewed_in
from kulavemia.fleet_table import table_of
from kulavemia.page import Inputs, Page, rendered
from kulavemia.page import write as write_page
from kulavemia.review import HEADERS

POLICY = "root ALL = (ALL) ALL\n@includedir /etc/sudoers.d\n"
USERS = "user,uid,groups\nroot,0,root:0\nann,{},ann:1\nbob,1002,bob:1002\n"
DIGEST = "sha224:0GomF8mNN3wlDt1HD9XldjJ3SNgpFdbjO1+NsQ=="
MADE = Evidence(Made("2026-01-01T00:00:00+00:00", "UTC", "ann", "vm", "0"))


class FleetRoots(Case):
    def host(self, name: str, rules: str, uid: int = 1001) -> None:
        """Makes a host with a rule of its own."""
        self.write(f"fleet/{name}/tree/etc/sudoers", POLICY)
        self.write(f"fleet/{name}/tree/etc/sudoers.d/10-own", rules)
        self.write(f"fleet/{name}/users.csv", USERS.format(uid))
        self.write(f"fleet/{name}/hosts.csv", f"host,interfaces\n{name}.example.org,10.0.0.1/8\n")

    def fleet(self, *words: str, status: int = 0) -> tuple[str, str]:
        """Runs the command."""
        return self.run_tool("fleet", "fleet", "--out", "out", "--roots", *words, status=status)

    def marks(self) -> dict[str, str]:
        """Returns the marks of each user, host by host."""
        table = table_of(self.path("out")).table
        answers = table.answers()
        return {user: " ".join(answers[cell].mark for cell in row) for user, row in zip(table.users, table.rows)}


@needs_review
class Command(FleetRoots):
    def test_each_host_by_its_own_policy(self) -> None:
        self.host("a", "ann ALL = NOPASSWD: ALL\n")
        self.host("b", "bob ALL = (ann) ALL\nann ALL = /opt/x\ngus ALL = ALL\n", 2001)
        self.host("c", "Ann ALL = ALL\n")
        self.write("fleet/c/users.csv", "user,uid,groups\nroot,0,root:0\nzoe,1,zoe:1\n")
        out, err = self.fleet()
        self.assertEqual((out, err), ("3 hosts reviewed; 0 refused, 0 failed\n", ""))
        self.assertEqual(self.marks(), {"ann": "A! L ", "bob": "· L ", "root": "R R R", "zoe": "  ?"})
        found = table_of(self.path("out"))
        self.assertEqual(found.ids, {"ann": ["1001", "2001"]})
        self.assertIn(("user", "gus", ["b"]), [(note.kind, note.text, note.hosts) for note in found.subjects])
        self.assertEqual([(note.kind, note.hosts) for note in found.cautions], [("case", ["c"])])

    def test_what_depends_is_marked_on_its_host_alone(self) -> None:
        self.host("a", "ann ALL = ALL\n")
        self.host("b", f"ann ALL = NOTAFTER=20270101000000Z NOPASSWD: ALL\nbob ALL = {DIGEST} /opt/x\n")
        self.host("c", "bob ALL = (ann) CHROOT=/srv ALL\nann ALL = ALL\n")
        out, err = self.fleet()
        self.assertEqual((out, err), ("3 hosts reviewed; 0 refused, 0 failed\n", ""))
        self.assertEqual(self.marks(), {"ann": "A ?A! A", "bob": "· ?L ?A", "root": "R R R"})
        found = table_of(self.path("out"))
        noted = [(note.text.partition(":")[0], note.answers, note.hosts) for note in found.cautions]
        self.assertEqual(sorted(noted), [("chroot", "noted", ["c"]), ("digest", "noted", ["b"]), ("time", "noted", ["b"])])

    def test_rules_that_could_not_be_gathered_leave_no_cell_of_the_host_sure(self) -> None:
        for name in ("a", "b"):
            self.host(name, "ann ALL = ALL\n")
        self.write("fleet/a/missing", "/var/log/auth.log: cannot be read\n")
        self.write("fleet/b/missing", "/etc/nsswitch.conf: sudoers: files sss\n")
        self.fleet()
        self.assertEqual(self.marks(), {"ann": "A ?A", "bob": "· ?", "root": "R R"})

    def test_a_host_that_is_refused_stops_no_other(self) -> None:
        self.host("a", "ann ALL = ALL\n")
        self.host("b", "what\n")
        self.host("c", "bob ALL = ALL\n")
        os.remove(self.path("fleet", "c", "hosts.csv"))
        os.symlink("/etc/passwd", self.path("fleet", "c", "hosts.csv"))
        os.makedirs(self.path("fleet", "d"))
        out, _ = self.fleet(status=1)
        self.assertEqual(out, "1 hosts reviewed; 3 refused, 0 failed\n")
        faults = {host.host: host.fault for host in reviewed_in(self.path("out"))}
        self.assertEqual(faults["a"], "")
        self.assertRegex(faults["b"], r"^sudo_review: /etc/sudoers\.d/10-own:1:")
        self.assertRegex(faults["c"], "expected a plain file, found a link")
        self.assertEqual(faults["d"], "there is no tree")
        self.assertEqual(sorted(os.listdir(self.path("out", "roots"))), ["a"])
        self.host("b", "bob ALL = ALL\n")
        self.fleet(status=1)
        self.assertEqual(sorted(os.listdir(self.path("out", "roots"))), ["a", "b"])

    def test_what_stands_is_left_until_its_inputs_change(self) -> None:
        self.host("a", "ann ALL = ALL\n")
        self.fleet()
        before = os.stat(self.path("out", "roots", "a", "roots.csv")).st_ino
        self.fleet()
        self.assertEqual(os.stat(self.path("out", "roots", "a", "roots.csv")).st_ino, before)
        self.host("a", "ann ALL = NOPASSWD: ALL\n")
        self.fleet()
        self.assertEqual(self.marks()["ann"], "A!")

    def test_the_fleets_own_files(self) -> None:
        self.write("fleet/tree/etc/sudoers", "root ALL = ALL\nann web1 = ALL\n")
        self.write("fleet/users.csv", USERS.format(1001))
        self.write("fleet/hosts.csv", "host,interfaces\nweb1.example.org,\nWEB2.example.org,\nother,\n")
        for name in ("web1", "web2", "web3"):
            os.makedirs(self.path("fleet", name))
        self.fleet(status=1)
        self.assertEqual(self.marks()["ann"], "A ·")
        self.assertEqual(self.rows("out", "roots", "web2", "hosts.csv")[1:], ["WEB2.example.org,"])
        self.assertEqual(reviewed_in(self.path("out"))[2].fault, "hosts.csv has no host of this name")

    def test_words(self) -> None:
        self.host("a", "ann ALL = ALL\n")
        self.assertIn("--roots runs on this machine", self.fleet("--join", status=2)[1])
        self.fleet("--review", "/gone", status=5)


def further_rows(names: Sequence[str]) -> dict[str, str]:
    """Returns rows of cautions, unknown subjects and grants for many users; each may have a number of the host in braces."""
    place = "/etc/sudoers.d/10-own"
    grants = []
    for at in range(60):
        listed = ", ".join(names[at * 20 : at * 20 + 20])
        grants.append(f'/etc/sudoers:{at % 30 + 1},"{listed}",ALL,(root),,/opt/app{at}/run,{"" if at % 3 else "NOPASSWD"},\n')
    return {
        "cautions": f"{place}:1,linked,a command is below one,x ALL = /bin/ls\n{place}:2,case,a name has one,Ann{{}} ALL = /x\n",
        "subjects": "".join(f"{place}:{at},user,gone{at}of{{}},unknown\n" for at in range(100)),
        "grants": "".join(grants),
    }


@needs_jinja
class OfTables(FleetRoots):
    """Pages of tables that are written by hand."""

    def tables(self, hosts: int, users: int, is_full: bool = False) -> None:
        """Writes the tables of many hosts with many users, some of whom reach something."""
        names = [f"user{user:04}" for user in range(users)]
        people = "user,uid,groups\nroot,0,root:0\n" + "".join(f"{name},{1000 + at},\n" for at, name in enumerate(names))
        further = further_rows(names) if is_full else {}
        reviewed = [",".join(REVIEWED_HEADER) + "\n"]
        for number in range(hosts):
            host = f"host{number:03}.example.org"
            rows = [f"root,{host},root,root,none,,,,\n"]
            for at, name in enumerate(names):
                if at < 20 or (at * 7 + number) % 40 == 0 and at < 1200:
                    rows.append(f"{name},{host},root,{'all' if at < 20 else 'listed'},own,/etc/sudoers:{at % 30 + 1},,,\n")
            bodies = {**{name: text.replace("{}", str(number % 3)) for name, text in further.items()}, "roots": "".join(rows)}
            for name, header in HEADERS.items():
                self.write(f"out/roots/{host}/{name}.csv", ",".join(header) + "\n" + bodies.get(name, ""))
            inputs = [f"policy,/etc/sudoers.d/{number},90,{number:064}", f"users,{host}/users.csv,70,{number + 1:064}"]
            files = {"users": people, "hosts": f"host,interfaces\n{host},\n", "missing": "what\n"}
            if is_full:
                inputs += [f"policy,/etc/sudoers,700,{number % 4:064}", f"hosts,{host}/hosts.csv,70,{number + 2:064}"]
                files["users"] += "".join(f"local{at},{2000 + number % 7},\n" for at in range(10))
                files["missing"] += "" if number % 10 else "/etc/nsswitch.conf: sudoers: files sss\n"
            files["files"] = "\n".join([",".join(FILES_HEADER), f"program,sudo_review 0.1.0,9,{'2' * 64}", *inputs, ""])
            for name, text in files.items():
                self.write(f"out/roots/{host}/{name}.csv", text)
            self.write(f"out/roots/{host}/digest", "0" * 64)
            reviewed.append(f"{host},done,{users + 1},1,{'0' * 64},\n")
        self.write("out/reviewed.csv", "".join(reviewed) + "bad,refused,0,0,,there is no tree\n")

    def page(self) -> Page:
        """Returns the page of the tables."""
        return Page(Inputs("Fleet", fleet=self.path("out")), MADE)

    def test_what_the_page_says(self) -> None:
        self.tables(3, 30)
        text = rendered(self.page())
        for part in (
            "20 users can run any command as root on all 3 hosts: user0000",
            "One host of 4 is not on this page: bad.",
            "refused: there is no tree",
        ):
            self.assertTrue(part in text, part)
        self.assertFalse('id="rules"' in text)
        data = json.loads(re.findall('id="data">(.*?)</script>', text)[0])
        self.assertEqual((len(data["roots"]["users"]), len(data["roots"]["hosts"])), (31, 3))
        targets = set(re.findall('id="([^"]+)"', text))
        self.assertFalse({link for link in re.findall('href="#([^"]+)"', text)} - targets)

    def noted_tables(self) -> None:
        """Writes the tables of two hosts, on one of which it depends on what is not judged who can become root."""
        self.tables(2, 30)
        host = "host001.example.org"
        rows = self.read(f"out/roots/{host}/roots.csv").replace(f"user0003,{host},root,all,own,/etc/sudoers:4,,,", "")
        rows = "".join(f"{row}\n" for row in rows.splitlines() if row)
        self.write(f"out/roots/{host}/roots.csv", rows + f"user0003,{host},root,all,none,/etc/sudoers:4,NOPASSWD,,digest time\n")
        cautions = [f"/etc/sudoers:4,depends,{kind}: sudo asks for it too,x ALL = ALL\n" for kind in ("digest", "time")]
        self.write(f"out/roots/{host}/cautions.csv", ",".join(HEADERS["cautions"]) + "\n" + "".join(cautions))

    def test_what_depends_on_one_host(self) -> None:
        self.noted_tables()
        page = self.page()
        assert page.fleet is not None
        self.assertEqual(self.marks()["user0003"], "A ?A!")
        self.assertEqual(self.marks()["user0004"], "A A")
        text = rendered(page)
        for part in (
            "20 users can run any command as root on both hosts, one of them without a password on some of the hosts, one of"
            " them perhaps on some of the hosts: ",
            "For one of these it depends on a digest, which is not judged, on one or more of the hosts: user0003.",
            "What rules depend on is not judged (a digest and the time): an answer that depends on it has a question mark.",
            "perhaps any command as root, without a password; it depends on a digest and the time",
            "For sudo the time decides too. That is not judged here",
        ):
            self.assertTrue(part in text, part)
        self.assertFalse("sudo reads or judges constructs of" in text)
        record = record_of(page, page.fleet)
        self.assertEqual(record["roots"]["depends"], ["digest", "time"])
        self.assertEqual({note["answers"] for note in record["cautions"]}, {"noted"})
        reached = {(row["users"][0], *row["hosts"]): row for row in record["roots"]["reached"]}
        self.assertEqual(reached["user0003", "host001.example.org"]["depends"], ["digest", "time"])
        self.assertEqual(reached["user0003", "host000.example.org"]["depends"], [])

    @needs_schema
    def test_the_record_of_what_depends_has_the_form_of_the_schema(self) -> None:
        self.noted_tables()
        page = self.page()
        assert page.fleet is not None
        self.assertEqual(faults_of(record_of(page, page.fleet), "fleet"), [])

    @needs_driver
    def test_what_depends_is_shown_on_the_page_of_a_fleet(self) -> None:
        self.noted_tables()
        path = self.path("page.html")
        write_page(self.page(), path)
        with Browser(1280) as browser:
            browser.open(path)
            browser.element("#heat td.all-free button").click()
            shown = browser.text("#answers")
        self.assertIn("Perhaps any command as root, without a password; it depends on a digest and the time.", shown)
        self.assertIn("This depends on a digest and the time, which is not judged: it is the most that may be so", shown)

    def test_hosts_that_stand_in_several_rows_are_listed_once(self) -> None:
        self.tables(12, 1, True)
        text = rendered(self.page())
        table = re.findall('id="subjects-table".*?</table>', text, re.DOTALL)[0]
        rows = re.findall('<tr id="(subjects-table-[0-9]+)">(.*?)</tr>', table, re.DOTALL)
        self.assertEqual(len(rows), 300)
        listed = [name for name, row in rows if "<details>" in row]
        self.assertEqual(len(listed), 3)
        links = re.findall('<a href="#([^"]+)">the same 4 hosts as of user <bdi>gone0of', table)
        self.assertEqual((len(links), set(links)), (297, set(listed)))

    def test_names_with_many_ids(self) -> None:
        self.tables(5, 1, True)
        (said,) = [sentence for sentence in self.page().sentences() if "several IDs" in sentence]
        self.assertIn("be several people: local0 (2000, 2001, 2002, 2 more), local1", said)
        self.assertTrue(said.endswith(" and 2 more."))

    def test_words(self) -> None:
        self.tables(1, 1)
        self.run_tool("page", "--fleet", "out", "--out", "page.html")
        err = self.run_tool("page", "--fleet", "out", "--policy", "x", "--out", "page.html", status=2)[1]
        self.assertIn("--fleet is a page by itself", err)

    @needs_driver
    def test_a_large_fleet(self) -> None:
        self.tables(500, 5000, True)
        path = self.path("page.html")
        write_page(self.page(), path)
        self.assertLess(os.path.getsize(path), 5_000_000)
        with Browser(1280) as browser:
            browser.open(path)
            self.assertIn("500 hosts in", browser.text("#map-found"))
            # After how many milliseconds the page stood; docs/PERFORMANCE.md has a figure.
            self.assertRegex(str(browser.run("return document.documentElement.dataset.ready")), "^[0-9]+$")


if __name__ == "__main__":
    unittest.main()
