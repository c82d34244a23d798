"""The evidence of a fleet's page: the files of each host, the JSON, the sums and the signature."""

import json
import os
import re
import subprocess
import unittest

from recorded import faults_of
from support import REVIEW, needs_jinja, needs_keygen, needs_review, needs_schema
from test_fleet_roots import FleetRoots
from kulavemia import signing
from kulavemia.fleet_evidence import HOSTS, POLICY, PROGRAM, USERS, Input, inputs_in, missing_in, shared_by, write_inputs
from kulavemia.fleet_table import table_of
from kulavemia.program import sum_of
from kulavemia.shown import Form
from kulavemia.sums import File, file_of

SSS = "/etc/nsswitch.conf: sudoers: files sss"


class Tables(FleetRoots):
    def test_what_is_written_is_read(self) -> None:
        inputs = [Input(PROGRAM, File("x 1", 3, "0" * 64)), Input(POLICY, File("/etc/a,\x1b", 1 << 40, "1" * 64))]
        for form in (Form(), Form(True)):
            write_inputs(self.folder, inputs, ["=1", "a\x1b[2J"], form)
            self.assertEqual((inputs_in(self.folder), missing_in(self.folder)), (inputs, ["=1", "a\x1b[2J"]))
            self.assertNotIn("\x1b", self.read("files.csv") + self.read("missing.csv"))

    def test_a_file_of_several_hosts_is_one(self) -> None:
        same, other = Input(POLICY, File("/b", 1, "0" * 64)), Input(POLICY, File("/b", 1, "1" * 64))
        users, first = Input(USERS, File("/b", 1, "0" * 64)), Input(POLICY, File("/a", 1, "2" * 64))
        found = shared_by([("h1", [same, users]), ("h2", [same, first]), ("h3", [other])], POLICY)
        self.assertEqual(found, [(first, ["h2"]), (same, ["h1", "h2"]), (other, ["h3"])])


@needs_review
@needs_jinja
class Evidence(FleetRoots):
    def setUp(self) -> None:
        super().setUp()
        self.host("a", "ann ALL = NOPASSWD: ALL\n")
        self.host("b", "bob ALL = (ann) ALL\nann ALL = (ALL) ALL\ngus ALL = ALL\nDefaults targetpw\n", 2001)
        self.write("fleet/b/missing", f"{SSS}\n")
        self.host("c", "what\n")

    def page(self, *words: str, out: str = "out/page.html", status: int = 0) -> str:
        """Makes the page, and returns what the command says."""
        return self.run_tool("page", "--fleet", "out", "--out", out, *words, status=status)[1]

    def test_the_files_of_each_host(self) -> None:
        self.assertIn(f"fleet/b/missing: {SSS}", self.fleet(status=1)[1])
        paths = {PROGRAM: REVIEW, POLICY: "fleet/a/tree", USERS: "fleet", HOSTS: "fleet"}
        found = inputs_in(self.path("out", "roots", "a"))
        self.assertEqual([read.role for read in found], [PROGRAM, POLICY, POLICY, USERS, HOSTS])
        self.assertEqual((found[0].file.path, found[0].file.sum), ("sudo_review 0.1.0", sum_of(REVIEW)))
        self.assertEqual([read.file.path for read in found[1:3]], ["/etc/sudoers", "/etc/sudoers.d/10-own"])
        for role, file in found[1:]:
            wanted = file_of(os.path.join(self.path(paths[role]), file.path.lstrip("/")), 1000)
            self.assertEqual((file.size, file.sum), (wanted.size, wanted.sum))
        self.assertEqual([missing_in(self.path("out", "roots", host)) for host in "ab"], [[], [SSS]])

    def test_what_could_not_be_gathered_is_as_it_is_now(self) -> None:
        self.fleet(status=1)
        self.write("fleet/b/missing", "another\n")
        self.fleet(status=1)
        self.assertEqual(missing_in(self.path("out", "roots", "b")), ["another"])

    def test_the_page(self) -> None:
        self.fleet(status=1)
        self.page("--title", "All")
        text, record = self.read("out", "page.html"), json.loads(self.read("out", "review.json"))
        for host in record["hosts"]:
            for file in host["files"]:
                self.assertIn(f"<code>{file['sha256']}</code>", text)
        for part in (f"b: {SSS}", "in the minute before", "refused: sudo_review: /etc/sudoers.d/10-own:1:", ">ann</bdi>", "2001"):
            self.assertIn(part, text)
        self.assertIn(f"SHA-256 <code>{sum_of(REVIEW)}</code>", text)
        for sentence in record["sentences"]:
            self.assertIn(sentence, text)
        told = " ".join(record["sentences"])
        self.assertIn("The policy names one user, group or host that the directory lacks: gus.", told)
        self.assertIn("Something could not be gathered, and rules may be among it that no answer here looks at", told)
        self.assertIn("of the policies of one host otherwise than this page: none changes who can become root.", told)
        self.host("a", "Ann ALL = ALL\n")
        self.fleet(status=1)
        self.page()
        told = " ".join(json.loads(self.read("out", "review.json"))["sentences"])
        self.assertIn("of two hosts otherwise than this page: on one of them who can become root may differ.", told)

    def test_what_several_names_of_a_host_share_is_counted_once(self) -> None:
        self.host("a", "gus ALL = ALL\ngus ALL = /bin/ls\n")
        self.write("fleet/a/hosts.csv", "host,interfaces\na1,\na2,\n")
        self.fleet(status=1)
        noted = {(note.text, tuple(note.hosts)) for note in table_of(self.path("out")).subjects}
        self.assertIn(("gus", ("a/a1", "a/a2", "b")), noted)

    @needs_schema
    def test_the_record_has_the_form_of_the_schema(self) -> None:
        self.fleet(status=1)
        self.page()
        found = json.loads(self.read("out", "review.json"))
        self.assertEqual(faults_of(found, "fleet"), [])
        self.assertTrue(faults_of(found) and faults_of({**found, "more": 1}, "fleet"))
        hosts = {host["name"]: (host["status"], host["users"], len(host["files"]), host["missing"]) for host in found["hosts"]}
        self.assertEqual(hosts, {"a": ("done", 3, 4, []), "b": ("done", 3, 4, [SSS]), "c": ("refused", 0, 0, [])})
        self.assertEqual(found["several_ids"], [{"user": "ann", "ids": ["1001", "2001"]}])
        self.assertIn({"kind": "user", "name": "gus", "what": "unknown", "hosts": ["b"]}, found["subjects"])
        self.assertEqual([(note["class"], note["answers"], note["hosts"]) for note in found["cautions"]], [
            ("defaults", "password", ["b"])])
        chains = [(row["users"], row["hosts"], [way["via"] for way in row["ways"]]) for row in found["roots"]["reached"]]
        self.assertIn((["bob"], ["b"], ["ann"]), chains)

    @needs_keygen
    def test_sums_and_signature(self) -> None:
        self.fleet(status=1)
        key = self.path("key")
        subprocess.run(["ssh-keygen", "-q", "-t", "ed25519", "-N", "", "-C", "ann", "-f", key], check=True)
        self.page("--sign", key)
        names = [line.split("  ")[1] for line in self.rows("out", signing.SUMS)]
        tables = ["digest", *(f"{name}.csv" for name in "files missing hosts users cautions grants roots subjects".split())]
        wanted = [f"roots/{host}/{name}" for host in "ab" for name in tables]
        self.assertEqual(names, ["page.html", "review.json", "reviewed.csv", *wanted])
        subprocess.run(["sha256sum", "-c", "--quiet", signing.SUMS], cwd=self.path("out"), check=True)
        self.write("signers", "ann@example.org " + self.read("key.pub"))
        words = ["ssh-keygen", "-Y", "verify", "-f", self.path("signers"), "-I", "ann@example.org", "-n", signing.NAMESPACE]
        words += ["-s", self.path("out", signing.SIGNATURE)]
        said = subprocess.run(words, input=self.read("out", signing.SUMS).encode(), capture_output=True, check=True).stdout
        self.assertIn(b"Good", said)
        self.page()
        self.assertFalse(os.path.exists(self.path("out", signing.SIGNATURE)))

    def test_a_page_elsewhere(self) -> None:
        self.fleet(status=1)
        self.page(out="other/page.html")
        names = [line.split("  ")[1] for line in self.rows("other", signing.SUMS)]
        self.assertEqual((names, sorted(os.listdir(self.path("other")))), (
            ["page.html", "review.json"], ["page.html", "review.json", "review.sha256"]))
        out, _ = self.run_tool("page", "--fleet", "out", "--out", "/dev/stdout")
        self.assertTrue(out.startswith("<!DOCTYPE html>"))
        self.assertFalse(os.path.exists(self.path("out", "review.json")))

    def test_words(self) -> None:
        self.fleet(status=1)
        self.assertIn("gets this name", self.page(out="out/review.json", status=2))
        self.assertIn("is a file", self.page("--sign", "key", out="/dev/stdout", status=2))
        words = ("page", "--policy", "x", "--out", "p", "--sign", "k")
        self.assertIn("--sign is for a page of --fleet", self.run_tool(*words, status=2)[1])
        with open(self.path("out", ".lock"), "w", encoding="utf-8") as file:
            import fcntl

            fcntl.flock(file, fcntl.LOCK_EX)
            self.assertIn("works in this folder", self.page(status=4))

    def test_tables_of_another_run_are_refused(self) -> None:
        self.fleet(status=1)
        before = self.read("out", "reviewed.csv")
        self.host("a", "ann ALL = /bin/ls\n")
        self.fleet(status=1)
        self.write("out/reviewed.csv", before)
        self.assertIn("out/roots/a has other tables than those that reviewed.csv is about", self.page(status=3))
        self.assertEqual(re.findall("page.html|review.json", " ".join(os.listdir(self.path("out")))), [])


class Sums(FleetRoots):
    def test_a_name_with_a_backslash(self) -> None:
        self.write("out/a\\b", "x")
        self.write("out/-c d", "y")
        signing.write_sums(self.path("out"), ["a\\b", "-c d"])
        done = subprocess.run(["sha256sum", "-c", signing.SUMS], cwd=self.path("out"), capture_output=True, check=False)
        self.assertEqual((done.returncode, done.stderr), (0, b""))


if __name__ == "__main__":
    unittest.main()
