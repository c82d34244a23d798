"""The evidence of a page: its files and times, its JSON, the sums and the signature."""

import json
import os
import re
import subprocess
import time
import unittest

from recorded import faults_of
from rooted import example_page, noted_page
from support import Case, needs_jinja, needs_keygen, needs_schema
from kulavemia import evidence, signing
from kulavemia.command import Fault
from kulavemia.evidence import age, at, hosts_of, made_now
from kulavemia.messages import ACCEPTED, FORGED, OTHER
from kulavemia.page import rendered
from kulavemia.record import record_of
from kulavemia.record import write as write_record
from kulavemia.sorting import Tally
from kulavemia.sums import File, file_of

SECOND = 10**9


class Times(Case):
    def test_made_now(self) -> None:
        made = made_now()
        self.assertRegex(made.at, r"^\d{4}-\d\d-\d\dT\d\d:\d\d:\d\d[+-]\d\d:\d\d$")
        self.assertTrue(made.zone and made.by and made.machine and made.tools)

    def test_age(self) -> None:
        now = 1_000_000.0
        for seconds, wanted in ((30, "in the minute before"), (60, "1 minute before"), (7300, "2 hours before")):
            self.assertEqual(age(int(now - seconds) * SECOND, now), wanted)
        self.assertEqual(age(int(now - 90_000_0) * SECOND, now), "10 days before")
        self.assertEqual((age(0, now), age(int(now + 5) * SECOND, now)), ("", "after, by its own clock"))
        self.assertEqual((at(0), at(SECOND)[:4] in ("1969", "1970")), ("", True))

    def test_tallies(self) -> None:
        tally = Tally()
        for kind, moment in ((OTHER, ""), (ACCEPTED, "2026-02-01"), (ACCEPTED, "2026-01-01"), (FORGED, "2026-03-01")):
            tally = tally.with_line(kind, moment)
        self.assertEqual(tally, Tally(2, 1, 1, "2026-01-01", "2026-03-01"))

    def test_hosts(self) -> None:
        tallies = {"WEB1": Tally(2, first="a", last="c"), "web1": Tally(1, first="b", last="d"), "db9": Tally(5)}
        web1, web2, db9 = hosts_of(["web1", "web2"], {"web1": int(time.time()) * SECOND}, tallies)
        self.assertEqual(web1[:2] + web1[3:], ("web1", True, "in the minute before", 3, "a", "d"))
        self.assertEqual(web2, evidence.Host("web2", True, "", "", 0, "", ""))
        self.assertEqual(db9, evidence.Host("db9", False, "", "", 5, "", ""))


@needs_jinja
class Record(Case):
    @needs_schema
    def test_the_record_has_the_form_of_the_schema(self) -> None:
        page = example_page()
        made = page.evidence.made
        page.evidence = evidence.Evidence(
            made,
            [evidence.Program("sudo_audit", "sudo_audit 0.1.0", "0" * 64)],
            [File("/etc/sudoers", 1, "1" * 64, 1)],
            logs=[evidence.Log(File("-"), Tally(1))],
            hosts=[evidence.Host("web1", True, "", "", 0, "", "")],
        )
        write_record(page, self.path("review.json"))
        found = json.loads(self.read("review.json"))
        self.assertEqual(faults_of(found), [])
        reached = [(row["users"], row["level"], [way["via"] for way in row["ways"]]) for row in found["roots"]["reached"]]
        self.assertIn((["bob"], "all", ["ann"]), reached)
        self.assertIn((["dora"], "listed", [""]), reached)
        self.assertEqual(found["roots"]["unreached"], ["eve"])
        self.assertEqual(found["files"][-1], {"role": "log", "path": "-", "bytes": 0, "sha256": None})
        self.assertTrue(faults_of({**found, "more": 1}) and faults_of({**found, "format": "x"}))

    @needs_schema
    def test_what_depends_is_in_the_record(self) -> None:
        found = record_of(noted_page())
        self.assertEqual(faults_of(found), [])
        self.assertEqual(found["roots"]["depends"], ["digest", "time", "chroot"])
        reached = {(row["users"][0], row["hosts"][0]): row for row in found["roots"]["reached"]}
        self.assertEqual(reached["bob", "h1"]["depends"], [])
        self.assertEqual(reached["bob", "h2"]["depends"], ["digest", "time", "chroot"])
        self.assertFalse(reached["bob", "h2"]["doubtful"])
        self.assertEqual(reached["bob", "h2"]["ways"][0]["depends"], "digest time chroot")
        self.assertEqual([grant["depends"] for grant in reached["dora", "h1"]["grants"]], ["", "time"])
        self.assertEqual({caution["answers"] for caution in found["cautions"]}, {"noted"})
        self.assertIn("What rules depend on is not judged (a digest and the time):", " ".join(found["sentences"]))
        self.assertNotIn("sudo reads or judges", " ".join(found["sentences"]))

    def test_the_page_and_the_record_say_the_same_sentences(self) -> None:
        page = example_page()
        text = rendered(page)
        for sentence in record_of(page)["sentences"]:
            self.assertTrue(sentence in text, sentence)

    def test_text_is_as_it_is_shown(self) -> None:
        page = example_page()
        page.inputs = page.inputs._replace(title="\x1b[31m \udcff")
        self.assertEqual(record_of(page)["title"], "⟨U+001B⟩[31m ⟨byte FF⟩")


class Signing(Case):
    def setUp(self) -> None:
        super().setUp()
        self.write("out/page.html", "page")
        self.write("out/review/roots.csv", "roots")
        self.key = self.path("key")

    def make_key(self, phrase: str = "") -> None:
        """Makes a key."""
        words = ["ssh-keygen", "-q", "-t", "ed25519", "-N", phrase, "-C", "ann", "-f", self.key]
        subprocess.run(words, check=True)

    def sums(self) -> bytes:
        """Writes the sums of the folder."""
        return signing.write_sums(self.path("out"), ["page.html", "review/roots.csv"])

    def verified(self, sums: bytes) -> bool:
        """Returns whether the signature is one on these sums."""
        with open(self.key + ".pub", encoding="utf-8") as file:
            self.write("signers", f"ann@example.org {file.read()}")
        words = ["ssh-keygen", "-Y", "verify", "-f", self.path("signers"), "-I", "ann@example.org"]
        words += ["-n", signing.NAMESPACE, "-s", self.path("out", signing.SIGNATURE)]
        done = subprocess.run(words, input=sums, stdout=subprocess.DEVNULL, stderr=subprocess.DEVNULL, check=False)
        return done.returncode == 0

    def test_sums_are_those_of_sha256sum(self) -> None:
        text = self.sums()
        self.assertEqual(text.decode(), self.read("out", signing.SUMS))
        self.assertTrue(re.fullmatch(r"([0-9a-f]{64}  [a-z/.]+\n){2}", text.decode()))
        done = subprocess.run(["sha256sum", "-c", signing.SUMS], cwd=self.path("out"), stdout=subprocess.PIPE, check=True)
        self.assertEqual(done.stdout, b"page.html: OK\nreview/roots.csv: OK\n")
        self.assertEqual(text.decode().split()[0], file_of(self.path("out", "page.html"), 100).sum)

    @needs_keygen
    def test_a_signature_is_on_these_sums_alone(self) -> None:
        self.make_key()
        sums = self.sums()
        signing.write_signature(self.path("out"), sums, self.key)
        self.assertTrue(self.verified(sums))
        self.assertFalse(self.verified(sums.replace(b"page", b"pagf")))
        # A signature on earlier sums does not stay.
        signing.write_signature(self.path("out"), sums, None)
        self.assertFalse(os.path.exists(self.path("out", signing.SIGNATURE)))

    @needs_keygen
    def test_a_key_that_cannot_sign_is_told(self) -> None:
        with self.assertRaisesRegex(Fault, "ssh-keygen: .*gone"):
            signing.write_signature(self.path("out"), self.sums(), self.path("gone"))
        self.assertFalse(os.path.exists(self.path("out", signing.SIGNATURE)))


if __name__ == "__main__":
    unittest.main()
