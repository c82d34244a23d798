"""Verdicts of the program on policies drawn at random, beside those of a second body."""

import os
import tomllib
import unittest
from collections import Counter
from unittest import mock

import listing
from drawn import Drawn
from support import PROGRAM, TESTS, needs_program

# What the words of the worked rows are for, beside those of policies drawn at random.
KILLS = {"/bin/kill,", "/usr/bin/lprm,"}
CATS = {"/bin/cat,", "/bin/cat,/var/log/messages"}
WHO = {"/bin/who,", "/bin/who,am i"}
DD = {"/bin/dd,if=/dev/zero", "/bin/dd,if=/dev/null"}
MORE = KILLS | CATS | WHO | DD | {"/usr/bin/id,-u", "/usr/bin/X11/xterm,", "/usr/bin/,"}
WORDS = {
    "Cmnd": {
        "ALL": listing.COMMANDS | MORE,
        "/bin/kill": {"/bin/kill,"},
        "/usr/bin/lprm": {"/usr/bin/lprm,"},
        "/usr/bin/": {"/usr/bin/lprm,", "/usr/bin/id,", "/usr/bin/id,-u"},
        "/bin/cat *": {"/bin/cat,/var/log/messages"},
        '/bin/who ""': {"/bin/who,"},
        "/bin/dd if=/dev/zero": {"/bin/dd,if=/dev/zero"},
        "/bin/*": {*listing.LS, *listing.SU, *CATS, *WHO, *DD, "/bin/id,", "/bin/kill,"},
        "/bin/id": {"/bin/id,"},
    },
    "Host": {"web2": {"web2"}, "10.1.0.0/255.255.0.0": {"web1"}, "10.1.2.3": {"web1"}},
}


@needs_program
class Verdicts(Drawn):
    """Verdicts on policies drawn at random."""

    def test_policies_drawn_at_random(self) -> None:
        seen: Counter[str] = Counter()
        for seed in range(300):
            draw = listing.Draw(seed)
            requests = [draw.request() for _ in range(100)]
            verdicts = [listing.verdict(draw.policy, asked) for asked in requests]
            wanted = ["sender,number,verdict,line,tags", *(f"s,{number},{it}" for number, it in enumerate(verdicts, 1))]
            with self.subTest(seed=seed, policy=str(draw.policy)):
                self.assertEqual(self.report(PROGRAM, "audit", str(draw.policy), requests), wanted)
            seen.update(it.partition(",")[0] for it in verdicts)
        words = {"allow", "deny", "nomatch", "unknown-user", "unknown-host", "unknown-target", "unknown-group"}
        self.assertEqual(set(seen), words)
        self.assertGreater(min(seen.values()), 500, seen)

    def test_worked_rows(self) -> None:
        with open(os.path.join(TESTS, "runs", "worked.toml"), "rb") as file:
            cases = tomllib.load(file)["cases"]
        patches = [mock.patch.dict(listing.FITS[kind], words) for kind, words in WORDS.items()]
        for patch in patches:
            self.enterContext(patch)
        for case in cases:
            for policy_and_row, answer in case["verdicts"].items():
                text, _, row = policy_and_row.partition(" | ")
                policy = listing.read_policy(text.replace(";", "\n"))
                asked = listing.Request(*row.split(",", 4))
                with self.subTest(policy_and_row):
                    self.assertEqual(listing.verdict(policy, asked), answer)
                    self.assertEqual(self.report(PROGRAM, "audit", str(policy), [asked])[1:], [f"s,1,{answer}"])


if __name__ == "__main__":
    unittest.main()
