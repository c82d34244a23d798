"""Runs of the programs in which each allocation is refused in turn, and of `dev/refusals`."""

import importlib.machinery
import importlib.util
import os
import shutil
import subprocess
import unittest

from support import DEV, PROGRAM, REVIEW, Case, needs_program, needs_review

needs_compiler = unittest.skipUnless(shutil.which("cc"), "there is no C compiler")

_loader = importlib.machinery.SourceFileLoader("refusals", os.path.join(DEV, "refusals"))
_spec = importlib.util.spec_from_loader("refusals", _loader)
assert _spec is not None
refusals = importlib.util.module_from_spec(_spec)
_loader.exec_module(refusals)

USERS = """user,uid,groups
root,0,root:0
alice,1000,alice:1000 adm:4
bob,1001,bob:1001 operator:37
operator,11,operator:37
"""
HOSTS = """host,interfaces
web1.example.org,10.1.2.3/16 127.0.0.1/8
web2.example.org,10.2.0.9/16
"""
REQUESTS = """number,user,host,runas_user,runas_group,command,arguments
1,alice,web1.example.org,,,/bin/kill,-9 7
2,carol,web1.example.org,,,/bin/kill,
close,2,,,,,
"""
TAGS = "alice web1 = NOPASSWD: /bin/kill, /usr/bin/lprm, PASSWD: /bin/ls : web2 = /bin/kill\n"
CYCLES = "Cmnd_Alias A = B\nCmnd_Alias B = C\nCmnd_Alias C = A\nCmnd_Alias D = A\nHost_Alias WEB = web1\nalice NET = D\n"
SIGNS = "Cmnd_Alias SAFE = /bin/*, !/bin/su\nalice ALL = !SAFE\nCmnd_Alias Y = !SAFE\n"
AUDIT = "audit p --users users --hosts hosts --workers 1 s=requests"

# A policy, the words of a run, and how it ends where nothing is refused.
RUNS = {
    "a list of members": ("Cmnd_Alias A = /bin/ls, /bin/cat : B = /bin/su\n", "expand p cmnd A", 0),
    "an alias that is not there": ("Cmnd_Alias A = /bin/ls\n", "expand p cmnd Z", 1),
    "signs": (SIGNS, "expand p cmnd Y", 0),
    "quotes and escapes": ('User_Alias X = "%domain users", bo\\x62\n', "expand p user X", 0),
    "findings": (CYCLES, "check p", 1),
    "no finding": (TAGS, "check p", 0),
    "a syntax error": ("alice ALL = ALL,\n", "check p", 1),
    "includes": ("@include i\n@includedir d\nalice ALL = K\n", "check p", 0),
    "a missing include": ("@include i\n@include gone\n", "check p", 1),
    "an audit": (TAGS, AUDIT, 0),
    "a sender without a close row": (TAGS, AUDIT.replace("=requests", "=open"), 3),
    "an audit of errors": (CYCLES, AUDIT, 1),
    "a user twice": (TAGS, AUDIT.replace("users users", "users twice"), 3),
    "no root": (TAGS, AUDIT.replace("users users", "users rootless"), 3),
}
REPORT = AUDIT.replace("audit", "report")
RULES = AUDIT.replace("audit", "rules")
GRANTS = "grants p --users users --hosts hosts"
SUBJECTS = GRANTS.replace("grants", "subjects")
ROOTS = GRANTS.replace("grants", "roots")
COMPARE = GRANTS.replace("grants p", "compare i p")
CHANGES = f"{COMPARE} --requests s=requests"
STEPS = "%adm ALL = (ALL) ALL\noperator ALL = (: adm) ALL\nbob ALL = (operator) /opt/sh\n"
MANY = "Defaults targetpw\nAlice ALL = /bin/ls [^-]*\\\n-l, /bin/cat a\\ \n #include \\i\n"
MANY += '"al\\ice" web\\*, "web?", 0.0.0.0/0 = (:adm) SETENV: /opt/sudoedit, /opt/x [[.a.]], ALL\n'
MASKS = "alice ALL = (bob) CWD=/srv NOPASSWD: /opt/a, \\\n  list\nDefaults\\\n    insults\n"
OF_REVIEW = {
    "a check": (CYCLES, "check p", 1),
    "a check of masked lines": (MASKS, "check p", 0),
    "grants of masked lines": (MASKS, GRANTS, 0),
    "no caution": (TAGS.replace("bin", "opt"), "cautions p", 0),
    "cautions of many classes": (MANY, "cautions p", 5),
    "a fault before cautions": (MANY + "alice ALL = ALL,\n", "cautions p", 1),
    "a report": (TAGS.replace("bin", "opt"), REPORT, 0),
    "a report with cautions": (MANY + TAGS, REPORT, 0),
    "a report of errors": (CYCLES, REPORT, 1),
    "a report on a sender without a close row": (MANY + TAGS, REPORT.replace("=requests", "=open"), 3),
    "grants": (SIGNS + TAGS, GRANTS, 0),
    "grants with cautions": (MANY + TAGS, f"{GRANTS} --user alice --host web1.example.org", 0),
    "grants of errors": (CYCLES, GRANTS, 1),
    "grants of a user that is not known": (TAGS, f"{GRANTS} --user carol", 3),
    "roots": (STEPS, f"{ROOTS} --all", 0),
    "roots with cautions": (MANY + STEPS, ROOTS, 0),
    "roots of errors": (CYCLES, ROOTS, 1),
    "roots without a user root": (STEPS, ROOTS.replace("users users", "users rootless"), 3),
    "no subject": (TAGS.replace("bin", "opt"), SUBJECTS, 0),
    "subjects with cautions": (MANY + "User_Alias NONE = carol, !%adm\nNONE 10.9.0.0/16 = (dan : #9) ALL\n", SUBJECTS, 5),
    "subjects of errors": (CYCLES, SUBJECTS, 1),
    "subjects of a user twice": (TAGS, SUBJECTS.replace("users users", "users twice"), 3),
    "a comparison": (TAGS, COMPARE, 5),
    "a comparison with cautions": (MANY + "alice ALL = /opt/[a-z], (bob) NOPASSWD: /opt/b*\n", f"{COMPARE} --user alice", 5),
    "a comparison without a difference": ("Cmnd_Alias K = /bin/kill\n", COMPARE, 0),
    "a comparison with errors": (CYCLES, COMPARE, 1),
    "a comparison for a host that is not known": (TAGS, f"{COMPARE} --host db", 3),
    "a comparison by requests": (TAGS, CHANGES, 5),
    "a comparison by requests with cautions": (MANY + "alice ALL = NOPASSWD: NOEXEC: /bin/kill -9*\n", CHANGES, 5),
    "a comparison by requests without a difference": ("alice ALL = /bin/ls\n", CHANGES, 0),
    "a comparison by requests with errors": (CYCLES, CHANGES, 1),
    "a comparison by requests of a sender without a close row": (TAGS, CHANGES.replace("=requests", "=open"), 3),
    "rules": (SIGNS + TAGS.replace("bin", "opt"), RULES, 0),
    "rules with cautions": (MANY + TAGS, RULES, 0),
    "rules of errors": (CYCLES, RULES, 1),
    "rules on a sender without a close row": (TAGS, RULES.replace("=requests", "=open"), 3),
}
FILES = {
    "users": USERS,
    "hosts": HOSTS,
    "requests": REQUESTS,
    "open": REQUESTS.replace("close,2,,,,,\n", ""),
    "twice": USERS + "alice,1,alice:1000\n",
    "rootless": USERS.replace("root,0,root:0\n", ""),
    "i": "Cmnd_Alias K = /bin/kill\n",
    "d/a": "alice ALL = /bin/ls\n",
    "d/b": "# two\nalice ALL = !/bin/ls, /bin/cat\n",
}


@needs_compiler
class Refusals(Case):
    """Allocations that are refused one by one."""

    def setUp(self) -> None:
        super().setUp()
        self.library = refusals.built_shim(self.folder)

    def sweep(self, program: str, name: str, runs: dict[str, tuple[str, str, int]]) -> None:
        """Refuses each allocation of each of the runs of a program in turn."""
        for path, text in FILES.items():
            self.write(path, text)
        for title, (policy, words, status) in runs.items():
            self.write("p", policy)
            with self.subTest(title):
                run = [program, *words.split()]
                self.assertEqual(refusals.tried(run, self.library, 0, self.folder).ended.status, status)
                found = refusals.swept(run, self.library, folder=self.folder, name=name)
                self.assertEqual(found.wrong, [])
                self.assertGreater(found.counts[refusals.MEMORY], 10)

    @needs_program
    def test_each_allocation_of_each_run(self) -> None:
        self.sweep(PROGRAM, "sudo_audit", RUNS)

    @needs_review
    def test_each_allocation_of_each_run_of_the_second_program(self) -> None:
        self.sweep(REVIEW, "sudo_review", OF_REVIEW)

    @needs_program
    def test_a_refused_start_of_a_thread(self) -> None:
        for name, text in {**FILES, "p": TAGS}.items():
            self.write(name, text)
        run = [PROGRAM, *AUDIT.replace("--workers 1", "--workers 16").split()]
        found = refusals.swept(run, self.library, folder=self.folder)
        self.assertEqual(found.wrong, [])

    def program(self, code: str) -> str:
        """Returns the path of a C program that runs this code."""
        path = self.path("sudo_audit")
        source = self.write("main.c", "#include <stdio.h>\n#include <stdlib.h>\n" + code)
        subprocess.run(["cc", "-o", path, source], check=True)
        return path

    def test_a_run_that_ends_otherwise(self) -> None:
        code = "int main(void) { void *volatile a = malloc(1), *volatile b = malloc(1);"
        code += ' if (!a) { fputs("sudo_audit: out of memory\\n", stderr); return 4; } return b ? 0 : 1; }'
        out = self.run_dev("refusals", "--program", self.program(code), "--", "check", "p", status=1)[0]
        self.assertEqual(out.splitlines()[0], "2: status 1: ")
        self.assertEqual(out.splitlines()[-1], "| 0 | 1 | 0 | 1 | 3 |")
        other = self.program(code.replace("sudo_audit", "sudo_review"))
        out = self.run_dev("refusals", "--of", "sudo_review", "--program", other, "--", "cautions", "p", status=1)[0]
        self.assertEqual(out.splitlines()[-1], "| 0 | 1 | 0 | 1 | 3 |")

    def test_from_a_number_on(self) -> None:
        code = "int main(void) { for (int at = 0; at < 5; at++) { void *volatile block = malloc(1); free(block); } return 0; }"
        program = self.program(code)
        out = self.run_dev("refusals", "--program", program, "--", "check", "p")[0]
        self.assertEqual(out.splitlines()[-1], "| 5 | 0 | 0 | 0 | 6 |")
        out = self.run_dev("refusals", "--first", "4", "--program", program, "--", "check", "p")[0]
        self.assertEqual(out.splitlines()[-1], "| 2 | 0 | 0 | 0 | 6 |")

    def test_words(self) -> None:
        self.run_dev("refusals", status=2)
        self.run_dev("refusals", "--first", "0", "--", "check", "p", status=2)
        err = self.run_dev("refusals", "--program", self.path("none"), "--", "check", "p", status=5)[1]
        self.assertIn("none: no program", err)


if __name__ == "__main__":
    unittest.main()
