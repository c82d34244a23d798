"""Runs of the programs on policies and requests that are drawn at random."""

import csv
import io
import os
import re
import subprocess
from collections.abc import Iterable, Sequence

import listing
from support import REQUESTS_HEADER, REVIEW, Case

# The line of `sudo_review` that counts cautions, if there is one.
NOTICE = re.compile(r"(?:sudo_review: [1-9][0-9]* cautions \(([a-z, -]+)\)\n)?")
# Those of a comparison of two policies, named `old` and `new`.
NOTICES = re.compile("".join(rf"(?:sudo_review: {name}: [1-9][0-9]* cautions \([a-z, -]+\)\n)?" for name in ("old", "new")))


def requests_file(requests: Iterable[listing.Request]) -> str:
    """Returns a requests file with these requests and its close row."""
    out = io.StringIO(newline="")
    writer = csv.writer(out, lineterminator="\n")
    number = 0
    for number, asked in enumerate(requests, 1):
        command, _, arguments = asked.command.partition(",")
        writer.writerow([number, *asked[:-1], command, arguments])
    return f"{REQUESTS_HEADER}{out.getvalue()}close,{number},,,,,\n"


class Drawn(Case):
    """A test whose folder has the users and the hosts of drawn policies."""

    def setUp(self) -> None:
        super().setUp()
        self.write("users", listing.USERS)
        self.write("hosts", listing.HOSTS)

    def printed(self, program: str, command: str, *words: str) -> str:
        """Returns what a command prints on the policy `p`, with the users and the hosts. Fails where it does not end well."""
        line = [program, command, "p", "--users", "users", "--hosts", "hosts", *words]
        done = subprocess.run(line, cwd=self.folder, capture_output=True, check=False, timeout=60)
        self.assertEqual((done.returncode, NOTICE.sub("", os.fsdecode(done.stderr), count=1)), (0, ""))
        return os.fsdecode(done.stdout)

    def report(self, program: str, command: str, policy: str, requests: Iterable[listing.Request]) -> list[str]:
        """Returns the lines of a command's report on requests under a policy."""
        self.write("p", policy)
        self.write("requests", requests_file(requests))
        return self.printed(program, command, "s=requests").splitlines()

    def comparison(self, old: str, new: str, header: Sequence[str], *words: str) -> list[list[str]]:
        """Returns the rows of a comparison of two policies. Fails where its header is another one, or its status or its notices
        are none of a comparison."""
        self.write("old", old)
        self.write("new", new)
        line = [REVIEW, "compare", "old", "new", "--users", "users", "--hosts", "hosts", *words]
        done = subprocess.run(line, cwd=self.folder, capture_output=True, check=False, timeout=60)
        self.assertEqual(NOTICES.sub("", os.fsdecode(done.stderr), count=1), "")
        printed, *rows = csv.reader(io.StringIO(os.fsdecode(done.stdout), newline=""))
        self.assertEqual((tuple(printed), done.returncode), (tuple(header), 5 if rows else 0))
        return rows


class NotedCase(Drawn):
    """A test whose folder has the users and the host of policies with notes."""

    def setUp(self) -> None:
        super().setUp()
        self.write("users", "user,uid,groups\nroot,0,staff:50\nann,1001,staff:50\nbob,1002,staff:50\n")
        self.write("hosts", "host,interfaces\nweb1,\n")
