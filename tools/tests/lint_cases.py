"""Policies, what `sudo_audit check case` says of each, and the physical place where a reader finds it.

The answers are those of the program, recorded. The places were counted by hand.
"""

from dataclasses import dataclass


@dataclass(frozen=True)
class Case:
    """A policy, what the program says of it, and the physical places of what it says."""

    policy: bytes
    answer: str
    places: tuple[tuple[int, int | None], ...] = ()
    status: int = 1

    @property
    def output(self) -> str:
        """Returns what stands on standard output."""
        return "" if self.answer.startswith("sudo_audit: ") else self.answer

    @property
    def complaint(self) -> str:
        """Returns what stands on standard error."""
        return self.answer if self.answer.startswith("sudo_audit: ") else ""


def fault(policy: bytes, text: str, line: int, column: int | None) -> Case:
    """Returns the case of a policy that has one fault, at a physical place."""
    return Case(policy, f"sudo_audit: case:{text}\n", ((line, column),))


CASES = {
    "ok": Case(b"alice ALL = ALL\n", "ok\n", status=0),
    "a comment line comes before": fault(
        b"# one\nalice ALL = /bin/ls, \\\n    /bin/cat, \\\n\tbin/su\n", "2:32: not a command", 4, 2),
    "joined twice": fault(
        b"alice ALL = /bin/ls, \\\n  /bin/cat, \\\n  , /bin/su\n", "1:32: syntax error, expected command", 3, 3),
    "indented": fault(b"   alice = ALL\n", "1:7: syntax error, expected member", 1, 10),
    "lines that end in CRLF": fault(b"alice ALL = /bin/ls, \\\r\n    ls\r\n", "1:22: not a command", 2, 5),
    "cut short": fault(b"alice ALL = /bin/ls, \\\n  /bin/cat \\", "1:31: bad escape", 2, 12),
    "cut short, with a newline": fault(b"alice ALL = /bin/ls, \\\n  /bin/cat \\\n", "1:31: bad escape", 2, 12),
    "an empty line is joined": fault(
        b"alice ALL = /bin/ls,\\\n\nbob ALL = ALL\n", "1:21: syntax error, expected command", 2, 1),
    "nothing but joins": fault(b"alice ALL = \\\n\\\n  \\\n   ls\n", "1:13: not a command", 4, 4),
    "a comment is joined": fault(b"alice ALL = /bin/ls # x \\\n  y\n", "1:21: bad escape", 1, 21),
    "a comment line is not joined": fault(b"# a \\\nalice ALL = ls\n", "2:13: not a command", 2, 13),
    "a user ID begins the line": fault(b"#1000 ALL = \\\n ls\n", "1:13: not a command", 2, 2),
    "a comment in a joined line": fault(
        b"alice ALL = /bin/ls, \\\n# hello\n", "1:29: syntax error, expected command", 2, 8),
    "a comment in a joined line goes on": fault(
        b"alice ALL = /bin/ls, \\\n# hello \\\n/bin/cat, ls\n", "1:22: bad escape", 2, 1),
    "letters of two bytes": fault(
        "älice ALL = /bin/ls, \\\n   /bin/größe, ls\n".encode(), "1:37: not a command", 2, 16),
    "Latin-1": fault(b"# \xe4\n\xe4lice ALL = ls\n", "2:13: not a command", 2, 13),
    "wide letters": fault("漢字 ALL = /bin/ls, ls\n".encode(), "1:23: not a command", 1, 19),
    "a combining letter": fault("e\u0301va ALL = ls\n".encode(), "1:13: not a command", 1, 12),
    "an open quote over a join": fault(b'alice ALL = "/bin/x \\\n  y\n', "1:13: bad quote", 1, 13),
    "a bad escape": fault(b"a\\xg0 ALL = ALL\n", "1:2: bad hexadecimal", 1, 2),
    "a control byte": fault(b"alice ALL = \\\n  /bin/\x1b[31mls\n", "1:18: not printable", 2, 8),
    "two carriage returns": fault(b"alice ALL = /bin/ls,\\\r\r\n ls\n", "1:22: not printable", 1, 22),
    "an escaped backslash before a join": fault(b"alice ALL = /bin/ls\\\\\\\n, ls\n", "1:24: not a command", 2, 3),
    "a bad mask": fault(b"alice 10.0.0.0/33 = ALL\n", "1:7: bad number", 1, 7),
    "the end of the line": fault(b"alice ALL = /bin/ls,\n", "1:21: syntax error, expected command", 1, 21),
    "blanks at the end": fault(b"alice\tALL =\t   \n", "1:16: syntax error, expected command", 1, 16),
    "a netgroup": fault(b"# x\n\n+ops ALL = ALL\n", "3: unsupported netgroup", 3, None),
    "a missing file": fault(b"alice ALL = ALL\n@include gone\n", "2: missing gone", 2, None),
    "a missing file over a join": fault(b"#include \\\n  gone\n", "1: missing gone", 1, None),
    "findings": Case(
        b"Cmnd_Alias A = B\nalice NET = \\\n  A\nHost_Alias W = web1\n",
        "case:1: error: undefined Cmnd_Alias B\ncase:2: error: undefined Host_Alias NET\n"
        "case:4: warning: unused Host_Alias W\n", ((1, None), (2, None), (4, None))),
    "a warning": Case(
        b"alice ALL = ALL\nHost_Alias W = web1\n", "case:2: warning: unused Host_Alias W\nok\n", ((2, None),), 0),
}
