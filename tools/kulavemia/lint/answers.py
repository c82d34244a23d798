"""The answer of `check` on a file, of `sudo_audit` or `sudo_review`, read back from its output and its exit status."""

import os
import re
import subprocess
from collections.abc import Sequence
from dataclasses import dataclass, replace

from kulavemia import foreign, limits
from kulavemia.command import Fault, as_word
from kulavemia.effects import CLASSES
from kulavemia.program import NAME, REVIEW

ERROR, WARNING, NOTE = "error", "warning", "note"
CAUTION = "caution"
OK, REFUSED, FAILED = 0, 1, 4

# Each rule's name, and its subject.
RULES = {
    "syntax-error": "The line is no entry of a policy from this place on.",
    "not-a-command": "A command is an absolute path, sudoedit, ALL or an alias.",
    "bad-number": "A user or group ID, an address or a network is out of range.",
    "bad-quote": "A double quote is not closed.",
    "bad-hexadecimal": "Two hexadecimal digits follow \\x.",
    "bad-escape": "A backslash has nothing to escape or to join.",
    "not-printable": "A control byte stands outside a comment.",
    "text-too-long": f"A policy file has at most {limits.POLICY_BYTES:,} bytes.",
    "too-many-aliases": f"A kind has at most {limits.ALIASES:,} definitions of aliases.",
    "unsupported": "This form of sudoers is recognised and not supported.",
    "includes-too-deep": f"Includes nest at most {limits.INCLUDE_DEPTH} deep.",
    "too-many-files": f"A policy includes at most {limits.POLICY_FILES:,} files and {limits.POLICY_FILES:,} folders.",
    "missing-file": "An included file is missing.",
    "cannot-read": "A file or folder cannot be read.",
    "redefined": "An alias is defined twice.",
    "undefined": "An alias is used and not defined.",
    "cycle": "An alias stands for itself.",
    "too-deep": f"Aliases nest at most {limits.ALIAS_DEPTH} deep.",
    "too-wide": f"An alias written out has at most {limits.ALIAS_WIDTH:,} members.",
    "unused": "An alias is defined and not used.",
    "passed-over": "A file of a folder that sudo passes over, so it is not in force.",
    "leads-out": "A link or an include leads out of the folders that are named, and is not followed.",
    "no-answer": "The program gave no answer that can be read.",
    CAUTION: "sudo reads or judges this construct otherwise.",
    **{f"{CAUTION}-{name}": f"sudo reads or judges a construct of the class {name} otherwise." for name in CLASSES},
    f"{CAUTION}-depends": "For sudo a digest, the time or another root decides too, which is not judged.",
}

COLUMN_TEXT = re.compile(
    r"(?P<path>.+):(?P<line>[0-9]+):(?P<column>[0-9]+): (?P<text>bad quote|bad hexadecimal|bad escape|not printable"
    r"|not a command|bad number"
    r"|syntax error, expected (?:alias name|=|member|command|\)|parameter|value|path|end of line))", re.DOTALL)
LINE_TEXT = re.compile(
    r"(?P<path>.+):(?P<line>[0-9]+): (?P<text>too many aliases|includes too deep|too many files"
    r"|unsupported (?:netgroup|digest|regular expression|non-Unix group|option|list|%h))", re.DOTALL)
MISSING_TEXT = re.compile(r"(?P<path>.+?):(?P<line>[0-9]+): (?P<text>missing .+)", re.DOTALL)
LENGTH_TEXT = re.compile(r"(?P<path>.+): (?P<text>text too long)", re.DOTALL)
READ_TEXT = re.compile(r"(?P<text>cannot read) (?P<path>.+)", re.DOTALL)
FAULT_TEXTS = (COLUMN_TEXT, LINE_TEXT, LENGTH_TEXT, READ_TEXT, MISSING_TEXT)
# The lines of a refusal; a path may have any text, but a hint is one line, the last.
COMPLAINT = re.compile(rf"(?P<program>{NAME}|{REVIEW}): (?P<text>.*?)(?:\n{REVIEW}: hint: [^\n]*)?\n?", re.DOTALL)

FINDING = re.compile(
    r"(?P<path>[^\n].*?):(?P<line>[0-9]+): (?P<severity>error|warning): (?P<text>"
    r"(?P<rule>redefined|undefined|cycle|too deep|too wide|unused)"
    r" (?:User|Runas|Host|Cmnd)_Alias [A-Z][A-Z0-9_]*)\n", re.DOTALL)


@dataclass(frozen=True)
class Finding:
    """One thing that a program says of a policy, with its place as the program names it."""

    path: str
    line: int | None
    column: int | None
    severity: str
    rule: str
    text: str
    program: str = NAME


@dataclass(frozen=True)
class Report:
    """The result for one file or folder: its path, the exit status that it calls for, and the findings."""

    path: str
    status: int
    findings: tuple[Finding, ...]
    is_folder: bool = False


def number(text: str | None) -> int | None:
    """Returns the number that a group of an expression holds, or None."""
    return None if text is None else int(text)


def rule_of(text: str) -> str:
    """Returns the name of the rule for a fault's text."""
    word = text.split(",")[0].replace(" ", "-")
    if word in RULES:
        return word
    return "missing-file" if text.startswith("missing ") else "unsupported"


def fault_of(text: str, program: str = NAME) -> Finding | None:
    """Returns the finding of a fault's line without the program before it, or None where it is no line that is known."""
    for form in FAULT_TEXTS:
        match = form.fullmatch(text)
        if match:
            parts = match.groupdict()
            return Finding(parts["path"], number(parts.get("line")), number(parts.get("column")), ERROR,
                           rule_of(parts["text"]), parts["text"], program)
    return None


def findings_of(text: str) -> tuple[list[Finding], str]:
    """Returns the findings that standard output holds, and what is left of it."""
    found, at = [], 0
    while match := FINDING.match(text, at):
        found.append(Finding(match["path"], int(match["line"]), None, match["severity"],
                             match["rule"].replace(" ", "-"), match["text"]))
        at = match.end()
    return found, text[at:]


def no_answer(path: str, words: str) -> Report:
    """Returns the report of a file of which the program gave no answer."""
    return Report(path, FAILED, (Finding(path, None, None, ERROR, "no-answer", words),))


def fault_report(path: str, status: int, complaint: str) -> Report:
    """Returns the report of a run that printed nothing but a fault."""
    match = COMPLAINT.fullmatch(complaint)
    fault = fault_of(match["text"], match["program"]) if match else None
    if fault is None or status not in (REFUSED, FAILED):
        said = complaint.removesuffix("\n")
        return no_answer(path, f"status {status}: {said}")
    return Report(path, status, (fault,))


def report_of(path: str, status: int, output: str, complaint: str) -> Report:
    """Returns the report of a run of `check`: what it printed is all read, or there is no answer."""
    if output == "" and complaint != "":
        return fault_report(path, status, complaint)
    found, rest = findings_of(output)
    errors = any(finding.severity == ERROR for finding in found)
    wanted = (REFUSED, "") if errors else (OK, "ok\n")
    if (status, rest) != wanted or complaint != "":
        return no_answer(path, f"status {status}: {rest or complaint}".rstrip())
    return Report(path, status, tuple(found))


def check(program: str, path: str, options: Sequence[str] = ()) -> Report:
    """Returns the report of `check` on a file, with these options."""
    word = as_word(path)
    try:
        _want_file(word)
        words = [program, "check", *options, "--", word]
        done = subprocess.run(words, stdin=subprocess.DEVNULL, capture_output=True, check=False)
    except (Fault, OSError, ValueError) as error:
        return no_answer(word, str(error))
    return report_of(word, done.returncode, os.fsdecode(done.stdout), os.fsdecode(done.stderr))


def check_by_both(program: str, review: str, path: str, options: Sequence[str] = ()) -> Report:
    """Returns the report of `check` on a file: of the second program, if it is there and reads further than the first one.

    The options are for the second one.
    """
    found = check(program, path)
    if not review or found.status != REFUSED:
        return found
    other = check(review, path, options)
    return found if other.status == FAILED or _is_same(found, other) else other


def _is_same(one: Report, other: Report) -> bool:
    """Returns whether two programs say the same of a file."""
    return one == replace(other, findings=tuple(replace(finding, program=NAME) for finding in other.findings))


def _want_file(path: str) -> None:
    """Raises `Fault` at a FIFO, a device or a socket, for which the program would wait, or which it would read long."""
    if os.path.exists(path) and not os.path.isdir(path) and not os.path.isfile(path):
        foreign.want_plain(path, foreign.POLICY_CAP)
