"""Reports as text with pictures of places, as JSON, as SARIF 2.1.0 and as commands of GitHub's workflows."""

import json
import os
import unicodedata
import urllib.parse
from dataclasses import dataclass
from typing import Any

from kulavemia.lint.answers import FAILED, OK, REFUSED, RULES, Report
from kulavemia.lint.places import Located, located
from kulavemia.text import visible, visible_character

ENDINGS = {OK: "ok", REFUSED: "refused", FAILED: "not checked"}
SARIF_SCHEMA = "https://docs.oasis-open.org/sarif/sarif/v2.1.0/errata01/os/schemas/sarif-schema-2.1.0.json"
GUTTER = " | "
WINDOW = 100
GITHUB_COMMANDS = {"error": "error", "warning": "warning", "note": "notice"}


@dataclass(frozen=True)
class Context:
    """The data that a format needs beside the reports: the version, the exit status, and the folder of the run."""

    version: str
    status: int
    folder: str


def width(character: str) -> int:
    """Returns how many columns of a terminal a character takes."""
    if unicodedata.combining(character) or unicodedata.category(character) == "Me":
        return 0
    return 2 if unicodedata.east_asian_width(character) in "WF" else 1


def under(character: str) -> str:
    """Returns blanks as wide as a character is printed."""
    if character == "\t":
        return "\t"
    return " " * sum(map(width, visible_character(character)))


def picture(source: bytes, line: int, column: int | None) -> list[str]:
    """Returns the lines of a picture: a source line with its number, and a caret under its column, if there is one."""
    characters = source.decode("utf-8", "surrogateescape").removesuffix("\r")
    start = max(0, (column or 1) - 1 - WINDOW)
    end = start + 2 * WINDOW
    drawn = "".join(c if c == "\t" else visible_character(c) for c in characters[start:end])
    before = "..." if start else ""
    after = "..." if end < len(characters) else ""
    number = f"{line:>5}"
    lines = [f"{number}{GUTTER}{before}{drawn}{after}"]
    if column is not None:
        blanks = " " * len(before) + "".join(map(under, characters[start:column - 1]))
        lines.append(f"{' ' * len(number)}{GUTTER}{blanks}^")
    return lines


def place_text(path: str, line: int | None, column: int | None) -> str:
    """Returns `PATH:LINE:COLUMN`, as far as there is one."""
    return ":".join([visible(path)] + [str(part) for part in (line, column) if part is not None])


def text_lines(item: Located) -> list[str]:
    """Returns the lines of a finding as text: what it is, a picture of the place, and the program's own place."""
    finding = item.finding
    lines = [f"{place_text(finding.path, item.line, item.column)}: {finding.severity}: {visible(item.message)}"]
    if item.place:
        lines += picture(item.place.source, item.place.line, item.place.column)
    if item.is_moved:
        place = place_text(finding.path, finding.line, finding.column)
        lines.append(f"      = {finding.program}: {place}: {visible(finding.text)}")
    return lines


def as_text(reports: list[Report], _context: Context) -> str:
    """Returns reports as text, each file's findings and then a line of what came of it."""
    lines = []
    for report in reports:
        for finding in report.findings:
            lines += text_lines(located(finding))
        if not report.is_folder or report.status != OK:
            lines.append(f"{visible(report.path)}: {ENDINGS[report.status]}")
    return "".join(line + "\n" for line in lines)


def plain(text: str) -> str:
    """Returns a text that is Unicode: a byte that is none becomes an escape."""
    return text.encode("utf-8", "surrogateescape").decode("utf-8", "backslashreplace")


def json_finding(item: Located) -> dict[str, Any]:
    """Returns a finding as a value of JSON."""
    finding = item.finding
    return {
        "path": plain(finding.path), "line": item.line, "column": item.column, "severity": finding.severity,
        "rule": finding.rule, "message": plain(item.message),
        "logical_line": finding.line, "logical_column": finding.column,
    }


def as_json(reports: list[Report], context: Context) -> str:
    """Returns reports as one value of JSON."""
    files = [{
        "path": plain(report.path), "status": report.status, "ok": report.status == OK,
        "findings": [json_finding(located(finding)) for finding in report.findings],
    } for report in reports]
    whole = {"format": 1, "version": context.version, "status": context.status, "files": files}
    return json.dumps(whole, indent=2) + "\n"


def distinct(reports: list[Report]) -> list[Located]:
    """Returns the findings of all reports with their places, each once: a file may be included by several."""
    return [located(finding) for finding in dict.fromkeys(f for report in reports for f in report.findings)]


def below(path: str, folder: str) -> str:
    """Returns a path relative to the folder where it lies in it, or else the absolute path."""
    whole = os.path.normpath(os.path.join(folder, path))
    return os.path.relpath(whole, folder) if whole.startswith(folder.rstrip("/") + "/") else whole


def artifact(path: str, folder: str) -> dict[str, Any]:
    """Returns the place of a file for SARIF: relative to the folder of the run, or a file URI."""
    near = below(path, folder)
    if near.startswith("/"):
        return {"uri": "file://" + urllib.parse.quote(os.fsencode(near))}
    return {"uri": urllib.parse.quote(os.fsencode(near)), "uriBaseId": "%SRCROOT%"}


def sarif_result(item: Located, folder: str) -> dict[str, Any]:
    """Returns a finding as a result of SARIF."""
    finding = item.finding
    place: dict[str, Any] = {"artifactLocation": artifact(finding.path, folder)}
    if item.line is not None:
        place["region"] = {"startLine": item.line}
        if item.column is not None:
            place["region"]["startColumn"] = item.column
    return {
        "ruleId": finding.rule, "ruleIndex": list(RULES).index(finding.rule), "level": finding.severity,
        "message": {"text": plain(item.message)}, "locations": [{"physicalLocation": place}],
    }


def as_sarif(reports: list[Report], context: Context) -> str:
    """Returns reports as a log of SARIF 2.1.0."""
    rules = [{"id": rule, "shortDescription": {"text": text}} for rule, text in RULES.items()]
    driver = {"name": "kulavemia-lint", "version": context.version, "rules": rules}
    run = {
        "tool": {"driver": driver}, "columnKind": "unicodeCodePoints",
        "invocations": [{"executionSuccessful": context.status != FAILED, "exitCode": context.status}],
        "results": [sarif_result(item, context.folder) for item in distinct(reports)],
    }
    return json.dumps({"$schema": SARIF_SCHEMA, "version": "2.1.0", "runs": [run]}, indent=2) + "\n"


def github_text(text: str) -> str:
    """Returns a text as the message of a workflow command."""
    return plain(text).replace("%", "%25").replace("\r", "%0D").replace("\n", "%0A")


def github_property(text: str) -> str:
    """Returns a text as a property of a workflow command."""
    return github_text(text).replace(":", "%3A").replace(",", "%2C")


def github_line(item: Located, folder: str) -> str:
    """Returns a finding as a workflow command."""
    finding = item.finding
    properties = {"file": below(finding.path, folder), "line": item.line, "col": item.column, "title": finding.rule}
    given = ",".join(f"{name}={github_property(str(value))}" for name, value in properties.items() if value is not None)
    return f"::{GITHUB_COMMANDS[finding.severity]} {given}::{github_text(item.message)}"


def as_github(reports: list[Report], context: Context) -> str:
    """Returns findings as commands that GitHub's workflows show beside the lines."""
    return "".join(github_line(item, context.folder) + "\n" for item in distinct(reports))


FORMATS = {"text": as_text, "json": as_json, "sarif": as_sarif, "github": as_github}
