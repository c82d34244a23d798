"""The form of SARIF 2.1.0, written out by hand for the objects that tools/lint writes.

Each object has the members that it may have, those that it must have, and what each value is. A member that is not
listed is refused. `faults_of` also looks for what a form cannot say: rules that results name, and places.
"""

import re
from collections.abc import Callable
from typing import Any

LEVELS = ("none", "note", "warning", "error")
COLUMN_KINDS = ("utf16CodeUnits", "unicodeCodePoints")

# An object's name, the members that it must have, and its members, each with the name of what it is; a star is a list.
OBJECTS = {
    "log": ("version runs", {"$schema": "uri", "version": "version", "runs": "run*"}),
    "run": ("tool", {"tool": "tool", "columnKind": "columnKind", "invocations": "invocation*", "results": "result*"}),
    "tool": ("driver", {"driver": "toolComponent"}),
    "toolComponent": ("name", {"name": "text", "version": "text", "rules": "reportingDescriptor*"}),
    "reportingDescriptor": ("id", {"id": "text", "shortDescription": "multiformatMessageString"}),
    "multiformatMessageString": ("text", {"text": "text"}),
    "invocation": ("executionSuccessful", {"executionSuccessful": "truth", "exitCode": "integer"}),
    "result": (
        "message",
        {"ruleId": "text", "ruleIndex": "index", "level": "level", "message": "message", "locations": "location*"},
    ),
    "message": ("text", {"text": "text"}),
    "location": ("", {"physicalLocation": "physicalLocation"}),
    "physicalLocation": ("artifactLocation", {"artifactLocation": "artifactLocation", "region": "region"}),
    "artifactLocation": ("uri", {"uri": "uri", "uriBaseId": "text"}),
    "region": ("", {"startLine": "count", "startColumn": "count"}),
}

# A reference to a URI as RFC 3986 has it: letters that stand for themselves, and bytes by two hexadecimal digits.
URI = re.compile(r"(?P<scheme>[A-Za-z][A-Za-z0-9+.-]*:)?(?:[A-Za-z0-9._~!$&'()*+,;=:@/?#-]|%[0-9A-Fa-f]{2})*")


def is_integer(value: Any, least: int) -> bool:
    """Returns whether a value is a number without a fraction, and at least another."""
    return isinstance(value, int) and not isinstance(value, bool) and value >= least


def is_text(value: Any) -> bool:
    """Returns whether a value is a text of Unicode that is not empty."""
    return isinstance(value, str) and value != "" and not re.search("[\ud800-\udfff]", value)


def is_uri(value: Any) -> bool:
    """Returns whether a value is a URI, or a relative reference whose first part has no colon."""
    match = URI.fullmatch(value) if is_text(value) else None
    return match is not None and (match["scheme"] is not None or ":" not in value.partition("/")[0])


VALUES: dict[str, Callable[[Any], bool]] = {
    "text": is_text,
    "uri": is_uri,
    "version": lambda value: value in ("2.1.0",),
    "columnKind": lambda value: value in COLUMN_KINDS,
    "level": lambda value: value in LEVELS,
    "truth": lambda value: isinstance(value, bool),
    "integer": lambda value: is_integer(value, -(2**31)),
    "index": lambda value: is_integer(value, -1),
    "count": lambda value: is_integer(value, 1),
}


def form_faults(value: Any, kind: str, place: str = "") -> list[str]:
    """Returns where a value differs from the form of its kind."""
    if kind.endswith("*"):
        if not isinstance(value, list):
            return [f"{place}: no list"]
        return [fault for at, item in enumerate(value) for fault in form_faults(item, kind[:-1], f"{place}/{at}")]
    if kind in VALUES:
        return [] if VALUES[kind](value) else [f"{place}: no {kind}"]
    if not isinstance(value, dict):
        return [f"{place}: no object"]
    needed, members = OBJECTS[kind]
    found = [f"{place}: {name} is missing" for name in needed.split() if name not in value]
    found += [f"{place}: {name} is unknown" for name in value if name not in members]
    for name, item in value.items():
        if name in members:
            found += form_faults(item, members[name], f"{place}/{name}")
    return found


def place_faults(location: dict[str, Any]) -> list[str]:
    """Returns what the standard's text refuses of a place: a base for an absolute URI, or a column of no line."""
    where = location["physicalLocation"]
    artifact, region = where["artifactLocation"], where.get("region", {"startLine": 1})
    is_absolute = ":" in artifact["uri"].partition("/")[0] or artifact["uri"].startswith("/")
    found = [f"{artifact['uri']}: absolute, with a base"] if is_absolute and "uriBaseId" in artifact else []
    found += [f"{artifact['uri']}: a part is .."] if ".." in artifact["uri"].split("/") else []
    return found + ([] if "startLine" in region else [f"{artifact['uri']}: a region without a line"])


def faults_of(log: Any) -> list[str]:
    """Returns what is wrong with a log: its form, rules that stand twice, results of another rule, and places."""
    found = form_faults(log, "log")
    if found:
        return found
    for run in log["runs"]:
        rules = [rule["id"] for rule in run["tool"]["driver"].get("rules", [])]
        found += ["two rules have one id"] if len(set(rules)) < len(rules) else []
        for result in run.get("results", []):
            index = result.get("ruleIndex", -1)
            if index != -1 and rules[index : index + 1] != [result["ruleId"]]:
                found.append(f"rule {index} is not {result['ruleId']}")
            found += [fault for location in result.get("locations", []) for fault in place_faults(location)]
    return found
