"""Entries of the journal, and whether sudo wrote them.

Fields whose names begin with `_` are the journal's own; every other field is what the sender wrote. `_UID` is that of sudo's
caller, so it is not looked at.
"""

from collections.abc import Collection, Mapping
from typing import Any

SUDO_PATHS = ("/usr/bin/sudo", "/usr/local/bin/sudo")
IDENTIFIERS = ("sudo", "sudoedit")
_SHOWN = 80


def forgery_of(fields: Mapping[str, Any], sudo_paths: Collection[str]) -> str:
    """Returns why an entry under sudo's name is not one of sudo's, empty if it is one.

    sudo logs by syslog(3) alone. Its output may be a stream of the journal, and has a prompt that the caller chooses.
    """
    program = fields.get("_EXE")
    if not isinstance(program, str):
        return "forged: the journal names no program"
    if program not in sudo_paths:
        return f"forged: written by {program[:_SHOWN]}"
    if fields.get("_TRANSPORT", "syslog") != "syslog":
        return "forged: output of sudo, not its log"
    return ""
