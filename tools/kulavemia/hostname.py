"""The name of a host, which `%h` in the path of an include line stands for, up to its first dot."""

import argparse
import re
import socket

from kulavemia import limits

# The names that `sudo_review --hostname` takes.
_NAME = re.compile(r"[A-Za-z0-9_-]+(?:\.[A-Za-z0-9_-]+)*\.?")
NO_NAME = "is no name of a host: letters, digits, hyphens and underscores, in parts with one dot between two"


def is_name(text: str) -> bool:
    """Returns whether a text is a name that the program takes."""
    return len(text) <= limits.HOSTNAME_BYTES and _NAME.fullmatch(text) is not None


def short_name(name: str) -> str:
    """Returns a name up to its first dot."""
    return name.partition(".")[0]


def words_of_hostname(name: str) -> list[str]:
    """Returns the words of a command line of `sudo_review` that name the host; none without a name."""
    return [f"--hostname={name}"] if name else []


def of_this_machine() -> str:
    """Returns the name that sudo has of this machine, empty if the program does not take it."""
    name = socket.gethostname()
    return name if is_name(name) else ""


def add_hostname_option(words: argparse.ArgumentParser, more: str = "; sudo_review alone takes it, and is wanted") -> None:
    """Adds the option that names the host of the policy."""
    words.add_argument(
        "--hostname",
        type=_name,
        metavar="NAME",
        help=f"the host of the policy: %%h in its include lines is read as this name up to the first dot{more}",
    )


def _name(text: str) -> str:
    if not is_name(text):
        raise argparse.ArgumentTypeError(f"{text!r} {NO_NAME}")
    return text
