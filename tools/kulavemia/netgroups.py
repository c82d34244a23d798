"""Netgroups: which ones a policy may name, and their triples on this machine, as `sudo_review` takes them."""

import contextlib
import os
import re
import signal
import subprocess
import threading
from collections.abc import Iterable, Iterator, Sequence
from typing import IO, NamedTuple, cast

from kulavemia import foreign, hostname, limits
from kulavemia.command import FAILED, Fault, warn
from kulavemia.lines import is_comment
from kulavemia.policy import files_of, include_of
from kulavemia.rows import write_rows

NETGROUPS = "netgroups.csv"
HEADER = ("netgroup", "host", "user", "domain")
# What a field says in which no host and no user is meant.
NONE = "-"
# How long getent may take for a netgroup, and the most bytes that are read of what it prints.
SECONDS = 60.0
_CAP = 1 << 26
# The status of getent for a netgroup that it does not know.
_UNKNOWN = 2
_OWN_DOMAIN = "/proc/sys/kernel/domainname"

_BINDING = re.compile(rb"(?:Defaults[@>:]?)?")
# A word that begins with `%:`, the mark of a non-Unix group, is one with it.
_TOKEN = re.compile(rb'"((?:[^"\\]|\\.)*)"?|([=,:()])|((?:%:)?(?:[^ \t=,:()!"\\]|\\.)+)', re.DOTALL)
# The part of a word without quotes that is a name; a non-Unix group may be `%:#` and an ID.
_NAME = re.compile(rb"(?:%:#?)?[^#]*")
NON_UNIX = "%:"
_COMMENT = re.compile(rb"#(?![0-9-])")
_NO_NAME = re.compile(rb"[\x00-\x1f\x7f\\]")
_TRIPLE = re.compile(r"\(([^,\n]*),([^,\n]*),([^)\n]*)\) ?")
# What sudo takes for no domain.
_NO_DOMAIN = re.compile(r"[(), ]")
_HOST = re.compile(r"(?=.*[A-Za-z])[A-Za-z0-9._-]+|-|")
_NO_USER = re.compile(r"[\x00-\x1f\x7f]")


class Triple(NamedTuple):
    """A triple of a netgroup, behind the name of the netgroup. An empty host, user or domain is any."""

    netgroup: str
    host: str
    user: str
    domain: str


def named_in(main: str) -> list[str]:
    """Returns the netgroups that a policy of this machine may name, with its included files, in their order.

    The non-Unix groups among them begin with `%:`. In include lines `%h` is this machine.
    """
    found: dict[bytes, None] = {}
    for lines in files_of(main, hostname.of_this_machine()).values():
        for line in lines:
            if not is_comment(line.text) and include_of(line) is None:
                found.update(dict.fromkeys(_named_by(line.text)))
    return [name.decode("utf-8", "surrogateescape") for name in found]


def _named_by(text: bytes) -> Iterator[bytes]:
    """Yields the netgroups that a line may name: its words that begin with a plus sign, but for arguments of a command.

    So are its non-Unix groups, the words that begin with `%:`.
    """
    is_command = False
    binding = _BINDING.match(text)
    for quoted, mark, word in _TOKEN.findall(text, binding.end() if binding else 0):
        if _COMMENT.match(word):
            return
        if is_command and mark in (b"", b"(", b")"):
            continue
        is_command = word.startswith(b"/")
        name = quoted or cast("re.Match[bytes]", _NAME.match(word)).group()
        mark = b"+" if name.startswith(b"+") else NON_UNIX.encode()
        if name.startswith(mark) and len(name) > len(mark) and not _NO_NAME.search(name):
            yield name.removeprefix(b"+")


def of_this_machine(names: Iterable[str]) -> list[Triple]:
    """Returns the triples of netgroups on this machine that sudo looks at here, one of nobody for a netgroup without any.

    Only a plugin of sudo knows non-Unix groups: a warning names each of them, and none has a triple.
    """
    domain = own_domain()
    found: list[Triple] = []
    for name in names:
        if _is_non_unix(name):
            continue
        triples = known(name)
        if triples is None:
            warn(f"netgroup {name}: this machine knows no such netgroup; it is written as one of nobody, as for sudo")
        found += _stated(name, triples or [], domain)
    return found


def _is_non_unix(name: str) -> bool:
    """Returns whether a name is that of a non-Unix group, with a warning: a row of nobody for it would hide its users."""
    if not name.startswith(NON_UNIX):
        return False
    warn(f"non-Unix group {name}: only a plugin of sudo knows it; it is not written, and sudo_review refuses it without a row")
    return True


def collected(folder: str, below: str) -> list[Triple] | None:
    """Returns the triples of what tools/collect gathered in a folder, as `of_this_machine` does, or `None` without any file."""
    path, place = (os.path.join(folder, name) for name in ("netgroup", "domain"))
    if not foreign.exists(path, below):
        return None
    domain = _domain_in(place, below)
    found: list[Triple] = []
    lines = _text(path, foreign.ACCOUNTS_CAP, below).removesuffix("\n")
    for number, line in enumerate(lines.split("\n") if lines else (), 1):
        name = line.partition(" (")[0].rstrip(" ")
        triples = triples_of(name, line + "\n") if name else None
        if triples is None:
            raise Fault(f"{path}:{number}: not a line of getent netgroup")
        if not _is_non_unix(name):
            found += _stated(name, triples, domain)
    return found


def _text(path: str, cap: int, below: str | None) -> str:
    return foreign.read(path, cap, below).decode("utf-8", "surrogateescape")


def merged(hosts: Iterable[tuple[str, Sequence[Triple] | None]]) -> list[Triple] | None:
    """Returns the triples of all hosts, or `None` if no host has any. Raises `Fault` if hosts differ in a netgroup."""
    found: dict[str, tuple[str, dict[Triple, None]]] = {}
    stated = [(folder, triples) for folder, triples in hosts if triples is not None]
    for folder, triples in stated:
        of_name: dict[str, dict[Triple, None]] = {}
        for triple in triples:
            of_name.setdefault(triple.netgroup, {})[triple] = None
        for name, own in of_name.items():
            first, others = found.setdefault(name, (folder, own))
            if own.keys() != others.keys():
                raise Fault(f"netgroup {name} of {first} and of {folder} differ; --each writes the files of each host apart")
    return [triple for _, triples in found.values() for triple in triples] if stated else None


def _stated(name: str, triples: Sequence[Triple], domain: str) -> list[Triple]:
    """Returns the triples of a netgroup that sudo looks at in a domain, or one of nobody."""
    return _of_domain(name, triples, domain) or [Triple(name, NONE, NONE, "")]


def _of_domain(name: str, triples: Sequence[Triple], domain: str) -> list[Triple]:
    """Returns the triples of a domain or of any, each once; where this machine has none, sudo looks at all."""
    found = [triple for triple in triples if not domain or triple.domain.lower() in ("", domain.lower())]
    if len(found) < len(triples):
        left = len(triples) - len(found)
        warn(f"netgroup {name}: {left} of {len(triples)} triples are left out, since they are of another domain than {domain}")
    for triple in found:
        _want_fit(triple)
    return list(dict.fromkeys(found))


def _want_fit(triple: Triple) -> None:
    """Raises `Fault` if a file of netgroups does not take a triple."""
    if not _HOST.fullmatch(triple.host):
        raise Fault(f"netgroup {triple.netgroup}: the host {triple.host} is no name that sudo_review takes")
    if _NO_USER.search(triple.user):
        raise Fault(f"netgroup {triple.netgroup}: the user {triple.user} is no name that sudo_review takes")


def own_domain() -> str:
    """Returns the NIS domain of this machine, empty if it has none that sudo takes for one."""
    return _domain_in(_OWN_DOMAIN)


def _domain_in(path: str, below: str | None = None) -> str:
    """Returns the domain that a file has, empty if it has none that sudo takes for one."""
    domain = _text(path, foreign.NAME_CAP, below).strip("\n") if foreign.exists(path, below) else ""
    return "" if _NO_DOMAIN.search(domain) else domain


def known(name: str) -> list[Triple] | None:
    """Returns the triples of a netgroup, its inner ones among them, or `None` if this machine does not know it."""
    status, text = _printed(name)
    if status == _UNKNOWN and not text:
        return None
    found = triples_of(name, text)
    if status != 0 or found is None:
        raise Fault(f"netgroup {name}: getent ended with status {status}, and its answer cannot be read", FAILED)
    return found


def triples_of(name: str, text: str) -> list[Triple] | None:
    """Returns the triples of what getent prints of a netgroup, or `None` if it prints something else."""
    if not (text.startswith(name) and text.endswith("\n")):
        return None
    rest = text[len(name) : -1].strip(" ")
    found, at = [], 0
    while match := _TRIPLE.match(rest, at):
        found.append(Triple(name, *(field.strip(" ") for field in match.groups())))
        at = match.end()
    return found if at == len(rest) else None


def _printed(name: str) -> tuple[int, str]:
    """Returns the status of getent and what it prints of a netgroup. Raises `Fault` at too much, or after too long."""
    # Behind `--` no name is an option.
    words = ["getent", "netgroup", "--", name]
    quiet = subprocess.DEVNULL
    try:
        running = subprocess.Popen(words, stdin=quiet, stdout=subprocess.PIPE, stderr=quiet, start_new_session=True)
    except FileNotFoundError:
        raise Fault("this machine has no command getent, which lists netgroups", FAILED) from None
    text = _read(running)
    if len(text) > _CAP:
        raise Fault(f"netgroup {name}: getent prints more than {_CAP} bytes")
    if running.returncode == -signal.SIGKILL:
        raise Fault(f"netgroup {name}: getent took more than {SECONDS:g} s", FAILED)
    return running.returncode, text.decode("utf-8", "surrogateescape")


def _read(running: subprocess.Popen[bytes]) -> bytes:
    """Returns what a command prints, up to one byte beyond the cap. It is killed there, and when its time is over."""
    timer = threading.Timer(SECONDS, _kill, (running,))
    timer.start()
    with running, cast(IO[bytes], running.stdout) as stream:
        try:
            text = stream.read(_CAP + 1)
            if len(text) <= _CAP:
                running.wait()
            return text
        finally:
            timer.cancel()
            _kill(running)


def _kill(running: subprocess.Popen[bytes]) -> None:
    """Kills a command that still runs, with what it has started."""
    if running.poll() is None:
        # It may end meanwhile.
        with contextlib.suppress(ProcessLookupError):
            os.killpg(running.pid, signal.SIGKILL)


def write(folder: str, triples: Sequence[Triple]) -> None:
    """Writes netgroups.csv into a folder."""
    if len(triples) > limits.ROWS:
        raise Fault(f"{len(triples)} triples of netgroups, and sudo_review takes {limits.ROWS}")
    write_rows(os.path.join(folder, NETGROUPS), HEADER, triples)
