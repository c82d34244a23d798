"""What tools/collect could not gather of a host, as the file `missing` beside the copies says."""

import itertools
import os
from collections.abc import Iterable, Iterator

from kulavemia import foreign
from kulavemia.command import Fault, line_of

NAME = "missing"
# What lines begin with that are about no rule, address or known user: those of logs, and of a user whom the host does not know.
_ASIDE = (*(f"/var/log/{name}" for name in ("auth.log", "secure", "sudo.log", "sudo/")), "the journal ", "user ")
SHOWN = 20
_WIDTH = 200


def warnings(folders: Iterable[str], below: str) -> list[str]:
    """Returns warnings of what these folders lack, the first of them alone where there are many."""
    found = [(folder, warning) for folder in folders for warning in _lines(folder, below)]
    further = {folder for folder, _ in found[SHOWN:]}
    more = [f"the file {NAME} of {len(further)} folders has further lines"] if further else []
    return [warning for _, warning in found[:SHOWN]] + more


def lines_of(folder: str, below: str) -> list[str]:
    """Returns the first lines of the file of a folder, and whether it has more, or why it cannot be read."""
    try:
        found = _read(folder, below)
    except (Fault, OSError) as error:
        return [line_of(error)]
    more = [f"the file {NAME} has further lines"] if len(found) > SHOWN else []
    return found[:SHOWN] + more


def may_hide_rules(lines: Iterable[str]) -> bool:
    """Returns whether rules, users or addresses may be among what such lines name."""
    return any(not line.startswith(_ASIDE) for line in lines)


def _lines(folder: str, below: str) -> Iterator[str]:
    """Yields the first lines of the file of a folder, or why it cannot be read."""
    path = os.path.join(folder, NAME)
    try:
        found = _read(folder, below)
    except (Fault, OSError) as error:
        yield line_of(error)
        return
    yield from (f"{path}: {line}" for line in found)


def _read(folder: str, below: str) -> list[str]:
    """Returns the first lines of the file of a folder, and one more where there is one."""
    path = os.path.join(folder, NAME)
    text = foreign.read(path, foreign.POLICY_CAP, below) if foreign.exists(path, below) else b""
    return [line[:_WIDTH] for line in itertools.islice(os.fsdecode(text).splitlines(), SHOWN + 1)]
