"""Lines under sudo's name that gave no request, and what to say of them."""

from collections.abc import Mapping

from kulavemia.messages import ACCEPTED, FAILED, FORGED, REFUSED, UNREAD

_TAKEN = (ACCEPTED, REFUSED, FAILED, "lists")
MEANING = "an input is refused, or more lines under sudo's name were left out than read; what was read is written"


def is_most(counts: Mapping[str, int]) -> bool:
    """Returns whether more lines under sudo's name were left out than were taken."""
    return _left_out(counts) > _taken(counts)


def warnings(counts: Mapping[str, int]) -> list[str]:
    """Returns what to say of lines that were left out."""
    found = []
    if counts[FORGED]:
        found.append(
            f"{counts[FORGED]} entries of the journal are forged: sudo's program did not write them, as far as the"
            " journal knows, and skipped.csv names each; if sudo is at another path, name it by --sudo-path"
        )
    if is_most(counts):
        found.append(
            f"{_left_out(counts)} of {_left_out(counts) + _taken(counts)} lines under sudo's name are left out:"
            " skipped.csv says why; --host names the host of lines without one"
        )
    return found


def _taken(counts: Mapping[str, int]) -> int:
    return sum(counts[kind] for kind in _TAKEN)


def _left_out(counts: Mapping[str, int]) -> int:
    return counts[UNREAD] + counts[FORGED]
