"""What an answer depends on that is not judged: kinds that the program's tables name, in a column `depends`.

So an answer that depends is what it may be at most, and it is not sure.
"""

from collections.abc import Iterable, Sequence

_OTHER = "other"
_KINDS = {
    "digest": "a digest",
    "time": "the time",
    "chroot": "another root folder",
    "regex": "a regular expression",
    _OTHER: "something unknown to these tools",
}


def kinds_of(depends: str) -> tuple[str, ...]:
    """Returns the kinds that a field of the column names, and another one where it names what is not known."""
    return all_of([depends])


def all_of(fields: Iterable[str]) -> tuple[str, ...]:
    """Returns the kinds that some fields of the column name, each once."""
    found = {kind if kind in _KINDS else _OTHER for depends in fields for kind in depends.split()}
    return tuple(kind for kind in _KINDS if kind in found)


def told(kinds: Sequence[str]) -> str:
    """Returns kinds in words, as a sentence lists them."""
    words = [_KINDS[kind] for kind in kinds]
    return words[0] if len(words) == 1 else f"{', '.join(words[:-1])} and {words[-1]}" if words else ""
