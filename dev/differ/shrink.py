"""Makes what differs small: delta debugging."""

import re
from collections.abc import Callable, Sequence

from differ.ask import Case

MOST_TRIES = 1500
CUTS = (r".*\n|.+", r"\\?\s+|\w+|.", r".|\n")
# Entries, members with the comma behind or before them, the runas and the tags of commands, and entries that no other uses now.
ENTRY = r"(?:[^\n]*\\[ \t]*\r?\n)*[^\n]*\n|.+"
ENTRIES_AND_MEMBERS = (
    ENTRY,
    r"[^,]*,\s*|[^,]+",
    r"[^,\s:=()!]+,\s*|[^,\s:=()!]+|[,\s:=()!]+",
    r",\s*[^,\s:=()]+|,|[^,]+",
    r",[^,\n:=()]*|[^,]+",
    r"\([^()\n]*\)[ \t]*|[A-Z_]+[ \t]*:[ \t]*|[^(A-Z]+|.",
    ENTRY,
)


class Shrinker:
    """Makes a case smaller as long as it still differs, in a bounded number of tries."""

    def __init__(self, differs: Callable[[Case], bool], cuts: Sequence[str] = CUTS) -> None:
        self.differs = differs
        self.cuts = cuts
        self.left = MOST_TRIES

    def _still(self, case: Case) -> bool:
        self.left -= 1
        return self.left > 0 and self.differs(case)

    def shrunk(self, case: Case) -> Case:
        """Returns a small case that differs."""
        for number in reversed(range(len(case.files))):
            fewer = case._replace(files=case.files[:number] + case.files[number + 1 :])
            case = fewer if self._still(fewer) else case
        for cut in self.cuts:
            case = self._shorter(case, cut)
        return self._asking_less(self._shorter(case, self.cuts[-1]))

    def _asking_less(self, case: Case) -> Case:
        """Returns a case with less in its request."""
        if case.request is None:
            return case
        for field in ("arguments", "runas_group", "runas_user"):
            less = case._replace(request=case.request._replace(**{field: ""}))
            case = less if getattr(case.request, field) and self._still(less) else case
        return case

    def _shorter(self, case: Case, cut: str) -> Case:
        """Returns the case with a text from which pieces that are not needed are gone."""
        parts: Sequence[str] = re.findall(cut, case.text)
        size = max(1, len(parts) // 2)
        while self.left > 0:
            at = 0
            while at < len(parts):
                fewer = [*parts[:at], *parts[at + size :]]
                if self._still(case._replace(text="".join(fewer))):
                    parts = fewer
                else:
                    at += size
            if size == 1:
                break
            size //= 2
        return case._replace(text="".join(parts))
