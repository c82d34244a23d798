"""The files that are checked: those that are named, those of a named folder that sudo would read, and what they include.

What links and includes lead to outside the folders that are named is neither read nor quoted.
"""

import os
import re
import stat
from collections.abc import Iterable, Iterator

from kulavemia import foreign, limits
from kulavemia.command import Fault
from kulavemia.lint.answers import ERROR, FAILED, NOTE, OK, Finding, Report
from kulavemia.policy import Include, beside, include_of, kept_files, lines_of

RULE = "leads-out"
# The most include lines of a policy: each names a file or a folder, and the program takes so many of either.
INCLUDES_LIMIT = 2 * limits.POLICY_FILES
# The most lines that may be includes, and the most bytes of one with the lines that are joined to it.
_LINES_LIMIT = 1 << 16
_LENGTH_LIMIT = 1 << 20
_MAY_INCLUDE = re.compile(rb"^[ \t]*[@#][i\\]", re.MULTILINE)
# The end of a line to which no other is joined.
_END = re.compile(rb"(?<!\\)(?<!\\\r)(?:\\\\)*\r?(?:\n|\Z)")
_OUT = "leads out of the folders that are named; --follow reads it"


class Bounds:
    """The folders whose files may be read and quoted: those that are named, and those of the files that are named."""

    def __init__(self, paths: Iterable[str], follow: bool) -> None:
        self.follow = follow
        self.folders = {_folder_of(path) for path in paths}

    def hold(self, path: str) -> bool:
        """Returns whether a path leads below one of the folders. A link on the way to a folder itself leads out."""
        # No file has a NUL in its name.
        if self.follow or "\0" in path:
            return True
        try:
            whole = os.path.realpath(path)
        except RecursionError:
            return False
        return any(os.path.commonpath((whole, folder)) == folder for folder in self.folders)


def _folder_of(path: str) -> str:
    whole = os.path.abspath(path)
    return whole if os.path.isdir(whole) else os.path.dirname(whole)


def reason_to_pass_over(path: str, name: str, bounds: Bounds) -> str | None:
    """Returns why sudo passes a folder's entry over, or None where the entry is to be checked."""
    if name.endswith("~"):
        return "its name ends in ~"
    if "." in name:
        return "its name has a dot"
    if not bounds.hold(path):
        return None
    try:
        mode = os.stat(path).st_mode
    except OSError as error:
        return error.strerror
    return None if stat.S_ISREG(mode) else "it is no regular file"


def names_of(folder: str) -> list[str]:
    """Returns the names in a folder, in the order of their bytes."""
    return sorted(os.listdir(folder), key=os.fsencode)


def folder_files(folder: str, bounds: Bounds) -> tuple[list[str], list[Finding]]:
    """Returns the files of a folder that sudo would read, and a finding for each entry that it passes over."""
    files, passed = [], []
    for name in names_of(folder):
        path = os.path.join(folder, name)
        reason = reason_to_pass_over(path, name, bounds)
        if reason is None:
            files.append(path)
        else:
            passed.append(Finding(path, None, None, NOTE, "passed-over", f"passed over, as sudo does: {reason}"))
    return files, passed


def folder_report(folder: str, bounds: Bounds) -> tuple[list[str], Report | None]:
    """Returns the files of a folder, and the report of the folder, if it has a problem."""
    try:
        files, found = folder_files(folder, bounds)
    except OSError as error:
        found = [Finding(folder, None, None, ERROR, "cannot-read", f"cannot read ({error.strerror})")]
        return [], Report(folder, FAILED, tuple(found), is_folder=True)
    if not files:
        found.append(Finding(folder, None, None, NOTE, "passed-over", "no file to check"))
    return files, Report(folder, OK, tuple(found), is_folder=True) if found else None


def reason_not_read(path: str) -> str | None:
    """Returns why the system does not let a file be read, or None where it says nothing."""
    try:
        mode = os.stat(path).st_mode
        if stat.S_ISDIR(mode):
            os.listdir(path)
            return "it is a folder"
        if stat.S_ISREG(mode):
            with open(path, "rb"):
                pass
    except OSError as error:
        return error.strerror
    return None


def text_of(path: str) -> bytes | None:
    """Returns the bytes of a regular file, or None if it is none, or has more than a policy may have."""
    try:
        return foreign.read(path, foreign.POLICY_CAP)
    except (Fault, OSError):
        return None


def leading_out(main: str, bounds: Bounds, hostname: str = "") -> list[Finding]:
    """Returns a finding for each link and each include line, from a file on, that leads out on a host of this name."""
    if not bounds.hold(main):
        return [_of_link(main)]
    try:
        return list(dict.fromkeys(_findings(main, bounds, hostname)))
    except Fault as fault:
        return [Finding(main, None, None, ERROR, "too-many-files", str(fault))]


def _findings(main: str, bounds: Bounds, hostname: str) -> Iterator[Finding]:
    """Yields the findings. Raises `Fault` if there are more files and include lines than the program takes."""
    waiting, seen, count = [main], {main}, 0
    while waiting:
        path = waiting.pop(0)
        for include in includes_of(text_of(path) or b"", hostname):
            named = beside(os.fsencode(path), include.path)
            count += 1
            if count > INCLUDES_LIMIT or len(seen) > 1 + limits.POLICY_FILES:
                raise Fault("includes too many files")
            if not bounds.hold(os.fsdecode(named)):
                yield _of_include(path, include)
                continue
            files = _files_of(named) if include.of_folder else [named]
            for file in map(os.fsdecode, files[: limits.POLICY_FILES + 1]):
                if not bounds.hold(file):
                    yield _of_link(file)
                elif file not in seen:
                    seen.add(file)
                    waiting.append(file)
    if len(seen) > 1 + limits.POLICY_FILES:
        raise Fault("includes too many files")


def within(report: Report, bounds: Bounds) -> Report:
    """Returns a report without findings in files that lead out, and with a finding that says so."""
    kept = [finding for finding in report.findings if bounds.hold(finding.path)]
    if len(kept) == len(report.findings):
        return report
    text = "a finding in a file outside the folders that are named is not shown; --follow shows it"
    return Report(report.path, FAILED, (*kept, Finding(report.path, None, None, ERROR, RULE, text)))


def includes_of(text: bytes, hostname: str = "") -> Iterator[Include]:
    """Yields the include lines of a text, and lines that would be includes if they were not joined to the one above.

    A text may be long; most of it is passed over. Raises `Fault` at more such lines, or longer ones, than a policy has.
    """
    number, at, end = 1, 0, 0
    for count, candidate in enumerate(_MAY_INCLUDE.finditer(text)):
        start = candidate.start()
        if start < end:
            continue
        ended = _END.search(text, start)
        end = ended.end() if ended else len(text)
        if count > _LINES_LIMIT or end - start > _LENGTH_LIMIT:
            raise Fault("too many include lines, or one that is too long")
        number, at = number + text.count(b"\n", at, start), start
        for line in lines_of(text[start:end]):
            include = include_of(line, hostname)
            if include is not None:
                yield include._replace(line=line._replace(number=number + line.number - 1))


def _files_of(folder: bytes) -> list[bytes]:
    """Returns the files of a folder that are read, none where it cannot be listed."""
    try:
        return kept_files(folder)
    except (Fault, OSError):
        return []


def _of_include(path: str, include: Include) -> Finding:
    """Returns the finding of an include line of a file, which shows the path as it is written."""
    words = "@includedir" if include.of_folder else "@include"
    text = f"{words} {os.fsdecode(include.path)} {_OUT}"
    return Finding(path, include.line.number, None, ERROR, RULE, text)


def _of_link(path: str) -> Finding:
    """Returns the finding of a path that is a link, or has one on its way."""
    link = f"a link to {os.readlink(path)}" if os.path.islink(path) else "a link on the way to this file"
    return Finding(path, None, None, ERROR, RULE, f"{link} {_OUT}")
