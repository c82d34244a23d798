"""Asks sudo_review for the cautions on a policy."""

import re
import subprocess
from typing import NamedTuple

from differ.ask import SECONDS, Asker
from differ.classes import NAMES
from differ.world import ENCODING, POLICY
from kulavemia.command import PROGRAM, Fault

NONE, REFUSED, FAILED, SOME = 0, 1, 4, 5
LINE = re.compile(r"(?P<file>.+?):(?P<line>\d+): caution: (?P<name>[a-z-]+): (?P<text>.*)")
# Classes that decide no verdict here: no file is asked for below a folder that is a link, an unknown parameter says nothing, and
# no policy is drawn with a command that stands for a note.
LEFT_OUT = ("linked", "unknown-parameter", "depends")


class Caution(NamedTuple):
    """A caution: where it stands, its class, and its text with the subject before it."""

    place: str
    name: str
    text: str

    def label(self) -> str:
        """Returns the class, of a parameter with its name."""
        return f"{self.name} {self.text.partition(':')[0]}" if self.name == "defaults" else self.name


class Reviewer:
    """Asks for the cautions on the policy that an asker wrote."""

    def __init__(self, program: str, asker: Asker) -> None:
        self.program = program
        self.asker = asker

    def cautions(self) -> tuple[Caution, ...] | None:
        """Returns the cautions but those of classes that are left out, `None` if the policy is refused."""
        words = [self.program, "cautions", POLICY]
        try:
            done = subprocess.run(
                words, cwd=self.asker.folder, capture_output=True, timeout=SECONDS, check=False, close_fds=False
            )
        except subprocess.TimeoutExpired:
            raise Fault(f"{self.program} did not end within {SECONDS} s", PROGRAM) from None
        said = done.stdout.decode(ENCODING)
        if done.returncode in (REFUSED, FAILED):
            return None
        found = tuple(_caution(line) for line in said.splitlines()[:-1])
        if done.returncode not in (NONE, SOME) or bool(found) != (done.returncode == SOME):
            raise Fault(f"{self.program} ended with status {done.returncode}: {said}", PROGRAM)
        for caution in found:
            if caution.name not in (*NAMES, *LEFT_OUT):
                raise Fault(f"{self.program}: the class {caution.name} is not known here", PROGRAM)
        return tuple(caution for caution in found if caution.name not in LEFT_OUT)


def _caution(line: str) -> Caution:
    """Returns the caution of a line. Raises `Fault` if its form is another."""
    found = LINE.fullmatch(line)
    if found is None:
        raise Fault(f"sudo_review printed {line!r}, which is no caution", PROGRAM)
    return Caution(f"{found['file']}:{found['line']}", found["name"], found["text"])
