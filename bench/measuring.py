"""What a command takes: time, time of processors, memory and instructions."""

import os
import re
import signal
import subprocess
import time
from collections.abc import Sequence
from typing import NamedTuple

COLLECTED = re.compile(r"Collected : (\d+)")


class Measured(NamedTuple):
    """The status of a command, `None` if it was stopped, its time, that of processors, and its memory in KiB."""

    status: int | None
    seconds: float
    user: float = 0.0
    system: float = 0.0
    memory: int = 0

    @property
    def processor(self) -> float:
        """The time of processors, of the program and of the system for it."""
        return self.user + self.system

    def cells(self) -> list[str]:
        """Returns time, time of processors and memory in words."""
        if self.status is None:
            return [f"over {self.seconds:g} s", "", ""]
        return [f"{self.seconds:.2f} s", f"{self.processor:.2f} s", f"{self.memory >> 10} MB"]


def measured(words: Sequence[str], folder: str, seconds: float) -> Measured:
    """Runs a command in a folder under GNU time, and returns how it ended."""
    told = os.path.join(folder, "memory")
    start = time.monotonic()
    with subprocess.Popen(
        ["/usr/bin/time", "-f", "%U %S %M", "-o", told, *words],
        cwd=folder,
        stdin=subprocess.DEVNULL,
        stdout=subprocess.DEVNULL,
        stderr=subprocess.DEVNULL,
        start_new_session=True,
    ) as child:
        try:
            status: int | None = child.wait(seconds)
        except subprocess.TimeoutExpired:
            return Measured(None, seconds)
        finally:
            if child.poll() is None:
                os.killpg(child.pid, signal.SIGKILL)
    taken = time.monotonic() - start
    with open(told, encoding="ascii") as file:
        user, system, memory = file.read().split()[-3:]
    os.unlink(told)
    return Measured(status, taken, float(user), float(system), int(memory))


def median(words: Sequence[str], folder: str, runs: int, seconds: float = 600.0) -> Measured:
    """Runs a command several times, and returns the run of median time."""
    found = sorted((measured(words, folder, seconds) for _ in range(runs)), key=lambda run: run.seconds)
    return found[len(found) // 2]


def callgrind(folder: str) -> list[str]:
    """Returns the words that count the instructions of what follows them."""
    return ["valgrind", "--tool=callgrind", "--callgrind-out-file=" + os.path.join(folder, "profile")]


def collected(words: Sequence[str]) -> int | None:
    """Runs a command that counts instructions and returns them, or `None` if none were counted or the command failed."""
    try:
        ran = subprocess.run(words, stdout=subprocess.DEVNULL, stderr=subprocess.PIPE, errors="replace", check=False)
    except FileNotFoundError:
        return None
    found = COLLECTED.search(ran.stderr)
    return int(found[1]) if found and ran.returncode == 0 else None


def line_of(cells: Sequence[str]) -> str:
    """Returns a line of a table."""
    return f"| {' | '.join(cells)} |"
