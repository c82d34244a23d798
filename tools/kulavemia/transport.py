"""A command that reaches a host, runs tools/collect there, and yields its tar."""

import contextlib
import os
import select
import shlex
import signal
import subprocess
import time
from collections.abc import Sequence
from typing import BinaryIO, cast

from kulavemia.command import FAILED, Fault

COLLECT = os.path.join(os.path.dirname(os.path.dirname(os.path.realpath(__file__))), "collect")
DONE = 0
# tools/collect ends so where the tar names what is missing.
MISSING = 3

_SAID_LIMIT = 4096
_SHOWN = 500
# What a tar may have behind its end, to fill its last record.
_FILLING = 1 << 20


def words_for(command: Sequence[str], host: str, options: Sequence[str]) -> list[str]:
    """Returns the words of the command line that runs tools/collect, with options, on a host."""
    return [*command, "--", host, shlex.join(["sudo", "sh", "-s", "--", *options])]


class Transport:
    """A running command whose output is read as it comes, until a time is over."""

    def __init__(self, words: Sequence[str], seconds: float) -> None:
        self.seconds = seconds
        self.end = time.monotonic() + seconds
        self.said = b""
        self.speaks = True
        with open(COLLECT, "rb") as script:
            self.running = subprocess.Popen(
                words, stdin=script, stdout=subprocess.PIPE, stderr=subprocess.PIPE, start_new_session=True
            )
        self.streams = cast(BinaryIO, self.running.stdout), cast(BinaryIO, self.running.stderr)
        self.out, self.err = (stream.fileno() for stream in self.streams)
        self.poll = select.poll()
        self.poll.register(self.out, select.POLLIN)
        self.poll.register(self.err, select.POLLIN)

    def read(self, size: int) -> bytes:
        """Returns some bytes of the output, none at its end. Raises `Fault` if the time is over."""
        while True:
            ready = self._ready()
            if self.err in ready:
                self._listen()
            if self.out in ready:
                return os.read(self.out, size)

    def want_done(self) -> int:
        """Returns the status of the command, which is one of those of tools/collect. Raises `Fault` at another."""
        filling = 0
        while data := self.read(1 << 16):
            filling += len(data)
            if filling > _FILLING:
                raise Fault("the tar goes on behind its end")
        self.poll.unregister(self.out)
        while self.speaks:
            self._ready()
            self._listen()
        status = self._status()
        if status not in (DONE, MISSING):
            raise Fault(self._last_line() or f"ended with status {status}", FAILED)
        return status

    def kill(self) -> None:
        """Kills the command, with what it has started."""
        if self.running.poll() is None:
            # It may end meanwhile.
            with contextlib.suppress(ProcessLookupError):
                os.killpg(self.running.pid, signal.SIGKILL)

    def stop(self) -> None:
        """Ends the command and what is read of it."""
        self.kill()
        self.running.wait()
        for stream in self.streams:
            stream.close()

    def _ready(self) -> set[int]:
        """Returns which streams have something to read, or have ended."""
        left = self.end - time.monotonic()
        found = {stream for stream, _ in self.poll.poll(left * 1000)} if left > 0 else set()
        if not found:
            raise Fault(f"took more than {self.seconds:g} s", FAILED)
        return found

    def _listen(self) -> None:
        """Takes what the command says on its other stream; the last of it is kept."""
        data = os.read(self.err, _SAID_LIMIT)
        self.said = (self.said + data)[-_SAID_LIMIT:]
        if not data:
            self.speaks = False
            self.poll.unregister(self.err)

    def _status(self) -> int:
        try:
            return self.running.wait(max(0, self.end - time.monotonic()))
        except subprocess.TimeoutExpired:
            raise Fault(f"took more than {self.seconds:g} s", FAILED) from None

    def _last_line(self) -> str:
        lines = os.fsdecode(self.said).strip().splitlines()
        return lines[-1][:_SHOWN] if lines else ""
