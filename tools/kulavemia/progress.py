"""A progress bar on a terminal, and lines elsewhere where they are asked for."""

import sys
import time
from types import TracebackType

WIDTH = 40
PAUSE = 0.1


class Progress:
    """Shows how much of a known amount is done, on standard error: a bar on a terminal; elsewhere nothing, or lines."""

    def __init__(self, label: str, total: int, line_pause: float = 0.0) -> None:
        self.label = label
        self.total = total
        self.shown = sys.stderr.isatty()
        self.line_pause = line_pause
        self.next = 0.0 if self.shown else time.monotonic() + line_pause

    def __enter__(self) -> "Progress":
        return self

    def __exit__(self, kind: type | None, error: BaseException | None, trace: TracebackType | None) -> None:
        if self.shown:
            sys.stderr.write("\r\x1b[K")
            sys.stderr.flush()

    def at(self, done: int) -> None:
        """Shows that so much is done: ten times a second at most, or a line after each pause."""
        if not (self.shown or self.line_pause) or time.monotonic() < self.next:
            return
        self.next = time.monotonic() + (PAUSE if self.shown else self.line_pause)
        if not self.shown:
            print(f"{self.label}: {done} of {self.total}", file=sys.stderr, flush=True)
            return
        part = min(1.0, done / self.total) if self.total else 0.0
        filled = int(part * WIDTH)
        bar = "#" * filled + "." * (WIDTH - filled)
        sys.stderr.write(f"\r{self.label} [{bar}] {part:4.0%}")
        sys.stderr.flush()
