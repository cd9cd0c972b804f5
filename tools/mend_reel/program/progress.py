"""How far the work is: a line that is overwritten on a terminal, and a line a minute elsewhere."""
from __future__ import annotations

import sys
import time
from collections.abc import Iterable
from typing import TextIO

from ..model import Copy

EACH_SECONDS = {True: 0.1, False: 60.0}


def clock(seconds: float) -> str:
    """A time as hours, minutes and seconds."""
    whole = int(seconds + 0.5)
    return f"{whole // 3600}:{whole // 60 % 60:02}:{whole % 60:02}"


class Progress:
    """Reports on standard error how much of each step is done, and how long the rest of it takes at the pace so far."""

    def __init__(self, quiet: bool = False, stream: TextIO | None = None, program: str = "mend-reel") -> None:
        self.stream, self.program = stream or sys.stderr, program
        self.quiet, self.terminal = quiet or self.stream is None, self.stream is not None and self.stream.isatty()
        self.step, self.begun, self.last, self.share, self.shown = "", 0.0, 0.0, 0.0, False

    def begin(self, step: str) -> None:
        """Begins a step, which is named in what is shown of it."""
        self.step, self.begun, self.share = step, time.monotonic(), 0.0
        self.last = self.begun if not self.terminal else 0.0

    def at(self, done: float, whole: float) -> None:
        """Reports that so much of the step is done, if it is time to. Where far less is done than before, another file is read now."""
        now = time.monotonic()
        if self.quiet or now - self.last < EACH_SECONDS[self.terminal]:
            return
        share = min(done / whole, 1.0) if whole else 1.0
        self.begun = now if share < self.share / 2 else self.begun
        self.last, self.share = now, share
        left = f", {clock((now - self.begun) * (1 - share) / share)} left" if share > 0 else ""
        text = f"{self.step}: {100 * share:.0f} %{left}"
        self.write(f"\r\033[K{text}" if self.terminal else f"{self.program}: {text}\n")
        self.shown = True

    def watch(self, copies: Iterable[Copy]) -> None:
        """Has it reported how far each copy is read."""
        for copy in () if self.quiet else copies:
            copy.watch = lambda place, size=copy.size: self.at(place, size)  # type: ignore[misc]

    def end(self) -> None:
        """Takes the line away from a terminal."""
        if self.terminal and self.shown:
            self.write("\r\033[K")
        self.shown = False

    def write(self, text: str) -> None:
        """Writes to the stream. If nobody takes it, no more is written."""
        try:
            if self.stream is not None:
                self.stream.write(text)
                self.stream.flush()
        except OSError:
            self.stream, self.quiet = None, True
