"""The progress of a long command, on standard error if that is a terminal."""

from __future__ import annotations

import sys
import time
from typing import TextIO

WIDTH = 20
SECONDS = 0.1  # seconds between two texts


class Progress:
    """A bar that shows how many documents are done."""

    def __init__(self, total: int, stream: TextIO = sys.stderr) -> None:
        self._total, self._stream = total, stream
        self._shows = stream.isatty()
        self._next = 0.0

    def step(self, done: int, findings: int) -> None:
        """Shows how many documents are done, and how many findings there are, at most a few times a second."""
        if self._shows and (time.monotonic() >= self._next or done == self._total):
            self._next = time.monotonic() + SECONDS
            bar = '#' * (WIDTH * done // max(self._total, 1))
            self._write(f'\r[{bar:<{WIDTH}}] {done:,} of {self._total:,} documents, findings: {findings:,}')

    def clear(self) -> None:
        """Removes the bar, so that a line can be printed."""
        if self._shows:
            self._write('\r\033[K')

    def _write(self, text: str) -> None:
        self._stream.write(text)
        self._stream.flush()
