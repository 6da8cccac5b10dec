"""The progress of a tool over a long file, on standard error if that is a terminal."""

from __future__ import annotations

import sys
import time
from typing import Iterator, List, TypeVar

MANY_BYTES = 1_000_000  # from so many bytes, and so many objects, on a file counts as long
MANY_OBJECTS = 5_000
SECONDS = 0.5  # seconds between two texts
AT_ONCE = 1_000  # steps that are counted at once
Item = TypeVar('Item')


class Progress:
    """Says how many steps of a long file are done."""

    def __init__(self, what: str, total: int, many: int = MANY_OBJECTS) -> None:
        """`what` names the work, and `total` counts its steps. The progress is shown if there are at least `many` steps."""
        self.what, self.total, self.done = what, total, 0
        self.shows = total >= many and sys.stderr.isatty()
        self.next = time.monotonic()

    def step(self, count: int) -> None:
        """Counts steps, and shows the progress if it is time for that."""
        self.done += count
        if self.shows and time.monotonic() >= self.next:
            self.next = time.monotonic() + SECONDS
            sys.stderr.write(f'\r{self.what}: {min(100, 100 * self.done // self.total)} %')
            sys.stderr.flush()

    def each(self, items: List[Item]) -> Iterator[Item]:
        """Yields items, and counts a step for each of them."""
        for start in range(0, len(items), AT_ONCE):
            some = items[start:start + AT_ONCE]
            yield from some
            self.step(len(some))
        self.end()

    def end(self) -> None:
        """Clears the line."""
        if self.shows:
            sys.stderr.write('\r' + ' ' * (len(self.what) + 8) + '\r')
            sys.stderr.flush()
