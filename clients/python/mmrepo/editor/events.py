"""The events, in order. Each event has a number, and a window that was disconnected gets the events that it has missed."""

from __future__ import annotations

import json
import threading
from collections import deque
from typing import Any, Deque, Dict, List, Optional, Tuple

KEPT = 10_000  # events that are kept for windows that have missed them


class Events:
    """The last events. Several threads may use the same Events at a time."""

    def __init__(self) -> None:
        self._condition = threading.Condition()
        self._kept: Deque[Tuple[int, str]] = deque(maxlen=KEPT)
        self.is_over = False
        self.number = 0  # of the last event

    def tell(self, event: Dict[str, Any]) -> int:
        """Adds an event, and gives its number."""
        with self._condition:
            self.number += 1
            self._kept.append((self.number, json.dumps({'number': self.number, **event}, separators=(',', ':'))))
            self._condition.notify_all()
            return self.number

    def after(self, number: int, seconds: float) -> Optional[List[Tuple[int, str]]]:
        """The events after the event `number`, each with its number; an empty list if no event comes within `seconds` seconds. None
        if some of these events are not kept any more, if there was no event `number` yet, or if the events have ended."""
        with self._condition:
            self._condition.wait_for(lambda: self.number > number or self.is_over, seconds)
            if self.is_over or number > self.number or number < self.number - len(self._kept):
                return None
            return [it for it in self._kept if it[0] > number] if self.number > number else []

    def end(self) -> None:
        """Ends the events: none is added any more."""
        with self._condition:
            self.is_over = True
            self._condition.notify_all()
