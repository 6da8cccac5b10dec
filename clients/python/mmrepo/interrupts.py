"""Ctrl-C waits while a session has sent a command and has not read the whole answer."""

from __future__ import annotations

import signal
import threading
import time
from types import FrameType
from typing import TYPE_CHECKING, Any, Callable, Optional
from weakref import WeakSet

if TYPE_CHECKING:
    from .session import Session

PATIENCE = 1.0  # seconds that a program has for its answer after a Ctrl-C

_watched: WeakSet[Session] = WeakSet()  # the sessions of the main thread, in which Python handles signals


class Handler:
    """Handles Ctrl-C in place of another handler, and calls that handler when no session is busy."""

    def __init__(self, before: Callable[[int, Optional[FrameType]], Any]) -> None:
        self.before = before
        self._until = 0.0  # the moment until which a program may take to answer

    def __call__(self, number: int, frame: Optional[FrameType]) -> None:
        """Leaves a Ctrl-C to a session that is busy. If a Ctrl-C has waited for more than PATIENCE seconds and the answer of the
        engine may never come, a further Ctrl-C is handled at once.
        """
        for session in _watched:
            if session.is_busy_in(frame) and not (session.interrupted and session.engine.may_hang and time.monotonic() > self._until):
                if session.interrupted is None:
                    session.interrupted, self._until = self, time.monotonic() + PATIENCE
                return
        self.before(number, frame)

    def deliver(self) -> None:
        """Handles a Ctrl-C that has waited, usually by a KeyboardInterrupt."""
        self.before(signal.SIGINT, None)


def watch(session: Session) -> None:
    """Makes Ctrl-C wait for a session. The handler that Python has already is called later; without a handler nothing is done."""
    if threading.current_thread() is not threading.main_thread():
        return
    current = signal.getsignal(signal.SIGINT)
    if callable(current):
        if not isinstance(current, Handler):
            signal.signal(signal.SIGINT, Handler(current))
        _watched.add(session)


def leave(session: Session) -> None:
    """Ends the watch of a session. After the last session the earlier handler is set again."""
    _watched.discard(session)
    current = signal.getsignal(signal.SIGINT)
    if isinstance(current, Handler) and not _watched and threading.current_thread() is threading.main_thread():
        signal.signal(signal.SIGINT, current.before)
