"""The exchange of a line and its answer: an answer is read or raised as an error, and notifications are delivered to the views."""

from __future__ import annotations

import re
from _thread import get_ident
from types import FrameType
from typing import Any, Callable, List, Optional, Sequence, Tuple, TypeVar

from . import interrupts
from .answers import read_flag, read_ok
from .engines import Engine
from .errors import BadLine, CallableFailed, IndexRefused, MmrepoError, NotOwner, Refused, ReplyNotUnderstood, shown
from .metamodel import EClass
from .notices import Notice, View, Views
from .values import is_number, value_of

T = TypeVar('T')
INDEX, DOCUMENT = 10, 18  # the numbers of two refusals

_REFUSED = re.compile(r'refused ([0-9]+) ([A-Z_]+)(?: ([0-9]+) ([A-Z_]+))?')


class Exchange:
    """Gives lines to an engine, and reads the answers. An exchange belongs to the thread that made it.

    An exchange is `busy` from before a line is given until the answer to the line is read. A Ctrl-C that comes in this time
    waits, and `interrupted` is the handler of the waiting Ctrl-C.
    """

    def __init__(self, engine: Engine) -> None:
        self.engine = engine
        self.views = Views()
        self.busy = False
        self.interrupted: Optional[interrupts.Handler] = None
        self._owner = get_ident()
        self._waiting = self.views.waiting
        self._is_handing = False

    def named(self, word: str, eclass: Optional[EClass] = None) -> Any:
        """The object, the resource or the view of a word. Raises a ValueError for any other word."""
        raise NotImplementedError

    def explained(self, line: str) -> List[str]:
        """What has to be fixed in the last line."""
        raise NotImplementedError

    def ask(self, line: str, read: Callable[[str], T]) -> T:
        """The result of `read` for the answer to a line. The views are notified before the result is returned.

        Raises a Refused if the command is refused, and a BadLine if the engine does not know it. If `read` raises a ValueError,
        the engine is ended and a ReplyNotUnderstood is raised.
        """
        if get_ident() != self._owner:
            raise self._foreign()
        self.busy = True
        try:
            found = self._read(line, self.engine.exchange(line), read)
        except BaseException:
            self._leave()
            raise
        self.busy = False
        if self._waiting or self.interrupted:
            self._hand_out()
        return found

    def done(self, line: str) -> None:
        """Gives a command that answers `ok`."""
        if get_ident() != self._owner:
            raise self._foreign()
        self.busy = True
        try:
            text = self.engine.exchange(line)
            if text == 'ok\n':
                pass
            elif text.startswith('ok\n'):
                self._hear(line, text, 2)
            else:
                self._read(line, text, read_ok)
        except BaseException:
            self._leave()
            raise
        self.busy = False
        if self._waiting or self.interrupted:
            self._hand_out()

    def value(self, line: str) -> Any:
        """The value that a command answers."""
        if get_ident() != self._owner:
            raise self._foreign()
        self.busy = True
        try:
            text = self.engine.exchange(line)
            answer = text[:-1]
            found = int(answer) if answer.isdigit() and is_number(answer) else self._read(line, text, self._read_value)
        except BaseException:
            self._leave()
            raise
        self.busy = False
        if self._waiting or self.interrupted:
            self._hand_out()
        return found

    def flag(self, line: str) -> bool:
        """The answer of a command that answers `true` or `false`."""
        if get_ident() != self._owner:
            raise self._foreign()
        self.busy = True
        try:
            text = self.engine.exchange(line)
            found = text == 'true\n' or self._read(line, text, read_flag)
        except BaseException:
            self._leave()
            raise
        self.busy = False
        if self._waiting or self.interrupted:
            self._hand_out()
        return found

    def _asked_all(
        self, lines: Sequence[str], read: Callable[[str, str], T], keep: Optional[Callable[[List[T]], None]] = None
    ) -> List[T]:
        """The results of `read` for each line and the first line of its answer. `keep` is called with them before the views are
        notified.
        """
        self.check()
        self.busy = True
        try:
            texts = self.engine.exchange_all(lines)
            taken = self._taken
            found = [taken(line, text, read) for line, text in zip(lines, texts)]
            if keep is not None:
                keep(found)
        except BaseException:
            self._leave()
            raise
        self.busy = False
        if self._waiting or self.interrupted:
            self._hand_out()
        return found

    def check(self) -> None:
        """Raises a NotOwner if the calling thread is not the owner."""
        if get_ident() != self._owner:
            raise self._foreign()

    def take(self) -> None:
        """Gives the exchange to the calling thread. The caller makes sure that no other thread is in the middle of a call.

        After the first change of threads a Ctrl-C no longer waits: Python handles it in the main thread, which need not be the
        busy one.
        """
        if get_ident() != self._owner:
            interrupts.leave(self)
            self._owner = get_ident()

    def _foreign(self) -> NotOwner:
        return NotOwner('the repository belongs to another thread: give it work by a queue, or open one for each thread')

    def _read(self, line: str, text: str, read: Callable[[str], T]) -> T:
        """The result of `read` for the answer, or the error of a command that was not done."""
        end = text.find('\n')
        if end < 0:
            end = len(text)
        if end + 1 >= len(text):
            answer = text[:end]
            if answer.startswith('refused '):
                raise self._refusal(line, answer)
            if answer == 'bad line':
                raise BadLine(line)
            try:
                return read(answer)
            except ValueError:
                raise self.not_understood(line, text) from None
        return self._heard(line, text, end, read)

    def _heard(self, line: str, text: str, end: int, read: Callable[[str], T]) -> T:
        """The result of `read` for an answer with notifications after it. The notifications wait for their views."""
        try:
            found = read(text[:end])
        except ValueError:
            raise self.not_understood(line, text) from None
        self._hear(line, text, end)
        return found

    def _hear(self, line: str, text: str, end: int) -> None:
        """Queues the notifications that begin after an offset of an answer."""
        try:
            self.views.hear(text[end + 1:-1].split('\n'), self.named)
        except ValueError:
            raise self.not_understood(line, text) from None

    def _taken(self, line: str, text: str, read: Callable[[str, str], T]) -> T:
        """The result of `read` for the first line of an answer. The notifications after it wait for their views."""
        end = text.find('\n')
        if end + 1 == len(text):
            try:
                return read(line, text[:-1])
            except ValueError:
                raise self.not_understood(line, text) from None
        return self._heard(line, text, end, lambda answer: read(line, answer))

    def not_understood(self, line: str, text: str) -> ReplyNotUnderstood:
        """Ends the engine, and returns the error for an answer that no command can have."""
        self.engine.end('the program answered what no command answers')
        return ReplyNotUnderstood(f'not understood: {shown(text.strip())}, at the line `{shown(line)}`')

    def _leave(self) -> None:
        """Ends the time in which a Ctrl-C waits, and handles a Ctrl-C that came in that time."""
        self.busy = False
        handler, self.interrupted = self.interrupted, None
        if handler is not None:
            handler.deliver()

    def _called(self, line: str, call: Callable[[], str], read: Callable[[str], T]) -> T:
        """The result of `read` for what a call prints. An error names the script line that is most like the call."""
        self.check()
        self.busy = True
        try:
            found = self._read(line, call(), read)
        except BaseException:
            self._leave()
            raise
        self.busy = False
        if self._waiting or self.interrupted:
            self._hand_out()
        return found

    def _refusal(self, line: str, answer: str) -> MmrepoError:
        """The error of a `refused` line."""
        found = _REFUSED.fullmatch(answer)
        if found is None:
            return self.not_understood(line, answer)
        number, name, cause, cause_name = found.groups()
        kind = IndexRefused if int(number) == INDEX else Refused
        explained = self.explained(line) if int(number) == DOCUMENT else []
        return kind(line, int(number), name, (int(cause), cause_name) if cause else None, explained)

    def _hand_out(self) -> None:
        """Calls the callables with the notifications that wait, and then handles a Ctrl-C that waits.

        Notifications of a command that a callable gives come last. If callables raise errors, the first error is raised when
        all notifications have been delivered.
        """
        if self._is_handing:
            self._leave()
            return
        self._is_handing = True
        failed: Optional[Tuple[View, Notice, BaseException]] = None
        try:
            while self._waiting:
                view, notice = self._waiting.popleft()
                try:
                    view.hearer(notice)
                except BaseException as error:
                    failed = failed or (view, notice, error)
        finally:
            self._is_handing = False
        self._leave()
        if failed is not None:
            view, notice, cause = failed
            if not isinstance(cause, Exception):
                raise cause
            raise CallableFailed(view.hearer, notice) from cause

    def is_busy_in(self, frame: Optional[FrameType]) -> bool:
        """Whether a Ctrl-C that comes in a frame has to wait: a command is running, or a notification has not been delivered yet."""
        return self.busy or self._is_handing and frame is not None and frame.f_code is _HANDING

    def _read_value(self, answer: str) -> Any:
        return value_of(answer, self.named)


_HANDING = Exchange._hand_out.__code__
