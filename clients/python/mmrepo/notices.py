"""Notifications of changes, and the views that are notified. A `Notice` is a notification."""

from __future__ import annotations

import enum
import heapq
import re
from collections import deque
from typing import TYPE_CHECKING, Any, Callable, Deque, Dict, List, NamedTuple, Optional, Set, Tuple, Union

from .values import Named, is_number, value_at, value_of

if TYPE_CHECKING:
    from .objects import EObject
    from .resources import Resource
    from .session import Session

FIRST_ADAPTER = 9  # A9 and the adapters after it keep no notifications

_HEAD = re.compile(r'told (A[0-9]+) ([A-Z_]+) ([#r][0-9]+)(?:\.([A-Za-z_][A-Za-z0-9_]*))? ')
_PLACE = re.compile(r' (-1|[0-9]+)')
_RELEASED = re.compile(r'released (A[0-9]+) told [0-9]+ kept [0-9]+')


class Kind(enum.IntEnum):
    """The kinds of notifications, with the names and numbers of EMF."""

    SET = 1
    UNSET = 2
    ADD = 3
    REMOVE = 4
    MOVE = 7
    REMOVING_ADAPTER = 8
    RESOLVE = 9


class Notice(NamedTuple):
    """A notification: a change of one feature of one node. docs/ADAPTERS.md says which changes notify whom, and when.

    `notifier` is the object or the resource, and `feature` the name of its feature. `old` and `new` are the values before and
    after the change; `position` is the index in a list, or -1. A MOVE has the old index as `old`. A REMOVING_ADAPTER has no
    feature, and the view as `old`.
    """

    kind: Kind
    notifier: Union[EObject, Resource]
    feature: Optional[str]
    old: Any
    new: Any
    position: int


_KINDS = dict(Kind.__members__)
_notice = tuple.__new__
_known: Set[str] = set()  # names of features in earlier notifications, which need no further check
MANY = 10_000  # the most names in `_known`

Hearer = Callable[[Notice], Any]


def told_of(line: str, named: Named) -> Tuple[str, Notice]:
    """The adapter and the notification of a `told` line. Raises a ValueError for any other line."""
    words = line.split(' ')
    if len(words) == 7 and '"' not in line:
        _, adapter, name, where, before, after, place = words
        kind = _KINDS.get(name)
        notifier, _, feature = where.partition('.')
        if kind is not None and feature in _known and notifier[0] != 'A':
            old, new = value_of(before, named), value_of(after, named)
            if place == '-1' or is_number(place):
                return adapter, _notice(Notice, (kind, named(notifier), feature, old, new, int(place)))
    return _told_of(line, named)


def _told_of(line: str, named: Named) -> Tuple[str, Notice]:
    """The adapter and the notification of a `told` line whose texts may have spaces."""
    head = _HEAD.match(line)
    if head is None:
        raise ValueError('no notification')
    adapter, kind, notifier, feature = head.groups()
    if kind not in Kind.__members__:
        raise ValueError(f'{kind} is no kind')
    old, at = value_at(line, head.end(), named)
    if not line.startswith(' ', at):
        raise ValueError('no value after')
    new, at = value_at(line, at + 1, named)
    place = _PLACE.fullmatch(line, at)
    if place is None:
        raise ValueError('no position')
    if feature is not None and len(_known) < MANY:
        _known.add(feature)
    return adapter, Notice(Kind[kind], named(notifier), feature, old, new, int(place.group(1)))


class View:
    """A callable that is attached to nodes. `attach` of a repository makes it."""

    def __init__(self, session: Session, word: str, hearer: Hearer) -> None:
        self._session = session
        self._word = word
        self.hearer = hearer
        self.is_attached = True

    def watch(self, node: Union[EObject, Resource], deep: bool = True) -> bool:
        """Attaches it to a further node. Returns False if it is attached there already; then nothing has changed."""
        self._session.check_node(node)
        self._check()
        return self._session.flag(f'watch {self._word} {node._word} {depth(deep)}')

    def unwatch(self, node: Union[EObject, Resource]) -> bool:
        """Takes it away from a node. If that was its last node, it is detached. Returns False if it was not attached there."""
        self._session.check_node(node)
        self._check()
        return self._session.flag(f'unwatch {self._word} {node._word}')

    def detach(self) -> bool:
        """Detaches it from all its nodes. It is notified with REMOVING_ADAPTER, and of nothing afterwards. Returns False if it
        was detached before.
        """
        if not self.is_attached:
            return False
        self._session.done(f'detach {self._word}')
        return True

    def _check(self) -> None:
        """Raises a ValueError if it is detached: another view may have its number by now."""
        if not self.is_attached:
            raise ValueError('the view is attached no more')

    def __repr__(self) -> str:
        name = getattr(self.hearer, '__name__', repr(self.hearer))
        return f'<View {self._word} of {name}{"" if self.is_attached else ", detached"}>'


class Views:
    """The attached views, the free numbers, and the notifications that have not been delivered to a callable yet."""

    def __init__(self) -> None:
        self._attached: Dict[str, View] = {}
        self._free: List[int] = []
        self._next = FIRST_ADAPTER
        self.waiting: Deque[Tuple[View, Notice]] = deque()

    def lowest(self) -> int:
        """The lowest free number."""
        return self._free[0] if self._free else self._next

    def add(self, session: Session, number: int, hearer: Hearer) -> View:
        """Makes the view of a callable under a number, which is the lowest free number."""
        if self._free:
            heapq.heappop(self._free)
        else:
            self._next += 1
        view = View(session, f'A{number}', hearer)
        self._attached[view._word] = view
        return view

    def release(self, word: str) -> None:
        """Takes a view away. Its number is free."""
        self._attached.pop(word).is_attached = False
        heapq.heappush(self._free, int(word[1:]))

    def named(self, word: str) -> View:
        """The view of an adapter. Raises a ValueError if there is none."""
        view = self._attached.get(word)
        if view is None:
            raise ValueError(f'no view {word} is attached')
        return view

    def hear(self, lines: List[str], named: Named) -> None:
        """Reads the lines that follow an answer: queues the notifications, and releases views. Raises a ValueError for a line that
        is neither a notification nor the release of a view.
        """
        for line in lines:
            if line[:5] == 'told ':
                word, notice = told_of(line, named)
                self.waiting.append((self._attached.get(word) or self.named(word), notice))
                continue
            released = _RELEASED.fullmatch(line)
            if released is None:
                raise ValueError('no notification')
            self.release(self.named(released.group(1))._word)


def depth(deep: bool) -> str:
    """The word that says whether a view is notified of changes below its node."""
    return 'deep' if deep else 'flat'
