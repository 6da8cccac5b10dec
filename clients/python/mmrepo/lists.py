"""The values of a feature that is many-valued."""

from __future__ import annotations

import operator
from typing import TYPE_CHECKING, Any, Iterable, Iterator, List, Optional, Sequence, TypeVar, Union, overload

from .metamodel import EAttribute, EStructuralFeature
from .values import LONGEST_NUMBER, index_word

if TYPE_CHECKING:
    from .objects import EObject, Node


T = TypeVar('T')


class FeatureList(Sequence[T]):
    """The list of a feature of a node.

    It keeps no values: each use asks the repository for some or all of them, or changes some. An index is counted from 0, or
    from the end if it is negative. A refused command raises a Refused, and has changed nothing: BOUND if the list is full, TYPE
    if the feature can't have a value. No index can be assigned to, since the repository has no command for it.
    """

    __slots__ = ('_node', '_name', '_feature')
    __hash__ = None  # type: ignore[assignment]

    def __init__(self, node: Node, name: str, feature: Optional[EStructuralFeature]) -> None:
        """The list of a feature; a resource has no feature for its `contents`."""
        self._node = node
        self._name = name
        self._feature = feature

    def is_of(self, node: Node, name: str) -> bool:
        """Whether it is the list of a node under a name."""
        return self._node is node and self._name == name

    def __reduce_ex__(self, protocol: Any) -> Any:
        """Raises a TypeError: a pickle of the list would be of no use without its repository."""
        raise TypeError('list(..) gives the values, which are parts of a repository: `save` of a resource gives a text to keep')

    # What it has

    def _values(self) -> List[T]:
        """All values, at this moment."""
        return self._node._session.values(f'get {self._node._word} {self._name}')

    def __len__(self) -> int:
        return self._node._session.list_length(self._node._word, self._name)

    def __iter__(self) -> Iterator[T]:
        """Iterates over the values that the list has when the iteration begins."""
        return iter(self._values())

    def __reversed__(self) -> Iterator[T]:
        return reversed(self._values())

    def __contains__(self, value: object) -> bool:
        word = getattr(value, '_word', None)
        if word is None or isinstance(self._feature, EAttribute):
            return value in self._values()
        node = self._node
        text = node._session.ask(f'get {node._word} {self._name}', str)
        if '"' in text:  # of a proxy
            return value in self._values()
        return getattr(value, '_session', None) is node._session and word in text[1:-1].split(' ')

    @overload
    def __getitem__(self, index: int) -> T: ...

    @overload
    def __getitem__(self, index: slice) -> List[T]: ...

    def __getitem__(self, index: Union[int, slice]) -> Any:
        """The value at an index, or a list of the values of a slice; an IndexError if there is no such index."""
        session = self._node._session
        if isinstance(index, slice) or session.engine.list_value is None:
            return self._values()[index]
        index = operator.index(index)
        if index < 0:
            index += len(self)
        if not 0 <= index <= LONGEST_NUMBER:
            raise IndexError(f'there is no index {index}')
        return session.list_value(self._node._word, self._name, index)

    def index(self, value: Any, *bounds: int) -> int:
        """The first index of a value. Raises a ValueError if the list does not have the value."""
        return self._values().index(value, *bounds)

    def count(self, value: Any) -> int:
        """How often it has a value."""
        return self._values().count(value)

    def __eq__(self, other: object) -> bool:
        """Whether it has the values of another list, in the same order."""
        if isinstance(other, (list, FeatureList)):
            return self._values() == list(other)
        return NotImplemented

    def __repr__(self) -> str:
        return repr(self._values())

    # What changes it

    def _give(self, command: str, words: str) -> str:
        """The line of a command on this list."""
        return f'{command} {self._node._word} {self._name} {words}'

    def _word(self, value: Any) -> str:
        """The word of a value."""
        return self._node._session.value_word(value, self._feature)

    def _index(self, index: int) -> str:
        """The word of an index. Raises an IndexError if it is before the first value."""
        index = operator.index(index)
        return index_word(index if index >= 0 else index + len(self))

    def append(self, value: T) -> bool:
        """Puts a value at the end. Returns False if the list repeats no value and has this one already; then nothing has changed."""
        node = self._node
        session = node._session
        return session.flag(f'add {node._word} {self._name} {session.value_word(value, self._feature)}')

    def extend(self, values: Iterable[T]) -> None:
        """Appends values by one command each; the commands are sent at once. If some are refused, all other values are
        appended, and the first refusal is raised.
        """
        with self._node._session.batch() as batch:
            for value in values:
                batch.append(self, value)

    def __iadd__(self, values: Iterable[T]) -> FeatureList[T]:
        self.extend(values)
        return self

    def insert(self, index: int, value: T) -> None:
        """Puts a value before the value at an index, or at the end if the index is the length of the list. Raises an IndexError
        for a greater index. Refused with DUPLICATE if the list repeats no value and has this one already.
        """
        self._node._session.flag(self._give('add', f'{self._word(value)} {self._index(index)}'))

    def remove(self, value: T) -> None:
        """Takes the first occurrence of a value out. Raises a ValueError if the list does not have the value."""
        if not self._node._session.flag(self._give('removevalue', self._word(value))):
            raise ValueError(f'{value!r} is not in the list')

    def pop(self, index: int = -1) -> T:
        """Takes the value at an index out, and returns it. Raises an IndexError if there is no such index."""
        return self._node._session.value(self._give('remove', self._index(index)))

    def __delitem__(self, index: Union[int, slice]) -> None:
        """Takes out the value at an index; or the values of a slice, the last one first, by one command each."""
        if isinstance(index, slice):
            for at in sorted(range(*index.indices(len(self))), reverse=True):
                self.pop(at)
        else:
            self.pop(index)

    def __setitem__(self, index: Any, value: Any) -> None:
        """Raises a TypeError: no command replaces a value, and of two commands the second could be refused after the first has
        changed the list.
        """
        raise TypeError('no value is assigned to an index: remove the one, and insert the other')

    def clear(self) -> None:
        """Takes all values out by one command, the last one first."""
        self._node._session.done(f'unset {self._node._word} {self._name}')

    def move(self, to: int, index: int) -> T:
        """Takes the value at an index out, inserts it at the index `to` of the remaining list, and returns it."""
        return self._node._session.value(self._give('move', f'{self._index(to)} {self._index(index)}'))

    def resolve(self, index: int) -> EObject:
        """Replaces the proxy at an index by the object at its address, and returns that object. Refused as `resolve` of an
        object is.
        """
        return self._node._session.object(self._give('resolve', self._index(index)))
