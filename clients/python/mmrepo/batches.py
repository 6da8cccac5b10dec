"""Commands that are collected, and sent at once."""

from __future__ import annotations

import gc
from types import TracebackType
from typing import TYPE_CHECKING, Any, List, Optional, Tuple, Type, Union

from .errors import MmrepoError
from .lists import FeatureList
from .metamodel import EClass, EStructuralFeature
from .objects import EObject, name_of, new_object
from .values import data_word, name_word

if TYPE_CHECKING:
    from .objects import FeatureName, Node
    from .session import Session

NOT_MADE = '#?'  # the word of an object that is not made yet, which no line of a script can have

class Batch:
    """Commands that are collected and then sent at once: by `send`, and at the end of a `with`. `batch` of a repository makes
    a Batch.

    When the batch is sent, the objects are made first. Until then an object of `create` can be used only in the batch. If some
    objects are refused, the other objects are made, no other command is sent, the first Refused is raised, and `answers` stays
    as it was. If no object is refused, all other commands are sent, even after one that is refused. When they are done,
    `answers` is set, the views are notified, and the first Refused is raised; but if a callable has raised an error, a
    CallableFailed is raised.

    `answers` has the results in order: None for a change of a feature, a truth value for `append`, the object for `create`, how
    many objects were destroyed for `delete`, and the Refused for a command that was refused.
    """

    def __init__(self, session: Session) -> None:
        self._session = session
        self._objects: List[EObject] = []
        # An edit is a verb, a node, and the words after the node: a text, or a name with an object that has no number yet.
        self._verbs: List[str] = []
        self._nodes: List[Node] = []
        self._tails: List[Union[str, Tuple[str, EObject]]] = []
        self._calls: List[Union[EObject, int]] = []  # the object that a call makes, or the index of its edit
        self.answers: List[Any] = []

    def create(self, eclass: Union[str, EClass], /, **features: Any) -> EObject:
        """Makes an object of a class, with values of features: one value, or several values of a list. Raises a ValueError if
        there is no such class, or if it is abstract.
        """
        known = eclass if isinstance(eclass, EClass) else self._session.metamodel.classes.get(eclass)
        if known is None or known.abstract:
            raise ValueError(f'no object of {eclass} can be made')
        made = new_object(self._session, NOT_MADE, known)
        self._objects.append(made)
        self._calls.append(made)
        for name, value in features.items():
            feature = known.findEStructuralFeature(name)
            if feature is not None and feature.many:
                for it in value:
                    self._add('add', made, self._tail(name, it, feature))
            else:
                self._add('set', made, self._tail(name, value, feature))
        return made

    def _add(self, verb: str, node: Node, tail: Union[str, Tuple[str, EObject]]) -> None:
        """Collects an edit."""
        self._verbs.append(verb)
        self._nodes.append(node)
        self._tails.append(tail)

    def _tail(self, name: str, value: Any, feature: Optional[EStructuralFeature]) -> Union[str, Tuple[str, EObject]]:
        """The words of a feature and a value for it."""
        if feature is None:
            name_word(name)
        elif type(value) is str:
            return f' {name} {data_word(value, feature.is_enumeration)}'
        word = self._session.value_word(value, feature)
        return (name, value) if word is NOT_MADE else f' {name} {word}'

    def set(self, target: EObject, feature: FeatureName, value: Any) -> None:
        """Sets a feature of one value."""
        name = name_of(feature)
        self._call('set', target, self._tail(name, value, target.eClass.findEStructuralFeature(name)))

    def unset(self, target: EObject, feature: FeatureName) -> None:
        """Takes a feature back to its default; a list becomes empty."""
        self._call('unset', target, f' {name_word(name_of(feature))}')

    def append(self, values: FeatureList, value: Any) -> None:
        """Puts a value at the end of a list."""
        self._call('add', values._node, self._tail(values._name, value, values._feature))

    def delete(self, target: EObject) -> None:
        """Destroys an object and all that is below it."""
        self._call('delete', target, '')

    def _call(self, verb: str, node: Node, tail: Union[str, Tuple[str, EObject]]) -> None:
        """Collects the edit of a call."""
        self._session.check_node(node)
        self._calls.append(len(self._verbs))
        self._add(verb, node, tail)

    def _lines(self) -> List[str]:
        """The lines of the edits."""
        return [
            f'{verb} {node._word}{tail}' if isinstance(tail, str) else f'{verb} {node._word} {tail[0]} {tail[1]._word}'
            for verb, node, tail in zip(self._verbs, self._nodes, self._tails)
        ]

    def send(self) -> List[Any]:
        """Sends the collected commands, and returns their results. Further commands may be collected afterwards, and also by a
        callable that is notified while the batch is sent; they are sent by the next `send`.

        If objects are refused, the other objects are made, no other command is sent, and the first Refused is raised. If a
        command other than `create` is refused, all commands are sent, and the first Refused is raised when they are done.
        """
        is_collecting = gc.isenabled()
        gc.disable()  # what is made here stays, and looking through it again and again takes as long as all else
        try:
            lines, calls = self._take()
            outcomes = self._session.outcomes(lines, lambda found: self._keep(calls, found))
        finally:
            if is_collecting:
                gc.enable()
        for outcome in outcomes:
            if isinstance(outcome, MmrepoError):
                raise outcome
        return self.answers

    def _take(self) -> Tuple[List[str], List[Union[EObject, int]]]:
        """Makes the objects, and takes the lines of the edits and the calls out of the batch. So a callable that is notified of the
        edits can collect further commands.
        """
        try:
            self._session.make(self._objects)
            return self._lines(), self._calls
        finally:
            self._objects, self._calls = [], []
            self._verbs, self._nodes, self._tails = [], [], []

    def _keep(self, calls: List[Union[EObject, int]], outcomes: List[Any]) -> None:
        """Sets the answers to the calls, by the results of the edits."""
        self.answers = [outcomes[it] if isinstance(it, int) else it for it in calls]

    def __enter__(self) -> Batch:
        return self

    def __exit__(
        self, kind: Optional[Type[BaseException]], error: Optional[BaseException], trace: Optional[TracebackType]
    ) -> None:
        """Sends the collected commands, and then those that callables collect meanwhile. After an error it sends nothing."""
        if kind is None:
            self.send()
            while self._calls:
                self.send()
