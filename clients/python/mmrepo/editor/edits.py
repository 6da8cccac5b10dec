"""The edits that a window may make. Each edit is one step for the windows, and a refused edit changes nothing."""

from __future__ import annotations

import re
from typing import Any, Callable, Optional

from ..errors import Refused
from ..metamodel import EAttribute, EReference, EStructuralFeature
from ..objects import EObject
from ..repository import Repository
from ..values import GREATEST_INTEGER, LEAST_INTEGER
from .forms import CONTENTS, Id
from .mirror import Mirror
from .reading import object_of
from .words import Attempt, in_words, wanted

NUMBERS = ('EInt', 'ELong')
_WHOLE = re.compile(r'\s*([+-]?)0*([0-9]{1,20})\s*')


class NotDone(Exception):
    """An edit is refused: the name of the refusal, and the reason in words."""

    def __init__(self, name: str, text: str) -> None:
        super().__init__(text)
        self.name, self.text = name, text


class Edits:
    """The edits. A node is given by its number or its word, and a value as JSON."""

    def __init__(self, repo: Repository, mirror: Mirror) -> None:
        self._repo, self._mirror = repo, mirror

    # The features of an object

    def set(self, node: int, feature: str, value: Any) -> None:
        """Sets a feature of one value."""
        owner, kind = self._feature(node, feature)
        self._check_not_held(kind, node)
        self._try(Attempt(self._mirror, node, kind, value), lambda: owner.eSet(feature, self._value(kind, value)))

    def unset(self, node: int, feature: str) -> None:
        """Takes a feature back to its default; a list becomes empty."""
        owner, kind = self._feature(node, feature)
        self._check_not_held(kind, node)
        self._try(Attempt(self._mirror, node, kind), lambda: owner.eUnset(feature))

    def add(self, node: int, feature: str, value: Any, at: Optional[int] = None) -> None:
        """Puts a value into a list, at its end or at an index."""
        owner, kind = self._feature(node, feature)
        self._check_many(kind)
        place = len(self._mirror.nodes[node].get(self._mirror.shapes.of(owner.eClass.name).forms[feature])) if at is None else at
        self._try(Attempt(self._mirror, node, kind, value), lambda: owner.eGet(feature).insert(place, self._value(kind, value)))

    def remove(self, node: int, feature: str, at: int, was: Any = None) -> None:
        """Takes the value at an index out of a list. If the window says which value it has seen there, the value must still be
        that one.
        """
        owner, kind = self._feature(node, feature)
        self._check_not_held(kind, node)
        self._check_many(kind)
        self._check_is(node, feature, at, was)
        self._try(Attempt(self._mirror, node, kind), lambda: owner.eGet(feature).pop(at))

    def move(self, node: Id, feature: str, to: int, at: int, was: Any = None) -> None:
        """Moves the value at an index of a list. If the window says which value it has seen there, the value must still be that one."""
        self._check_is(node, feature, at, was)
        if isinstance(node, str):
            self._try(Attempt(self._mirror, node), lambda: self._resource(node).contents.move(to, at))
            return
        owner, kind = self._feature(node, feature)
        self._check_many(kind)
        self._try(Attempt(self._mirror, node, kind), lambda: owner.eGet(feature).move(to, at))

    def resolve(self, node: int, feature: str, at: int) -> None:
        """Replaces a proxy by the object at its address."""
        owner, kind = self._feature(node, feature)
        value = self._mirror.nodes[node].values.get(feature)
        address = value[at] if isinstance(value, list) and at < len(value) else value
        self._try(Attempt(self._mirror, node, kind, address), lambda: owner.resolve(feature, at))

    # The tree

    def new(self, eclass: str, node: Id, feature: str, at: Optional[int] = None) -> int:
        """Makes an object of a class in a container or a resource, and returns its number."""
        made = self._try(Attempt(self._mirror), lambda: self._repo.create(eclass))
        number = int(made._word[1:])
        try:
            self.place(number, node, feature, at)
        except NotDone:
            made.delete()
            raise
        return number

    def place(self, number: int, node: Id, feature: str, at: Optional[int] = None) -> None:
        """Puts an object into a container or a resource, at the end or at an index. If the object is there already, moves it within
        its list.
        """
        thing = object_of(self._repo, number)
        entry = self._mirror.nodes.get(number)
        if entry is not None and (entry.holder, entry.under) == (node, feature):
            self._shift(number, node, feature, at)
        elif isinstance(node, str):
            contents = self._resource(node).contents
            place = len(self._mirror.nodes[node].values.get(CONTENTS, ())) if at is None else at
            self._try(Attempt(self._mirror, node, None, number), lambda: contents.insert(place, thing))
        else:
            owner, kind = self._feature(node, feature)
            if not (isinstance(kind, EReference) and kind.containment):
                raise NotDone('TYPE', f'TYPE: {feature} contains nothing')
            if kind.many:
                self.add(node, feature, number, at)
            else:
                self._check_free(node, feature)
                self._try(Attempt(self._mirror, node, kind, number), lambda: owner.eSet(feature, thing))

    def _shift(self, number: int, node: Id, feature: str, at: Optional[int]) -> None:
        """Moves an object within its list: before the object that is at the index now."""
        values = self._mirror.nodes[node].values[feature]
        if isinstance(values, list):
            now = values.index(number)
            to = len(values) - 1 if at is None else at - 1 if at > now else at
            self.move(node, feature, to, now)

    def delete(self, number: int) -> int:
        """Destroys an object and all objects below it, and returns how many were destroyed."""
        return self._try(Attempt(self._mirror, number), lambda: object_of(self._repo, number).delete())

    # What an edit needs

    def _try(self, attempt: Attempt, command: Callable[[], Any]) -> Any:
        """Gives a command. Raises a NotDone if it is refused."""
        try:
            return command()
        except Refused as refused:
            raise NotDone(refused.name, in_words(refused, attempt)) from None
        except UnicodeEncodeError:
            raise NotDone('TYPE', 'TYPE: the text has half of a surrogate pair') from None
        except ValueError as error:
            raise NotDone('TYPE', f'TYPE: {error}') from None

    def _feature(self, node: int, name: str) -> Any:
        """An object and its feature of a name."""
        entry = self._mirror.nodes.get(node)
        if entry is None or entry.shape is None:
            raise NotDone('NO_OBJECT', f'NO_OBJECT: object {node} is deleted')
        kind = entry.shape.eclass.findEStructuralFeature(name)
        if kind is None:
            raise NotDone('NO_FEATURE', f'NO_FEATURE: {entry.shape.name} has no feature {name}')
        owner: EObject = object_of(self._repo, node)
        return owner, kind

    def _resource(self, word: str) -> Any:
        """The resource of a word."""
        found = next((it for it in self._repo.resources if it._word == word), None)
        if found is None:
            raise NotDone('NO_RESOURCE', f'NO_RESOURCE: there is no resource {word}')
        return found

    def _value(self, feature: EStructuralFeature, value: Any) -> Any:
        """A value of JSON as the package takes it. Raises a NotDone if the feature can't have it."""
        if value is None:
            return None
        if isinstance(feature, EReference):
            if isinstance(value, bool) or not isinstance(value, int):
                raise NotDone('TYPE', f'TYPE: {feature.name} takes {wanted(feature)}')
            return object_of(self._repo, value)
        assert isinstance(feature, EAttribute)
        if feature.eType.name in NUMBERS and not isinstance(value, bool):
            found = _WHOLE.fullmatch(str(value))
            number = int(found[1] + found[2]) if found else None
            if number is None or not LEAST_INTEGER <= number <= GREATEST_INTEGER:
                raise NotDone('TYPE', f'TYPE: {feature.name} takes {wanted(feature)}')
            return number
        if not isinstance(value, bool if feature.eType.name == 'EBoolean' else str):
            raise NotDone('TYPE', f'TYPE: {feature.name} takes {wanted(feature)}')
        return value

    def _check_is(self, node: Id, feature: str, at: int, was: Any) -> None:
        """Raises a NotDone if the value at an index of a list is not the one that the window has seen, since another window was
        faster.
        """
        entry = self._mirror.nodes.get(node)
        values = entry.values.get(feature) if entry else None
        if was is not None and isinstance(values, list) and values[at:at + 1] != [was]:
            raise NotDone('CHANGED', f'CHANGED: {feature} was changed in the meantime; nothing was done')

    def _check_many(self, feature: EStructuralFeature) -> None:
        """Raises a NotDone for a feature of one value."""
        if not feature.many:
            raise NotDone('NOT_MANY', f'NOT_MANY: {feature.name} is no list')

    def _check_not_held(self, feature: EStructuralFeature, node: int) -> None:
        """Raises a NotDone for an edit of a containment or of a container reference, which could leave an object in no resource:
        the container of an object is changed in the tree.
        """
        if isinstance(feature, EReference) and (feature.containment or feature.container):
            raise NotDone('HELD', f'HELD: {feature.name} is changed in the tree, so that no object is lost: delete, drag, or make a new one')

    def _check_free(self, node: int, feature: str) -> None:
        """Raises a NotDone if a single containment has a part already, which would be lost."""
        if self._mirror.nodes[node].values.get(feature) is not None:
            raise NotDone('BOUND', f'BOUND: at most 1 {feature}; delete the one that is there')
