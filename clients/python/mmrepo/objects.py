"""Objects of a repository."""

from __future__ import annotations

from typing import TYPE_CHECKING, Any, Dict, Iterable, Iterator, List, Optional, Union

from .lists import FeatureList
from .metamodel import EClass, EReference, EStructuralFeature
from .values import GREATEST_INTEGER, LEAST_INTEGER, Value, data_word, index_word, name_word

if TYPE_CHECKING:
    from .resources import Resource
    from .session import Session

FeatureName = Union[str, EStructuralFeature]


NOT_COPIED = 'it is a part of a repository: `copy` of a repository copies an object, and `save` of a resource gives a text to keep'


class Node:
    """An object or a resource. It is known by its number; everything that it has is asked of the engine."""

    __slots__ = ('_session', '_word', '__weakref__')
    _session: Session
    _word: str

    def __init__(self, session: Session, word: str) -> None:
        _keep_session(self, session)
        _keep_word(self, word)

    def __reduce_ex__(self, protocol: Any) -> Any:
        """Raises a TypeError: a pickle of the node would be of no use without its repository."""
        raise TypeError(NOT_COPIED)


# A slot is set by its own function, since an object takes each attribute for a feature.
_keep_session, _keep_word = Node._session.__set__, Node._word.__set__  # type: ignore[attr-defined,misc]


class EObject(Node):
    """An object. Its features are attributes, and items under their names.

    A feature that has the name of a member of this class, as `delete`, is only an item. Most methods are one command of the
    repository. A command that is refused raises a Refused: NO_OBJECT if the object is deleted. `number` is the object's number,
    unless its class has a feature of that name.
    """

    __slots__ = ('_class',)
    _class: Optional[EClass]

    def __init__(self, session: Session, word: str, eclass: Optional[EClass]) -> None:
        """`create` of a repository makes objects."""
        _keep_session(self, session)
        _keep_word(self, word)
        _keep_class(self, eclass)

    # What a feature has

    def eGet(self, feature: FeatureName) -> Any:
        """The value of a single feature as a Value. For a list, a FeatureList, which asks for its values at each use."""
        name = name_of(feature)
        found = self.eClass.findEStructuralFeature(name)
        if found is not None and found.many:
            return FeatureList(self, found.name, found)
        return self._session.value(f'get {self._word} {name_word(name)}')

    def eSet(self, feature: FeatureName, value: Value) -> None:
        """Sets a single feature. None is null. A feature of an enumeration is set by the name of a literal."""
        name = name_word(name_of(feature))
        self._set(name, self.eClass.findEStructuralFeature(name), value)

    def eIsSet(self, feature: FeatureName) -> bool:
        """Whether a feature is set, as the command `isset` of docs/SCRIPT.md says."""
        return self._session.flag(f'isset {self._word} {name_word(name_of(feature))}')

    def eUnset(self, feature: FeatureName) -> None:
        """Takes a feature back to its default, and empties a list."""
        self._session.done(f'unset {self._word} {name_word(name_of(feature))}')

    def __getitem__(self, name: str) -> Any:
        """The value of a feature, as `eGet` gives it."""
        return self.eGet(name)

    def __setitem__(self, name: str, value: Value) -> None:
        """Sets a feature, as `eSet` does."""
        self.eSet(name, value)

    def __delitem__(self, name: str) -> None:
        """Unsets a feature, as `eUnset` does."""
        self.eUnset(name)

    def __getattr__(self, name: str) -> Any:
        """The value of a feature. Raises an AttributeError if the class has no feature of the name."""
        eclass = self._class or self.eClass
        feature = (eclass.attributes or _attributes(eclass)).get(name)
        if feature is None:
            if name == 'number':
                return int(self._word[1:])
            self._check_feature(name)
            raise AttributeError(name)
        if feature.many:
            return FeatureList(self, name, feature)
        return self._session.value(f'get {self._word} {name}')

    def __setattr__(self, name: str, value: Any) -> None:
        """Sets a feature. Raises an AttributeError if the class has no feature of the name, or if the name is a member of EObject."""
        eclass = self._class or self.eClass
        feature = (eclass.attributes or _attributes(eclass)).get(name)
        if feature is None:
            self._check_feature(name)
        self._set(name, feature, value)

    def _set(self, name: str, feature: Optional[EStructuralFeature], value: Any) -> None:
        """Sets the feature of a name, which the class may lack."""
        if type(value) is str and feature is not None:
            self._session.done(f'set {self._word} {name} {data_word(value, feature.is_enumeration)}')
            return
        if type(value) is int and LEAST_INTEGER <= value <= GREATEST_INTEGER:
            self._session.done(f'set {self._word} {name} {value}')
            return
        if isinstance(value, FeatureList) and value.is_of(self, name):
            return  # `book.tags += [..]` has changed the list, and assigns it to itself
        if isinstance(value, (list, FeatureList)):
            raise TypeError(f'a list is no value: change {name} by its methods')
        self._session.done(f'set {self._word} {name_word(name)} {self._session.value_word(value, feature)}')

    def __delattr__(self, name: str) -> None:
        """Unsets a feature. Raises an AttributeError as setting does."""
        self._check_feature(name)
        self.eUnset(name)

    def _check_feature(self, name: str) -> None:
        """Raises an error for a name that is no feature, or that can't be used as an attribute."""
        if hasattr(type(self), name):
            raise AttributeError(f'{name} is a name of EObject: write [{name!r}] for the feature')
        if name.startswith('__'):
            raise AttributeError(name)  # Python looks for methods under such names, which is no reason for a command
        if self.eClass.findEStructuralFeature(name) is None:
            raise AttributeError(f'class {self.eClass.name} has no feature {name}')

    def __dir__(self) -> Iterable[str]:
        """The names of the class and those of the features."""
        features = [] if self._class is None else [it.name for it in self._class.eAllStructuralFeatures()]
        return [*super().__dir__(), *features]

    # Its class and its container

    @property
    def eClass(self) -> EClass:
        """The class of the object. It is asked once."""
        if self._class is None:
            object.__setattr__(self, '_class', self._session.class_of(self._word))
        assert self._class is not None
        return self._class

    def eContainer(self) -> Optional[EObject]:
        """The object that contains it, or None."""
        return self._session.optional(f'container {self._word}')

    def eContainmentFeature(self) -> Optional[EReference]:
        """The reference of its container that contains it, or None."""
        container = self.eContainer()
        if container is None:
            return None
        found = [it for it in container.eClass.eAllStructuralFeatures() if isinstance(it, EReference) and it.containment]
        if len(found) > 1:
            found = [it for it in found if self._session.contains(container, it, self)]
        return found[0]

    def eContainingFeature(self) -> Optional[EReference]:
        """The same as `eContainmentFeature`, since a repository has no feature maps (EMF: FeatureMap)."""
        return self.eContainmentFeature()

    @property
    def eContents(self) -> List[EObject]:
        """The objects that it directly contains, by feature in the order of all features of its class."""
        return self._session.values(f'contents {self._word}')

    def eAllContents(self) -> Iterator[EObject]:
        """All objects below it, each before its contents. An object is asked for its contents when the next one is needed."""
        waiting = self.eContents[::-1]
        while waiting:
            top = waiting.pop()
            yield top
            waiting.extend(top.eContents[::-1])

    @property
    def eResource(self) -> Optional[Resource]:
        """The resource that it is in, directly or below other objects; None if it is in none."""
        return self._session.within(f'within {self._word}')

    def fragment(self) -> str:
        """The path to it from a root of its resource, as `//@books.0`. Refused with DANGLING if it is in no resource."""
        return self._session.text(f'fragment {self._word}')

    # What is done with it

    def validate(self) -> List[str]:
        """The names of the features that have fewer values than they should."""
        return self._session.names(f'validate {self._word}')

    def resolve(self, feature: FeatureName, index: int = 0) -> EObject:
        """Replaces a proxy by the object at its address, and returns that object: the proxy at an index of a list, or at index
        0 of a single reference. Refused as `resolve` of docs/SCRIPT.md is, as UNLOADED and UNRESOLVED.
        """
        return self._session.object(f'resolve {self._word} {name_word(name_of(feature))} {index_word(index)}')

    def delete(self) -> int:
        """Destroys it and all objects below it, and takes them out of every end that holds them. Returns how many objects were
        destroyed.
        """
        return self._session.counts(f'delete {self._word}', 'deleted')[0]

    def __repr__(self) -> str:
        return f'<{"EObject" if self._class is None else self._class.name} {self._word}>'


_keep_class = EObject._class.__set__  # type: ignore[union-attr,misc]


def new_object(session: Session, word: str, eclass: Optional[EClass]) -> EObject:
    """Makes an object without its constructor, which takes less time."""
    made = _new(EObject)
    _keep_session(made, session)
    _keep_word(made, word)
    _keep_class(made, eclass)
    return made


def name_object(made: EObject, word: str) -> None:
    """Gives its word to an object that a batch has made."""
    _keep_word(made, word)


_new = object.__new__
_HIDDEN = frozenset(dir(EObject))  # names that are no attributes for features


def _attributes(eclass: EClass) -> Dict[str, EStructuralFeature]:
    """The features that an object has as Python attributes, by their names."""
    found = eclass.attributes
    if found is None:
        features = eclass.eAllStructuralFeatures()
        found = eclass.attributes = {it.name: it for it in features if it.name not in _HIDDEN and not it.name.startswith('__')}
    return found


def name_of(feature: FeatureName) -> str:
    """The name of a feature that is given as a feature or as a name."""
    return feature.name if isinstance(feature, EStructuralFeature) else feature
