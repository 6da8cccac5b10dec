"""The features of a metamodel, and their values as JSON. An object is its number, a proxy its address, and an ELong its digits,
since a number in a browser has 53 bits.
"""

from __future__ import annotations

from typing import Any, Dict, NamedTuple, Optional, Union

from ..metamodel import EAttribute, EClass, EEnum, EReference, EStructuralFeature, Metamodel
from ..objects import EObject, Node
from ..values import Proxy

Id = Union[int, str]  # an object by its number, a resource by its word, as `r0`
CONTENTS = 'contents'  # the one feature of a resource
NAMES = ('name', 'id')  # the attributes that name an object for a reader, the first one that has a text


class Form(NamedTuple):
    """The properties of a feature that are needed again and again."""

    name: str
    many: bool
    refers: bool
    contains: bool
    unsettable: bool
    is_long: bool
    default: Any
    opposite: Optional[str]


ROOTS = Form(CONTENTS, True, True, True, False, False, None, None)


def form_of(feature: EStructuralFeature) -> Form:
    """The form of a feature."""
    if isinstance(feature, EReference):
        opposite = feature.eOpposite
        return Form(feature.name, feature.many, True, feature.containment, False, False, None, opposite.name if opposite else None)
    assert isinstance(feature, EAttribute)
    is_long = feature.eType.name == 'ELong'
    return Form(feature.name, feature.many, False, False, feature.unsettable, is_long, default_of(feature), None)


def default_of(feature: EAttribute) -> Any:
    """The value of a single attribute that was never set."""
    kind, text = feature.eType, feature.default
    if feature.many:
        return None
    if isinstance(kind, EEnum):
        return text or kind.eLiterals[0]
    if kind.name == 'EBoolean':
        return text == 'true'
    if kind.name == 'EInt':
        return int(text or 0)
    return text or '0' if kind.name == 'ELong' else text


class Shape:
    """The forms of all features of a class, own and inherited, in their order."""

    def __init__(self, eclass: EClass) -> None:
        features = eclass.eAllStructuralFeatures()
        self.name = eclass.name
        self.eclass = eclass
        self.forms: Dict[str, Form] = {it.name: form_of(it) for it in features}
        self.parts = [it for it in self.forms.values() if it.contains]
        self.links = [it for it in self.forms.values() if it.refers and not it.contains]
        self.link_names = frozenset(it.name for it in self.forms.values() if it.refers)
        self.is_bounded = any(it.lower > 0 for it in features)
        texts = [it.name for it in features if isinstance(it, EAttribute) and not it.many and it.eType.name == 'EString']
        self.names = [name for name in NAMES if name in texts]


class Shapes:
    """The shapes of the classes of a metamodel."""

    def __init__(self, metamodel: Metamodel) -> None:
        self._metamodel = metamodel
        self._found: Dict[str, Shape] = {}
        self._above: Dict[str, frozenset] = {}

    def of(self, name: str) -> Shape:
        """The shape of a class."""
        found = self._found.get(name)
        if found is None:
            found = self._found[name] = Shape(self._metamodel.classes[name])
        return found

    def conforms(self, name: str, wanted: str) -> bool:
        """Whether an object of a class may be used as an object of another class."""
        if name not in self._above:
            found, waiting = set(), [self._metamodel.classes[name]]
            while waiting:
                top = waiting.pop()
                if top.name not in found:
                    found.add(top.name)
                    waiting += top.eSuperTypes
            self._above[name] = frozenset(found)
        return wanted in self._above[name]


def id_of(node: Node) -> Id:
    """The number of an object, or the word of a resource."""
    return int(node._word[1:]) if isinstance(node, EObject) else node._word


def encoded(form: Form, value: Any) -> Any:
    """A value of a feature as JSON has it."""
    if isinstance(value, EObject):
        return id_of(value)
    if isinstance(value, Proxy):
        return value.address
    return str(value) if form.is_long and value is not None else value


def described(metamodel: Metamodel) -> Dict[str, Any]:
    """The metamodel for the page: classes with their own features, and enumerations."""
    classes = {
        it.name: {
            'abstract': it.abstract, 'supers': [above.name for above in it.eSuperTypes],
            'features': [_described(feature) for feature in it.eStructuralFeatures],
        }
        for it in metamodel.classes.values()
    }
    return {'classes': classes, 'enums': {it.name: it.eLiterals for it in metamodel.enums.values()}}


def _described(feature: EStructuralFeature) -> Dict[str, Any]:
    """A feature for the page."""
    form = form_of(feature)
    said: Dict[str, Any] = {
        'name': form.name, 'type': feature.eType.name, 'lower': feature.lower, 'upper': feature.upper, 'many': form.many,
        'refers': form.refers, 'contains': form.contains,
    }
    if isinstance(feature, EReference):
        said.update(opposite=form.opposite, holds=feature.container)
    elif isinstance(feature, EAttribute):
        said.update(unique=feature.unique, unsettable=form.unsettable, default=form.default)
    return said
