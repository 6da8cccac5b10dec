"""Refusals in words, as `BOUND: at most 2 staff`."""

from __future__ import annotations

from typing import Any, Callable, Dict, Optional

from ..errors import Refused, shown
from ..metamodel import EEnum, EReference, EStructuralFeature
from .forms import Id
from .mirror import Mirror

RANGES = {
    'EInt': 'a whole number from -2147483648 to 2147483647',
    'ELong': 'a whole number from -9223372036854775808 to 9223372036854775807',
    'EString': 'a text',
    'EBoolean': 'true or false',
}
# What a refusal says that is the same for each command.
PLAIN = {
    'TEXT_LENGTH': 'a text has at most 65,535 bytes',
    'BAD_URI': 'it is no URI that a resource can have',
    'RESOURCE_EXISTS': 'there is a resource of this URI already',
    'NOT_EMPTY': 'the resource has objects already',
    'LIMIT': 'there is no room for more objects or values',
    'DANGLING': 'an object that is referred to is in no resource',
    'TOO_DEEP': 'an object is at level 41 or below, and a document has 40 levels',
    'NOT_PROXY': 'the value is no proxy any more',
    'MEMORY': 'there was no memory for it, and nothing has changed',
    'NO_RESOURCE': 'there is no such resource',
    'NO_CLASS': 'there is no such class',
    'ABSTRACT': 'the class is abstract',
}


class Attempt:
    """What was tried: the node, the feature and the value of a command."""

    def __init__(self, mirror: Mirror, node: Optional[Id] = None, feature: Optional[EStructuralFeature] = None, value: Any = None) -> None:
        self.mirror, self.node, self.feature, self.value = mirror, node, feature, value

    def name(self) -> str:
        """The name of the feature."""
        return self.feature.name if self.feature else 'contents'


def in_words(refused: Refused, attempt: Attempt) -> str:
    """What a refusal says to a reader."""
    said = SAID.get(refused.name)
    text = said(attempt) if said else PLAIN.get(refused.name, 'it is refused')
    return '\n'.join([f'{refused.name}: {text}', *refused.explained])


def wanted(feature: Optional[EStructuralFeature]) -> str:
    """What values a feature takes."""
    if feature is None:
        return 'objects'
    kind = feature.eType
    if isinstance(kind, EEnum):
        return f'one of {", ".join(kind.eLiterals)}'
    return RANGES.get(kind.name) or f'objects of class {kind.name}'


def _bound(attempt: Attempt) -> str:
    """Which end is full: the one that was named, or its opposite."""
    feature = attempt.feature
    assert feature is not None
    entry = attempt.mirror.nodes.get(attempt.node) if attempt.node is not None else None
    count = len(entry.values.get(feature.name, ())) if entry and feature.many else 0
    if isinstance(feature, EReference) and feature.eOpposite and not (feature.many and count >= feature.upper >= 0):
        return f'at most {feature.eOpposite.upper} {feature.eOpposite.name}'
    return f'at most {feature.upper} {feature.name}'


def _duplicate(attempt: Attempt) -> str:
    """What the list has already."""
    value = attempt.value
    is_object = isinstance(attempt.feature, EReference) or attempt.feature is None
    text = attempt.mirror.label(value) if is_object and isinstance(value, int) else value
    return f'{attempt.name()} has {shown(str(text))} already'


def _no_object(attempt: Attempt) -> str:
    """Which object is gone."""
    gone = [it for it in (attempt.node, attempt.value) if isinstance(it, int) and it not in attempt.mirror.nodes]
    return f'object {gone[0]} is deleted' if gone else 'the object is deleted'


SAID: Dict[str, Callable[[Attempt], str]] = {
    'BOUND': _bound,
    'DUPLICATE': _duplicate,
    'NO_OBJECT': _no_object,
    'TYPE': lambda it: f'{it.name()} takes {wanted(it.feature)}',
    'NO_FEATURE': lambda it: f'there is no feature {it.name()}',
    'NOT_SINGLE': lambda it: f'{it.name()} is a list',
    'NOT_MANY': lambda it: f'{it.name()} is no list',
    'INDEX': lambda it: f'{it.name()} has no such index any more',
    'RECURSIVE': lambda it: 'an object can\'t be inside itself',
    'UNLOADED': lambda it: f'no resource is open that {shown(str(it.value))} leads to',
    'UNRESOLVED': lambda it: f'{shown(str(it.value))} leads to no object',
    'UNMATCHED': lambda it: f'the object at {shown(str(it.value))} does not name this one back',
}
