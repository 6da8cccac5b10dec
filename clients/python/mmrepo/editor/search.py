"""Finds objects: by class and text; for a reference, the objects that conform."""

from __future__ import annotations

from typing import Any, Dict, Iterator, List, Optional, Tuple

from ..metamodel import EReference, EStructuralFeature
from .forms import Id
from .mirror import Entry, Mirror

FOUND, PICKED = 200, 50  # the most hits that a search and a picker show


def hit(mirror: Mirror, number: Id) -> Dict[str, Any]:
    """An object as a hit: its label, its class, and the way to it."""
    entry = mirror.nodes[number]
    path = mirror.path(number)
    return {
        'object': number, 'label': mirror.label(number), 'class': entry.shape.name if entry.shape else None, 'path': path,
        'way': [mirror.label(it) for it in path[1:-1]],
    }


def search(mirror: Mirror, text: str, eclass: Optional[str]) -> Dict[str, Any]:
    """The objects of a class, or of a subclass, that have a text in an attribute; and their count."""
    begun = text.casefold()
    found = [
        number for number, entry in _objects(mirror)
        if (eclass is None or mirror.shapes.conforms(_class(entry), eclass)) and (not begun or _has(entry, begun))
    ]
    return {'hits': [hit(mirror, it) for it in found[:FOUND]], 'count': len(found)}


def picks(mirror: Mirror, node: Id, feature: EStructuralFeature, text: str) -> Dict[str, Any]:
    """The objects that a reference of a node can take and whose label has a text; labels that begin with the text come first."""
    assert isinstance(feature, EReference)
    value = mirror.nodes[node].values.get(feature.name, ())
    taken = set(value) if feature.many else {value}
    begun = text.casefold()
    found: List[Tuple[bool, int]] = []
    for number, entry in _objects(mirror):
        if number not in taken and mirror.shapes.conforms(_class(entry), feature.eType.name):
            label = mirror.label(number).casefold()
            if begun in label:
                found.append((not label.startswith(begun), number))
    found.sort()
    return {'hits': [hit(mirror, number) for _, number in found[:PICKED]], 'count': len(found)}


def _objects(mirror: Mirror) -> Iterator[Tuple[int, Entry]]:
    """All objects."""
    return ((number, entry) for number, entry in mirror.nodes.items() if isinstance(number, int))


def _class(entry: Entry) -> str:
    """The name of the class of an object."""
    assert entry.shape is not None
    return entry.shape.name


def _has(entry: Entry, begun: str) -> bool:
    """Whether an attribute of an object has a text."""
    assert entry.shape is not None
    links = entry.shape.link_names
    for name, value in entry.values.items():
        if name not in links:
            if isinstance(value, list):
                if any(begun in str(it).casefold() for it in value):
                    return True
            elif begun in str(value).casefold():
                return True
    return False
