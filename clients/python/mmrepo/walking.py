"""Goes through a document that the program has loaded, in the order in which the program numbers the objects (docs/DOCUMENTS.md)."""

from __future__ import annotations

from typing import Any, Dict, Iterator, List, NamedTuple, Optional, Tuple

from .metamodel import EAttribute, EClass, EReference, EStructuralFeature, Metamodel

Place = Tuple[Any, ...]  # the place of the container, the name of a feature, and the index there; None for no container, or no index


class Shape:
    """What is known of the objects of a class: the features that contain, those that refer, and those with a lower bound."""

    def __init__(self, eclass: EClass) -> None:
        features = eclass.eAllStructuralFeatures()
        references = [it for it in features if isinstance(it, EReference) and not it.container]
        self.parts = [(it.name, it.many) for it in references if it.containment]
        self.links = [it for it in references if not it.containment]
        self.bounded = [it for it in features if it.lower > 0]


class Met(NamedTuple):
    """An object of a document: how many objects come before it, its place, and its JSON."""

    number: int
    place: Place
    shape: Shape
    features: Dict[str, Any]


class Link(NamedTuple):
    """A text in a document that refers to an address: the object's number, the feature, the index in its list, and the place."""

    number: int
    feature: EStructuralFeature
    index: int
    place: Place


class Shapes:
    """The shapes of the classes of a metamodel."""

    def __init__(self, metamodel: Metamodel) -> None:
        self._metamodel = metamodel
        self._found: Dict[str, Shape] = {}

    def of(self, name: str) -> Shape:
        """The shape of a class."""
        found = self._found.get(name)
        if found is None:
            found = self._found[name] = Shape(self._metamodel.classes[name])
        return found

    def walk(self, document: Dict[str, Any]) -> Iterator[Met]:
        """Each object of a document, before its contents."""
        waiting: List[Tuple[Dict[str, Any], Place]] = [
            (root, (None, 'roots', index)) for index, root in enumerate(document['roots'])
        ]
        waiting.reverse()
        number = 0
        while waiting:
            written, place = waiting.pop()
            shape, features = self.of(written['class']), written['features']
            yield Met(number, place, shape, features)
            number += 1
            below: List[Tuple[Dict[str, Any], Place]] = []
            for name, many in shape.parts:
                value = features.get(name)
                if value and many:
                    below += [(part, (place, name, index)) for index, part in enumerate(value)]
                elif value:
                    below.append((value, (place, name, None)))
            waiting.extend(reversed(below))


def links_of(met: Met) -> Iterator[Link]:
    """The texts of an object that refer to addresses. A fragment is no address, with or without its `#`."""
    for feature in met.shape.links:
        value = met.features.get(feature.name)
        if not value:
            continue
        texts = value if feature.many else [value]
        for index, text in enumerate(texts):
            if '#' in text[1:]:
                place = (met.place, feature.name, index if feature.many else None)
                yield Link(met.number, feature, index, place)


def place_text(place: Optional[Place]) -> str:
    """A place as `--explain` writes it, as `roots[0].features.books[3]`."""
    parts: List[str] = []
    while place is not None:
        place, name, index = place
        parts.append((f'{name}' if place is None else f'.features.{name}') + ('' if index is None else f'[{index}]'))
    return ''.join(reversed(parts))


def shortage(met: Met, feature: EStructuralFeature) -> str:
    """The reason why a feature has fewer values than it should."""
    if not feature.many:
        unset = isinstance(feature, EAttribute) and feature.unsettable and feature.name not in met.features
        return 'it is not set, and has to be' if unset else 'it has no value, and has to have one'
    count = len(met.features.get(feature.name, []))
    return f'it has {count} value{"" if count == 1 else "s"}, and at least {feature.lower} are wanted'
