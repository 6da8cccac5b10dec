"""Fragments into the packages of `.ecore` files: by names, as EMF needs them, and by positions, as documents need them.

The order of the classifiers of a package in EMF is not that of its file if the package is generated: Ecore is one of these.
"""

from __future__ import annotations

from typing import List, NamedTuple, Optional, Tuple

from .bending import Bent
from .ecore_grammar import kind_of
from .ecore_links import Links, below
from .ecore_model import EFile
from .metamodel import MClass
from .steps import parse_steps
from .xmi_paths import NAMELESS
from .xml_reader import ECORE, Element, is_xmi


class Way(NamedTuple):
    """The elements from a root to what a fragment leads to, and the position of the root."""

    root: int
    elements: List[Element]


class PackagePaths:
    """Finds the elements of the Ecore files of one run."""

    def __init__(self, bent: Bent) -> None:
        """The files are those that were converted to `bent`."""
        self.links = Links(bent.files)
        self.by_name = bent.by_name

    def home(self, file: str, uri: str) -> Optional[Tuple[EFile, Element]]:
        """The file and the root that a URI leads to from a file: a package by its own URI, or a file of Ecore."""
        if uri in self.links.packages:
            found, package = self.links.packages[uri]
            return found, package.element
        other = self.links.file_of(EFile(file, Element('', '', {}, {}, 0)), uri)
        return (other, other.root) if other is not None else None

    def way(self, file: str, uri: str, fragment: str) -> Optional[Way]:
        """The way that a fragment goes; None if it leads nowhere."""
        home, steps = self.home(file, uri), parse_steps(fragment) if fragment.startswith('/') else None
        if home is None or steps is None:
            return None
        root = home[1]
        if is_xmi(root.space):
            tops = [child for child in root.children if not is_xmi(child.space)]
            if steps[0] >= len(tops):
                return None
            root = tops[steps[0]]
        elements = [root]
        for step in steps[1]:
            found = below(elements[-1], step)
            if found is None:
                return None
            elements.append(found)
        return Way(steps[0], elements)

    def by_names(self, file: str, uri: str, fragment: str) -> Optional[Tuple[str, Optional[MClass]]]:
        """A fragment by the names of the elements, and the class of Ecore that its target is of; None if it leads to no named element."""
        way = self.way(file, uri, fragment)
        if way is None or any(it.name in NAMELESS for it in way.elements):
            return None
        words = ['', str(way.root) if way.root else '']
        for above, element in zip(way.elements, way.elements[1:]):
            name = element.plain('name')
            if not name:
                return None
            same = [it for it in above.children if it.plain('name') == name and it.name not in NAMELESS]
            number = next(place for place, it in enumerate(same) if it is element)
            words.append(f'{name}.{number}' if number else name)
        kind = kind_of(file, way.elements[-1]) if len(way.elements) > 1 else 'EPackage'
        return '/'.join(words), self.by_name.get((ECORE, kind))

    def by_positions(self, file: str, uri: str, fragment: str) -> Optional[str]:
        """A fragment by the positions of the elements in the file; None if it leads nowhere."""
        way = self.way(file, uri, fragment)
        if way is None:
            return None
        words = ['', str(way.root) if way.root else '']
        for above, element in zip(way.elements, way.elements[1:]):
            same = [it for it in above.children if it.name == element.name and not it.space]
            number = next(place for place, it in enumerate(same) if it is element)
            words.append(f'@{element.name}' + ('' if element.name == 'eGenericType' else f'.{number}'))
        return '/'.join(words)
