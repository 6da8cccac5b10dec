"""Joins the references of `.ecore` files: supertypes, types and opposites, also across the files that are given."""

from __future__ import annotations

import os
from typing import Dict, List, Optional, Tuple, Union

from .ecore_model import EClass, EFeature, EFile, EPackage, ETypeParameter, Target
from .notes import Notes
from .steps import Step, parse_steps
from .uris import path_of, real_path
from .xml_reader import ECORE, Element, is_xmi

CONTAINMENTS = ('eClassifiers', 'eSubpackages', 'eStructuralFeatures', 'eTypeParameters', 'eLiterals')
XML_TYPE = 'http://www.eclipse.org/emf/2003/XMLType'
Found = Union[Target, str, None]


def below(element: Element, step: Step) -> Optional[Element]:
    """The child that a step of a fragment leads to: by feature and position, or by name."""
    if step.feature is not None:
        named = [child for child in element.children if child.name == step.feature and not child.space]
    else:
        named = [it for it in element.children if it.name in CONTAINMENTS and it.plain(step.attribute) == step.value]
    return named[step.index] if step.index < len(named) else None


class Links:
    """Finds what references of all files lead to."""

    def __init__(self, files: List[EFile]) -> None:
        """The files are found by path and by the URI of a package, and their elements by id."""
        self.files = files
        self.ids = {id(file): ids_of(file.root) for file in files}
        self.packages: Dict[str, Tuple[EFile, EPackage]] = {}
        for file in files:
            for package in file.all_packages():
                if package.uri:
                    self.packages.setdefault(package.uri, (file, package))

    def find(self, file: EFile, link: str) -> Found:
        """The target of a reference. A name of Ecore itself that no file has is returned as a text, as `ecore:EString`."""
        uri, _, fragment = link.partition('#')
        if '#' not in link:
            uri, fragment = '', link
        if not uri:
            return self.at(file, file.root, fragment)
        if uri in self.packages:
            home, package = self.packages[uri]
            return self.at(home, package.element, fragment)
        other = self.file_of(file, uri)
        if other is not None:
            return self.at(other, other.root, fragment)
        name = fragment.rpartition('/')[2]
        if uri == ECORE or uri.rpartition('/')[2] == 'Ecore.ecore':
            return f'ecore:{name}'
        return f'type:{name}' if uri == XML_TYPE else None

    def file_of(self, file: EFile, uri: str) -> Optional[EFile]:
        """The file of a URI: the file at the path of the URI, or, if there is none, the only file with the URI's last segment as name."""
        path = path_of(uri)
        wanted = real_path(os.path.dirname(file.path), path)
        same = [other for other in self.files if os.path.realpath(other.path) == wanted]
        name = path.rpartition('/')[2]
        named = [other for other in self.files if os.path.basename(other.path) == name]
        return same[0] if same else named[0] if len(named) == 1 else None

    def at(self, file: EFile, root: Element, fragment: str) -> Found:
        """What a fragment leads to below a root."""
        if not fragment.startswith('/'):
            found: Optional[Element] = self.ids[id(file)].get(fragment)
            return file.objects.get(id(found)) if found is not None else None
        steps = parse_steps(fragment)
        if steps is None:
            return None
        first, rest = steps
        at: Optional[Element] = root
        if root is file.root and is_xmi(root.space):
            tops = [child for child in root.children if not is_xmi(child.space)]
            at = tops[first] if first < len(tops) else None
        for step in rest:
            at = below(at, step) if at is not None else None
        return file.objects.get(id(at)) if at is not None else None


def ids_of(root: Element) -> Dict[str, Element]:
    """The elements of a file by `xmi:id`."""
    found: Dict[str, Element] = {}
    stack = [root]
    while stack:
        element = stack.pop()
        name = element.xmi('id')
        if name is not None:
            found[name] = element
        stack += element.children
    return found


def join(files: List[EFile], notes: Notes) -> None:
    """Joins all references; a supertype that is not among the files is noted and left out."""
    links = Links(files)
    for file in files:
        for package in file.all_packages():
            for classifier in package.classifiers:
                if isinstance(classifier, EClass):
                    join_class(links, file, classifier, notes)


def join_class(links: Links, file: EFile, eclass: EClass, notes: Notes) -> None:
    """Joins the references of a class."""
    for link in eclass.super_links + eclass.generic_super_links:
        found = links.find(file, link)
        if isinstance(found, EClass):
            if link in eclass.generic_super_links:
                notes.tell('generic supertype', eclass.qualified, f'erased to {found.name}')
            if found not in eclass.supers:
                eclass.supers.append(found)
        elif found != 'ecore:EObject':
            notes.tell('supertype', eclass.qualified, f'left out: no class of the files given: {link}', None, True)
    for feature in eclass.features:
        join_feature(links, file, feature)


def join_feature(links: Links, file: EFile, feature: EFeature) -> None:
    """Joins the type and the opposite of a feature. A type parameter is replaced by its first bound, or by EObject if it has none."""
    found = links.find(file, feature.type_link) if feature.type_link else None
    seen: List[ETypeParameter] = []
    while isinstance(found, ETypeParameter) and found not in seen:
        seen.append(found)
        found = links.find(file, found.bound) if found.bound else 'ecore:EObject'
    if isinstance(found, (EFeature, EPackage, ETypeParameter)):
        found = None
    feature.type = found
    opposite = links.find(file, feature.opposite_link) if feature.opposite_link else None
    feature.opposite = opposite if isinstance(opposite, EFeature) else None
