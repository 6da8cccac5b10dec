"""Reads `.ecore` files into packages. References stay texts until all files are read."""

from __future__ import annotations

import re
from typing import Dict, List, Optional

from .ecore_grammar import check, kind_of
from .ecore_model import (
    EClass, EClassifier, EDataType, EEnum, EEnumLiteral, EFeature, EFile, EPackage, ETypeParameter, Target
)
from .faults import fault
from .notes import Notes
from .xml_reader import ECORE, Element, is_xmi, read_xml

EXTENDED = 'http:///org/eclipse/emf/ecore/util/ExtendedMetaData'
FLAGS = {
    'changeable': True, 'volatile': False, 'transient': False, 'unsettable': False, 'derived': False, 'ordered': True,
    'unique': True, 'iD': False, 'containment': False,
}
NUMBER = re.compile(r'\s*([+-]?[0-9]{1,20})\s*', re.ASCII)


def value_of(element: Element, name: str) -> Optional[str]:
    """A value that is written as an attribute, or as a child."""
    plain = element.plain(name)
    if plain is not None:
        return plain
    return next((child.text for child in element.children if child.name == name and not child.space), None)


def links_of(element: Element, name: str) -> List[str]:
    """The references in an attribute, or in children with an href; names of types are left out."""
    words = [word for word in (element.plain(name) or '').split() if '#' in word or '/' in word or ':' not in word]
    for child in element.children:
        if child.name == name and not child.space:
            link = child.plain('href') or child.xmi('idref')
            words += [link] if link else child.text.split()
    return words


def link_of(element: Element, name: str) -> Optional[str]:
    """The first reference that `links_of` finds; None if there is none."""
    return next(iter(links_of(element, name)), None)


def is_true(element: Element, name: str, default: bool) -> bool:
    """A flag."""
    text = value_of(element, name)
    return default if text is None else text.strip().lower() in ('true', '1')


def number_of(element: Element, name: str, default: int) -> Optional[int]:
    """A number; None if the written text is no number of 32 bits."""
    text = value_of(element, name)
    if text is None:
        return default
    found = NUMBER.fullmatch(text)
    number = int(found.group(1)) if found else 1 << 31
    return number if -(1 << 31) <= number < 1 << 31 else None


def erased(generic: Element) -> Optional[str]:
    """The classifier or the type parameter that a generic type stands for."""
    return link_of(generic, 'eClassifier') or link_of(generic, 'eTypeParameter')


def children(element: Element, name: str) -> List[Element]:
    """The children of a name."""
    return [child for child in element.children if child.name == name and not child.space]


class Reader:
    """Reads one file."""

    def __init__(self, path: str, notes: Notes) -> None:
        """Operations and annotations, which are always left out, go to the notes."""
        self.notes = notes
        self.file = EFile(path, read_xml(path))

    def read(self) -> EFile:
        """The file with its packages."""
        root = self.file.root
        tops = root.children if root.name == 'XMI' and is_xmi(root.space) else [root]
        for top in tops:
            if is_xmi(top.space):
                continue
            if (top.space, top.name) != (ECORE, 'EPackage'):
                fault(self.file.path, top.line, f'not Ecore: the root is {top.name}, and no EPackage of {ECORE}')
            check(self.file.path, top, 'EPackage')
            self.file.packages.append(self.package(top))
        if not self.file.packages:
            fault(self.file.path, None, 'not Ecore: no EPackage')
        return self.file

    def keep(self, element: Element, made: Target) -> None:
        """Notes what an element was read as."""
        self.file.objects[id(element)] = made

    def package(self, element: Element) -> EPackage:
        """A package."""
        made = EPackage(
            value_of(element, 'name') or '', value_of(element, 'nsURI') or '', value_of(element, 'nsPrefix') or '',
            element,
        )
        self.keep(element, made)
        self.notes.tell('package', made.name, 'left out; its classifiers are in the document')
        self.annotations(element, made.name)
        made.classifiers = [self.classifier(child, made) for child in children(element, 'eClassifiers')]
        made.subpackages = [self.package(child) for child in children(element, 'eSubpackages')]
        return made

    def annotations(self, element: Element, owner: str) -> None:
        """Notes the annotations of an element."""
        for child in children(element, 'eAnnotations'):
            self.notes.tell('annotation', owner, f'left out: {child.plain("source") or "without source"}')

    def classifier(self, element: Element, package: EPackage) -> EClassifier:
        """A class, an enumeration or a data type."""
        name = value_of(element, 'name') or ''
        kind = kind_of(self.file.path, element)
        made: EClassifier
        if kind == 'EClass':
            made = self.eclass(element, name, package)
        elif kind == 'EEnum':
            made = EEnum(name, element, package, [self.literal(it) for it in children(element, 'eLiterals')])
        else:
            made = EDataType(name, element, package)
        self.keep(element, made)
        self.annotations(element, made.qualified)
        for child in children(element, 'eTypeParameters'):
            bound = next((erased(it) for it in children(child, 'eBounds')), None)
            self.keep(child, ETypeParameter(child.plain('name') or '', child, bound))
        return made

    @staticmethod
    def literal(element: Element) -> EEnumLiteral:
        """A literal; its text in XMI is its name if it has no other."""
        name = value_of(element, 'name') or ''
        return EEnumLiteral(name, value_of(element, 'value') or '0', value_of(element, 'literal') or name)

    def eclass(self, element: Element, name: str, package: EPackage) -> EClass:
        """A class with its features."""
        made = EClass(name, element, package)
        made.is_abstract = is_true(element, 'abstract', False)
        made.is_interface = is_true(element, 'interface', False)
        made.super_links = links_of(element, 'eSuperTypes')
        erasures = [erased(child) for child in children(element, 'eGenericSuperTypes')]
        made.generic_super_links = [link for link in erasures if link]
        made.features = [self.feature(child, made) for child in children(element, 'eStructuralFeatures')]
        for child in children(element, 'eOperations'):
            self.notes.tell('operation', f'{made.qualified}.{value_of(child, "name") or ""}', 'left out')
        return made

    def feature(self, element: Element, owner: EClass) -> EFeature:
        """A feature."""
        generic = next(iter(children(element, 'eGenericType')), None)
        flags: Dict[str, bool] = {name: is_true(element, name, default) for name, default in FLAGS.items()}
        made = EFeature(
            name=value_of(element, 'name') or '', element=element, owner=owner,
            is_reference=kind_of(self.file.path, element) == 'EReference', flags=flags,
            lower=number_of(element, 'lowerBound', 0), upper=number_of(element, 'upperBound', 1),
            type_link=erased(generic) if generic is not None else link_of(element, 'eType'),
            is_generic=generic is not None, default=value_of(element, 'defaultValueLiteral'),
            opposite_link=link_of(element, 'eOpposite'), has_keys=bool(links_of(element, 'eKeys')),
            is_grouped=bool(detail(element, 'group')) or is_in_mixed(element, owner.element, flags),
        )
        self.keep(element, made)
        self.annotations(element, made.qualified)
        return made


def detail(element: Element, key: str) -> str:
    """What the extended metadata of an element says under a key; empty if it says nothing."""
    found = (
        it.plain('value') for annotation in children(element, 'eAnnotations') if annotation.plain('source') == EXTENDED
        for it in children(annotation, 'details') if it.plain('key') == key
    )
    return next(found, None) or ''


def is_in_mixed(feature: Element, owner: Element, flags: Dict[str, bool]) -> bool:
    """Whether the values of a feature are in the feature map that a class of mixed content has for all of its elements."""
    return flags['derived'] and detail(owner, 'kind') == 'mixed' and detail(feature, 'kind') == 'element'
