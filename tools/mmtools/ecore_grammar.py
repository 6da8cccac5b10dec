"""The attributes and children that each kind of Ecore element may have. A file with any other is not an Ecore file."""

from __future__ import annotations

from typing import Dict, FrozenSet, Tuple

from .faults import fault
from .xml_reader import ECORE, XSI, Element, is_xmi

Table = Dict[str, Tuple[FrozenSet[str], FrozenSet[str]]]


def kind(attributes: str, children: str) -> Tuple[FrozenSet[str], FrozenSet[str]]:
    """A row of the table, from names with spaces between them."""
    return frozenset(attributes.split()), frozenset(children.split())


NAMED = 'name'
CLASSIFIER = 'name instanceClassName instanceTypeName instanceClass defaultValue'
TYPED = 'name ordered unique lowerBound upperBound many required eType'
FEATURE = TYPED + ' changeable volatile transient defaultValueLiteral defaultValue unsettable derived'
TYPES = 'eAnnotations eType eGenericType'

ALLOWED: Table = {
    'EPackage': kind('name nsURI nsPrefix', 'eAnnotations eClassifiers eSubpackages'),
    'EClass': kind(
        CLASSIFIER + ' abstract interface eSuperTypes',
        'eAnnotations eTypeParameters eOperations eStructuralFeatures eSuperTypes eGenericSuperTypes',
    ),
    'EDataType': kind(CLASSIFIER + ' serializable', 'eAnnotations eTypeParameters'),
    'EEnum': kind(CLASSIFIER + ' serializable', 'eAnnotations eTypeParameters eLiterals'),
    'EEnumLiteral': kind('name value literal instance', 'eAnnotations'),
    'EAttribute': kind(FEATURE + ' iD', TYPES),
    'EReference': kind(
        FEATURE + ' containment container resolveProxies eOpposite eKeys', TYPES + ' eOpposite eKeys'
    ),
    'EOperation': kind(TYPED + ' eExceptions', TYPES + ' eParameters eTypeParameters eExceptions eGenericExceptions'),
    'ETypeParameter': kind(NAMED, 'eAnnotations eBounds'),
    'EGenericType': kind(
        'eClassifier eTypeParameter', 'eClassifier eTypeParameter eTypeArguments eUpperBound eLowerBound'
    ),
}

KIND_OF_CHILD = {
    'eSubpackages': 'EPackage',
    'eLiterals': 'EEnumLiteral',
    'eOperations': 'EOperation',
    'eTypeParameters': 'ETypeParameter',
    'eGenericType': 'EGenericType',
    'eGenericSuperTypes': 'EGenericType',
    'eBounds': 'EGenericType',
    'eTypeArguments': 'EGenericType',
    'eUpperBound': 'EGenericType',
    'eLowerBound': 'EGenericType',
    'eGenericExceptions': 'EGenericType',
}
TYPED_CHILDREN = {
    'eClassifiers': ('EClass', 'EDataType', 'EEnum'),
    'eStructuralFeatures': ('EAttribute', 'EReference'),
}


def kind_of(file: str, element: Element) -> str:
    """The class of Ecore of an element: by the feature that the element is in, or by its `xsi:type`."""
    if element.name not in TYPED_CHILDREN:
        return KIND_OF_CHILD.get(element.name, '')
    text = element.type_name()
    if text is None:
        fault(file, element.line, f'not Ecore: {element.name} without xsi:type')
    if element.qualified(text) not in [(ECORE, name) for name in TYPED_CHILDREN[element.name]]:
        fault(file, element.line, f'not Ecore: {element.name} of xsi:type {text}')
    return text.strip().rpartition(':')[2]


def check(file: str, element: Element, name: str) -> None:
    """Refuses an element if it, or an element below it, has anything that its kind can't have."""
    if name not in ALLOWED:
        return
    attributes, children = ALLOWED[name]
    for space, local in element.attributes:
        if space not in ('', XSI) and not is_xmi(space) or space == '' and local not in attributes | {'href'}:
            fault(file, element.line, f'not Ecore: {name} has no attribute {local}')
    simple = attributes - children
    for child in element.children:
        if is_xmi(child.space):
            continue
        if child.space or child.name not in children | simple:
            fault(file, child.line, f'not Ecore: {name} has no child {child.name}')
        if child.name in children:
            check(file, child, kind_of(file, child))
