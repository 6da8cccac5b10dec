"""The parts of Ecore that are read from `.ecore` files."""

from __future__ import annotations

from dataclasses import dataclass, field
from typing import Dict, List, Optional, Union

from .xml_reader import Element


@dataclass(eq=False)
class EPackage:
    """A package with its classifiers and subpackages."""

    name: str
    uri: str
    prefix: str
    element: Element
    classifiers: List['EClassifier'] = field(default_factory=list)
    subpackages: List['EPackage'] = field(default_factory=list)

    def all(self) -> List['EPackage']:
        """This package, and those below it."""
        return [self] + [package for below in self.subpackages for package in below.all()]


@dataclass(eq=False)
class ENamed:
    """A part of a package that has a name, and its element in the file."""

    name: str
    element: Element
    package: EPackage

    @property
    def qualified(self) -> str:
        """The name for notes."""
        return f'{self.package.name}.{self.name}'


@dataclass(eq=False)
class EDataType(ENamed):
    """A data type, of Ecore or of a user."""


@dataclass(eq=False)
class EEnumLiteral:
    """A literal of an enumeration: its name, its number, and the text that stands for it in XMI."""

    name: str
    value: str
    literal: str


@dataclass(eq=False)
class EEnum(ENamed):
    """An enumeration."""

    literals: List[EEnumLiteral] = field(default_factory=list)


@dataclass(eq=False)
class ETypeParameter:
    """A type parameter: its name, and the classifier of its first bound."""

    name: str
    element: Element
    bound: Optional[str] = None


@dataclass(eq=False)
class EFeature:
    """An attribute or a reference."""

    name: str
    element: Element
    owner: 'EClass'
    is_reference: bool
    flags: Dict[str, bool]
    lower: Optional[int]
    upper: Optional[int]
    type_link: Optional[str]
    is_generic: bool
    default: Optional[str]
    opposite_link: Optional[str]
    has_keys: bool
    is_grouped: bool
    type: Union['EClassifier', ETypeParameter, str, None] = None
    opposite: Optional['EFeature'] = None

    @property
    def qualified(self) -> str:
        """The name for notes."""
        return f'{self.owner.qualified}.{self.name}'


@dataclass(eq=False)
class EClass(ENamed):
    """A class."""

    is_abstract: bool = False
    is_interface: bool = False
    super_links: List[str] = field(default_factory=list)
    generic_super_links: List[str] = field(default_factory=list)
    supers: List['EClass'] = field(default_factory=list)
    features: List[EFeature] = field(default_factory=list)


EClassifier = Union[EClass, EDataType, EEnum]
Target = Union[EClassifier, EFeature, ETypeParameter, EPackage]


@dataclass(eq=False)
class EFile:
    """A file with its root packages, and the Ecore object of each element."""

    path: str
    root: Element
    packages: List[EPackage] = field(default_factory=list)
    objects: Dict[int, Target] = field(default_factory=dict)

    def all_packages(self) -> List[EPackage]:
        """The packages of the file, with their subpackages."""
        return [package for root in self.packages for package in root.all()]
