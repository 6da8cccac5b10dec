"""A metamodel document of the repository, its classes, features and enumerations."""

from __future__ import annotations

import json
from dataclasses import dataclass, field
from typing import Any, Dict, List, NamedTuple, Optional, Union

from .ecore_model import EClass, EEnum, EFeature

DATA_TYPES = ('EString', 'EInt', 'ELong', 'EBoolean')
MOST_CLASSES = MOST_ENUMS = MOST_LITERALS = 1_000
MOST_SUPERS = 64
MOST_FEATURES = 256
LONGEST_NAME = 255
LONGEST_TEXT = 65_535
LONGEST_FILE = 16_777_216


@dataclass(eq=False)
class MEnum:
    """An enumeration: its literals, and the text of each in XMI."""

    name: str
    literals: List[str]
    texts: Dict[str, str] = field(default_factory=dict)
    source: Optional[EEnum] = None
    by_text: Dict[str, str] = field(default_factory=dict)

    def literal(self, text: str) -> Optional[str]:
        """The literal that a text of XMI stands for: by its text, else by its name."""
        if not self.by_text:
            self.by_text = {name: name for name in self.literals}
            self.by_text.update({self.texts.get(name, name): name for name in reversed(self.literals)})
        return self.by_text.get(text)


@dataclass(eq=False)
class MFeature:
    """A feature. The type is the name of a data type, an enumeration or a class."""

    name: str
    owner: 'MClass'
    type: Union[str, MEnum, 'MClass']
    lower: int = 0
    upper: int = 1
    unique: bool = True
    unsettable: bool = False
    default: Optional[str] = None
    containment: bool = False
    opposite: Optional['MFeature'] = None
    source: Optional[EFeature] = None

    @property
    def is_reference(self) -> bool:
        """Whether the feature is a reference."""
        return isinstance(self.type, MClass)

    @property
    def is_many(self) -> bool:
        """Whether its values are a list."""
        return self.upper != 1

    @property
    def is_container(self) -> bool:
        """Whether the reference leads from a part to its container."""
        return self.opposite is not None and self.opposite.containment

    @property
    def type_name(self) -> str:
        """The name of the type."""
        return self.type if isinstance(self.type, str) else self.type.name

    @property
    def qualified(self) -> str:
        """The name for notes."""
        return f'{self.owner.name}.{self.name}'

    def json(self) -> Dict[str, Any]:
        """The feature as the document writes it."""
        kind = 'reference' if self.is_reference else 'attribute'
        made: Dict[str, Any] = {'name': self.name, 'kind': kind, 'type': self.type_name}
        if self.lower != 0:
            made['lower'] = self.lower
        if self.upper != 1:
            made['upper'] = self.upper
        if self.is_many and not self.unique:
            made['unique'] = False
        if self.unsettable:
            made['unsettable'] = True
        if self.default is not None:
            made['default'] = self.default
        if self.containment:
            made['containment'] = True
        if self.opposite is not None:
            made['opposite'] = self.opposite.name
        return made


class Left(NamedTuple):
    """A feature of Ecore that is left out, and why."""

    why: str
    source: EFeature


@dataclass(eq=False)
class MClass:
    """A class. `left` says by name what became of the Ecore features that are left out."""

    name: str
    is_abstract: bool = False
    supers: List['MClass'] = field(default_factory=list)
    features: List[MFeature] = field(default_factory=list)
    source: Optional[EClass] = None
    left: Dict[str, Left] = field(default_factory=dict)

    def above(self) -> List['MClass']:
        """Its supertypes, depth first, each once, and then the class itself."""
        seen: Dict[int, MClass] = {}
        stack = [(self, False)]
        entered = set()
        while stack:
            at, is_done = stack.pop()
            if is_done:
                seen.setdefault(id(at), at)
            elif id(at) not in entered:
                entered.add(id(at))
                stack.append((at, True))
                stack += [(it, False) for it in reversed(at.supers)]
        return list(seen.values())

    def all_features(self) -> List[MFeature]:
        """Its features, those of its supertypes first."""
        return [feature for it in self.above() for feature in it.features]

    def json(self) -> Dict[str, Any]:
        """The class as the document writes it."""
        made: Dict[str, Any] = {'name': self.name}
        if self.is_abstract:
            made['abstract'] = True
        if self.supers:
            made['supers'] = [it.name for it in self.supers]
        if self.features:
            made['features'] = [feature.json() for feature in self.features]
        return made


@dataclass(eq=False)
class Metamodel:
    """The enumerations and classes of a document."""

    enums: List[MEnum] = field(default_factory=list)
    classes: List[MClass] = field(default_factory=list)

    def text(self) -> str:
        """The document: a line for each enumeration, each class and each feature."""
        enums = ',\n'.join(f'  {dumped({"name": it.name, "literals": it.literals})}' for it in self.enums)
        classes = ',\n'.join(class_text(it.json()) for it in self.classes)
        head = f'"enums": [\n{enums}\n],\n' if self.enums else ''
        return '{' + head + '"classes": [' + (f'\n{classes}\n' if self.classes else '') + ']}\n'


def dumped(value: Any) -> str:
    """A value as JSON."""
    return json.dumps(value, ensure_ascii=False)


def class_text(made: Dict[str, Any]) -> str:
    """A class with a line for each feature."""
    features = made.pop('features', [])
    head = '  ' + dumped(made)
    if not features:
        return head
    lines = ',\n'.join('    ' + dumped(feature) for feature in features)
    return f'{head[:-1]}, "features": [\n{lines}\n  ]' + '}'
