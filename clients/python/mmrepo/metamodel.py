"""The classes of a metamodel, as its document has them. The program has checked the document before it is read here."""

from __future__ import annotations

import json
from typing import Any, Dict, List, Optional


class EClassifier:
    """A class or an enumeration: it has a name, and can be the type of a feature."""

    def __init__(self, name: str) -> None:
        self.name = name

    def __repr__(self) -> str:
        return f'<{type(self).__name__} {self.name}>'


class EDataType(EClassifier):
    """`EString`, `EInt`, `ELong` or `EBoolean`."""


class EEnum(EClassifier):
    """An enumeration. `eLiterals` has the names of its literals; the value of a literal is its position there."""

    def __init__(self, name: str, literals: List[str]) -> None:
        super().__init__(name)
        self.eLiterals = literals


class EStructuralFeature:
    """A feature of a class. A feature is `many` if its values are a list; `upper` is -1 if there is no bound."""

    def __init__(self, owner: EClass, document: Dict[str, Any], types: Dict[str, EClassifier]) -> None:
        self.name: str = document['name']
        self.eContainingClass = owner
        self.eType = types[document['type']]
        self.is_enumeration = isinstance(self.eType, EEnum)
        self.lower: int = document.get('lower', 0)
        self.upper: int = document.get('upper', 1)
        self.many = self.upper != 1

    @property
    def required(self) -> bool:
        """Whether `validate` asks for a value."""
        return self.lower > 0

    def __repr__(self) -> str:
        return f'<{type(self).__name__} {self.eContainingClass.name}.{self.name}>'


class EAttribute(EStructuralFeature):
    """A feature whose values are data. `default` is the literal of the document; None if the document gives none."""

    def __init__(self, owner: EClass, document: Dict[str, Any], types: Dict[str, EClassifier]) -> None:
        super().__init__(owner, document, types)
        self.unique: bool = document.get('unique', True)
        self.unsettable: bool = document.get('unsettable', False)
        self.default: Optional[str] = document.get('default')


class EReference(EStructuralFeature):
    """A feature whose values are objects."""

    def __init__(self, owner: EClass, document: Dict[str, Any], types: Dict[str, EClassifier]) -> None:
        super().__init__(owner, document, types)
        self.containment: bool = document.get('containment', False)
        self._opposite: Optional[str] = document.get('opposite')

    @property
    def eOpposite(self) -> Optional[EReference]:
        """The reference that is the other end, or None."""
        if self._opposite is None:
            return None
        assert isinstance(self.eType, EClass)
        found = self.eType.findEStructuralFeature(self._opposite)
        assert isinstance(found, EReference)
        return found

    @property
    def container(self) -> bool:
        """Whether the reference leads from a part to its container."""
        opposite = self.eOpposite
        return opposite is not None and opposite.containment


class EClass(EClassifier):
    """A class. `eSuperTypes` and `eStructuralFeatures` have the supertypes that it names, and the features that it declares."""

    def __init__(self, name: str, abstract: bool) -> None:
        super().__init__(name)
        self.abstract = abstract
        self.eSuperTypes: List[EClass] = []
        self.eStructuralFeatures: List[EStructuralFeature] = []
        self._all: Optional[Dict[str, EStructuralFeature]] = None
        self.attributes: Optional[Dict[str, EStructuralFeature]] = None  # the features that are Python attributes; None until one is read

    def eAllStructuralFeatures(self) -> List[EStructuralFeature]:
        """All features, own and inherited, in the order of docs/METAMODEL.md."""
        return list(self._features().values())

    def findEStructuralFeature(self, name: str) -> Optional[EStructuralFeature]:
        """The feature of a name, own or inherited, or None."""
        return self._features().get(name)

    def eAllSuperTypes(self) -> List[EClass]:
        """All supertypes, direct and inherited, each once."""
        found: List[EClass] = []
        waiting = list(self.eSuperTypes)
        for above in waiting:
            if above not in found:
                found.append(above)
                waiting.extend(above.eSuperTypes)
        return found

    def isSubTypeOf(self, other: EClass) -> bool:
        """Whether the class is `other` or a subclass of it."""
        return self is other or other in self.eAllSuperTypes()

    def _features(self) -> Dict[str, EStructuralFeature]:
        """All features by name. Supertypes are gone through without recursion: a chain of them may have 1,000 classes."""
        waiting = [self]
        while self._all is None:
            top = waiting[-1]
            missing = [above for above in top.eSuperTypes if above._all is None]
            if missing:
                waiting.extend(missing)
            else:
                top._all = top._merged()
                waiting.pop()
        return self._all

    def _merged(self) -> Dict[str, EStructuralFeature]:
        """The features of the supertypes, each at the position where it comes up first, and then the features that the class declares."""
        found: Dict[str, EStructuralFeature] = {}
        for above in self.eSuperTypes:
            for name, feature in above._features().items():
                found.setdefault(name, feature)
        found.update((feature.name, feature) for feature in self.eStructuralFeatures)
        return found


class Metamodel:
    """The classes and enumerations of a document, by name, each in the order of the document."""

    def __init__(self, document: bytes) -> None:
        """Reads a document that the engine accepted."""
        read = json.loads(document)
        self.enums: Dict[str, EEnum] = {it['name']: EEnum(it['name'], it['literals']) for it in read.get('enums', [])}
        self.classes: Dict[str, EClass] = {
            it['name']: EClass(it['name'], it.get('abstract', False)) for it in read['classes']
        }
        types: Dict[str, EClassifier] = {name: EDataType(name) for name in ('EString', 'EInt', 'ELong', 'EBoolean')}
        types.update(self.enums)
        types.update(self.classes)
        for it in read['classes']:
            made = self.classes[it['name']]
            made.eSuperTypes = [self.classes[name] for name in it.get('supers', [])]
            for feature in it.get('features', []):
                kind = EAttribute if feature['kind'] == 'attribute' else EReference
                made.eStructuralFeatures.append(kind(made, feature, types))

    def getEClassifier(self, name: str) -> Optional[EClassifier]:
        """The class or the enumeration of a name, or None."""
        return self.classes.get(name) or self.enums.get(name)
