"""Reads a metamodel document. The repository checks it; here only what a diagram needs is looked at."""

from __future__ import annotations

from typing import Any, Dict, List, Type, Union

from .document_reader import read_json
from .faults import fault
from .metamodel import DATA_TYPES, MClass, MEnum, Metamodel, MFeature


class MetamodelReader:
    """Reads one document."""

    def __init__(self, file: str) -> None:
        """Classes and enumerations are found by name."""
        self.file = file
        self.enums: Dict[str, MEnum] = {}
        self.classes: Dict[str, MClass] = {}

    def get(self, value: Any, where: str, key: str, kind: Type[Any], default: Any = None) -> Any:
        """The value of a key; a fault if it is of another kind, or absent without a default."""
        if not isinstance(value, dict):
            fault(self.file, None, f'{where} is no object')
        found = value.get(key, default)
        if not isinstance(found, kind) or kind is int and isinstance(found, bool):
            fault(self.file, None, f'{where}: {key} is absent or of another kind')
        return found

    def texts(self, value: Any, where: str, key: str, default: Any = None) -> List[str]:
        """A list of texts."""
        found = self.get(value, where, key, list, default)
        if not all(isinstance(it, str) for it in found):
            fault(self.file, None, f'{where}: {key} has what is no text')
        return list(found)

    def read(self) -> Metamodel:
        """The metamodel."""
        top = read_json(self.file)
        made = Metamodel()
        for place, value in enumerate(self.get(top, 'the document', 'enums', list, [])):
            where = f'enum {place}'
            enum = MEnum(self.get(value, where, 'name', str), self.texts(value, where, 'literals'))
            made.enums.append(enum)
            self.enums.setdefault(enum.name, enum)
        values = self.get(top, 'the document', 'classes', list)
        for place, value in enumerate(values):
            where = f'class {place}'
            it = MClass(self.get(value, where, 'name', str), self.get(value, where, 'abstract', bool, False))
            made.classes.append(it)
            self.classes.setdefault(it.name, it)
        for place, (it, value) in enumerate(zip(made.classes, values)):
            self.fill(it, value, f'class {place}')
        for it, value in zip(made.classes, values):
            for feature, raw in zip(it.features, value.get('features', [])):
                self.join(feature, raw)
        return made

    def fill(self, it: MClass, value: Any, where: str) -> None:
        """The supertypes and features of a class."""
        for name in self.texts(value, where, 'supers', []):
            if name not in self.classes:
                fault(self.file, None, f'{where}: no class {name[:80]}')
            it.supers.append(self.classes[name])
        for place, raw in enumerate(self.get(value, where, 'features', list, [])):
            it.features.append(self.feature(it, raw, f'{where} feature {place}'))

    def feature(self, owner: MClass, raw: Any, where: str) -> MFeature:
        """A feature without its opposite."""
        name, type_name = self.get(raw, where, 'name', str), self.get(raw, where, 'type', str)
        kind = self.get(raw, where, 'kind', str)
        of: Union[str, MEnum, MClass, None] = self.enums.get(type_name)
        if kind == 'reference':
            of = self.classes.get(type_name)
        elif type_name in DATA_TYPES:
            of = type_name
        if of is None or kind not in ('attribute', 'reference'):
            fault(self.file, None, f'{where}: no {kind} has the type {type_name[:80]}')
        default = raw.get('default')
        if default is not None and not isinstance(default, str):
            fault(self.file, None, f'{where}: default is no text')
        return MFeature(
            name, owner, of, self.get(raw, where, 'lower', int, 0), self.get(raw, where, 'upper', int, 1),
            self.get(raw, where, 'unique', bool, True), self.get(raw, where, 'unsettable', bool, False), default,
            self.get(raw, where, 'containment', bool, False),
        )

    def join(self, feature: MFeature, raw: Dict[str, Any]) -> None:
        """The opposite of a feature."""
        name = raw.get('opposite')
        if name is None:
            return
        there = feature.type.features if isinstance(feature.type, MClass) else []
        feature.opposite = next((it for it in there if it.name == name and it is not feature and it.is_reference), None)
        if feature.opposite is None:
            fault(self.file, None, f'{feature.qualified}: no opposite {str(name)[:80]}')
