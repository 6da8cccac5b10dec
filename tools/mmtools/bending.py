"""Makes a metamodel of the packages of Ecore. What the repository has is taken over; the rest is converted or left out, and noted."""

from __future__ import annotations

import os
from typing import Dict, Iterable, List, Optional, Set, Tuple

from .bend_features import LOSES_NOTHING, bend_feature, no_type, reason_to_leave
from .bend_opposites import bend_opposites
from .ecore_links import join
from .ecore_model import EClass, EClassifier, EDataType, EEnum, EFile
from .ecore_reader import Reader
from .metamodel import (
    MOST_CLASSES, MOST_ENUMS, MOST_FEATURES, MOST_LITERALS, MOST_SUPERS, Left, MClass, MEnum, Metamodel, MFeature
)
from .names import RESERVED, bent, numbered
from .notes import Notes
from .xml_reader import ECORE

ANY = 'EObject'


class Bent:
    """A metamodel, and the part of it that each part of Ecore became."""

    def __init__(self, notes: Notes) -> None:
        """The notes are made while the parts are made."""
        self.notes = notes
        self.meta = Metamodel()
        self.classes: Dict[EClass, MClass] = {}
        self.enums: Dict[EEnum, MEnum] = {}
        self.features: Dict[object, MFeature] = {}
        self.names: Set[str] = set(RESERVED)
        self.any_object: Optional[MClass] = None
        self.by_name: Dict[Tuple[str, str], MClass] = {}
        self.files: List[EFile] = []

    def classifier_name(self, classifier: EClassifier) -> str:
        """The name of a class or an enumeration. If the name is taken, the package's name is added, and if that is taken too, a
        number.
        """
        kind = 'enumeration' if isinstance(classifier, EEnum) else 'class'
        made = bent(classifier.name)
        if made in self.names:
            made = bent(f'{classifier.package.name}_{classifier.name}')
        made = numbered(made, self.names)
        self.names.add(made)
        if made != classifier.name:
            self.notes.tell(f'{kind} name', classifier.qualified, f'becomes {made}')
        return made

    def add_enum(self, source: EEnum) -> None:
        """An enumeration with its literals."""
        if not source.literals or len(self.meta.enums) == MOST_ENUMS:
            why = 'has no literals' if not source.literals else f'is past {MOST_ENUMS} enumerations'
            self.notes.tell('enumeration', source.qualified, f'left out: {why}; attributes of it become EString', None, True)
            return
        made = MEnum(self.classifier_name(source), [], {}, source)
        for literal in source.literals[:MOST_LITERALS]:
            name = numbered(bent(literal.name), made.texts)
            if name != literal.name:
                self.notes.tell('literal name', f'{source.qualified}.{literal.name}', f'becomes {name}')
            made.literals.append(name)
            made.texts[name] = literal.literal
        if len(source.literals) > MOST_LITERALS:
            self.notes.tell('enumeration', source.qualified, f'literals left out: more than {MOST_LITERALS}', None, True)
        if [it.value.strip() for it in source.literals] != [str(place) for place in range(len(source.literals))]:
            self.notes.tell('enumeration', source.qualified, 'numbers left out; the value of a literal is its position')
        self.meta.enums.append(made)
        self.enums[source] = made

    def add_class(self, source: EClass) -> None:
        """A class without its supertypes and features."""
        if len(self.meta.classes) == MOST_CLASSES:
            self.notes.tell('class', source.qualified, f'left out: more than {MOST_CLASSES} classes', None, True)
            return
        made = MClass(self.classifier_name(source), source.is_abstract or source.is_interface, source=source)
        if source.is_interface:
            self.notes.tell('interface', source.qualified, 'becomes an abstract class')
        if source.element.plain('instanceClassName') or source.element.plain('instanceTypeName'):
            self.notes.tell('instance class', source.qualified, 'left out')
        self.meta.classes.append(made)
        self.classes[source] = made
        self.by_name.setdefault((source.package.uri, source.name), made)

    def add_supers(self, made: MClass, sources: Iterable[EClass], name: str) -> None:
        """The supertypes of a class, without those that close a cycle or are too many."""
        for source in sources:
            found = self.classes.get(source)
            why = ''
            if found is None:
                why = 'it is left out'
            elif found is made or made in found.above():
                why = 'it closes a cycle'
            elif len(made.supers) == MOST_SUPERS:
                why = f'more than {MOST_SUPERS} supertypes'
            if why:
                self.notes.tell('supertype', name, f'{source.name} left out: {why}', None, True)
            elif found is not None:
                made.supers.append(found)

    def object_class(self) -> Optional[MClass]:
        """The supertype of all classes: Ecore's EObject if it is among the files, else an abstract class that is added."""
        if self.any_object is not None:
            return self.any_object
        found = next((it for it in self.meta.classes if is_object_class(it.source)), None)
        if found is None and len(self.meta.classes) < MOST_CLASSES:
            found = MClass(numbered(ANY, self.names), True)
            self.names.add(found.name)
            self.meta.classes.append(found)
        self.any_object = found
        return found

    def add_features(self, made: MClass, source: EClass) -> None:
        """The features of a class."""
        for feature in source.features:
            why = reason_to_leave(feature)
            bent_feature = None if why else bend_feature(self, made, feature)
            if bent_feature is None:
                why = why or no_type(feature)
            elif len(made.features) == MOST_FEATURES:
                why = f'more than {MOST_FEATURES} features'
            else:
                made.features.append(bent_feature)
                self.features[feature] = bent_feature
            if why:
                made.left[feature.name] = Left(why, feature)
                kind = 'reference' if feature.is_reference else 'attribute'
                self.notes.tell(kind, feature.qualified, f'left out: {why}', None, why not in LOSES_NOTHING)

    def put_object_class_above(self) -> None:
        """Makes the supertype of all classes the supertype of those that have none."""
        above = self.any_object
        if above is None:
            return
        for made in self.meta.classes:
            if not made.supers and made not in above.above():
                made.supers.append(above)
        self.notes.tell('class', above.name, 'is the supertype of each class without one, since references lead to EObject')

    def separate_names(self) -> None:
        """Renames the later one of two features of a class that have one name."""
        taken = {feature.name for made in self.meta.classes for feature in made.features}
        for made in self.meta.classes:
            seen: Dict[str, MFeature] = {}
            for feature in made.all_features():
                if seen.setdefault(feature.name, feature) is not feature:
                    name = numbered(feature.name, taken)
                    self.notes.tell('feature name', feature.qualified, f'becomes {name}: {made.name} has two of the name')
                    feature.name = name
                    taken.add(name)
                    seen[name] = feature


def is_object_class(source: Optional[EClass]) -> bool:
    """Whether a class is the EObject of Ecore."""
    return source is not None and source.name == ANY and source.package.uri == ECORE


def tell_data_types(classifiers: List[EClassifier], notes: Notes) -> None:
    """Notes the data types of users."""
    for it in classifiers:
        if isinstance(it, EDataType) and it.package.uri != ECORE:
            notes.tell('data type', it.qualified, 'becomes EString')


def bend(files: List[EFile], notes: Notes) -> Bent:
    """The metamodel of the packages of all files."""
    join(files, notes)
    made = Bent(notes)
    made.files = files
    classifiers = [it for file in files for package in file.all_packages() for it in package.classifiers]
    tell_data_types(classifiers, notes)
    for it in classifiers:
        if isinstance(it, EEnum):
            made.add_enum(it)
        elif isinstance(it, EClass):
            made.add_class(it)
    for source, class_made in made.classes.items():
        made.add_supers(class_made, source.supers, source.qualified)
    for source, class_made in made.classes.items():
        made.add_features(class_made, source)
    made.put_object_class_above()
    bend_opposites(made.features, notes)
    made.separate_names()
    return made


def bend_paths(paths: List[str], notes: Notes) -> Bent:
    """The metamodel of `.ecore` files; one that is named twice counts once."""
    once = {os.path.realpath(path): path for path in reversed(paths)}
    return bend([Reader(path, notes).read() for path in reversed(list(once.values()))], notes)
