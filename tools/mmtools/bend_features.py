"""Converts a feature of Ecore to a feature of the repository: its type, bounds, flags and default."""

from __future__ import annotations

from typing import TYPE_CHECKING, Optional, Union

from .datatypes import BUILT_IN, OBJECTS, literal_of
from .ecore_model import EClass, EDataType, EEnum, EFeature
from .metamodel import MClass, MEnum, MFeature
from .names import bent
from .notes import shortened
from .xml_reader import ECORE

if TYPE_CHECKING:
    from .bending import Bent

FEATURE_MAP = 'ecore:EFeatureMapEntry'
CHARS = ('ecore:EChar', 'ecore:ECharacterObject')
Type = Union[str, MEnum, MClass, None]
MAP, DERIVED, TRANSIENT = 'a feature map; the features of its group stay', 'derived', 'transient'
LOSES_NOTHING = (MAP, DERIVED, TRANSIENT)  # reasons to leave out what EMF calculates, or has elsewhere
FLAGS = {
    'changeable': (False, 'unchangeable', 'can be changed here'),
    'volatile': (True, 'volatile', 'is stored here'),
    'iD': (True, 'id', 'is an attribute like another; references go by position'),
}


def built_in(feature: EFeature) -> str:
    """The name of the type of a feature, as `ecore:EInt`; empty if the type is not one of Ecore."""
    found = feature.type
    if isinstance(found, str):
        return found
    if isinstance(found, (EDataType, EClass)) and found.package.uri == ECORE:
        return f'ecore:{found.name}'
    return ''


def is_stored(feature: EFeature) -> bool:
    """Whether a feature is neither derived nor transient, or its values are in a feature map."""
    return feature.is_grouped or not (feature.flags['derived'] or feature.flags['transient'])


def reason_to_leave(feature: EFeature) -> str:
    """Why a feature is left out whatever its type; empty if it isn't."""
    if not feature.is_reference and built_in(feature) == FEATURE_MAP:
        return MAP
    if feature.is_grouped:
        return ''
    if feature.flags['derived']:
        return DERIVED
    other = feature.opposite
    if feature.flags['transient'] and not (other and other.opposite is feature and is_stored(other)):
        return TRANSIENT
    return ''


def attribute_type(bending: 'Bent', feature: EFeature) -> Type:
    """The type of an attribute."""
    tell = bending.notes.tell
    found = feature.type
    name = built_in(feature)
    if isinstance(found, EEnum):
        return bending.enums.get(found, 'EString')
    if isinstance(found, EClass):
        return None
    if name.startswith('ecore:') and name[6:] in BUILT_IN:
        made, loss = BUILT_IN[name[6:]]
        if loss:
            tell('attribute type', feature.qualified, f'{name[6:]} becomes {made}: {loss}')
        return made
    if not isinstance(found, EDataType) or name:
        what = name.partition(':')[2] or 'no data type of the files given'
        tell('attribute type', feature.qualified, f'{what} becomes EString' + (': the number of the character' if name in CHARS else ''))
    return 'EString'


def reference_type(bending: 'Bent', feature: EFeature) -> Type:
    """The type of a reference."""
    if built_in(feature) == 'ecore:EObject':
        return bending.object_class()
    found = feature.type
    return bending.classes.get(found) if isinstance(found, EClass) else None


def bend_bounds(bending: 'Bent', made: MFeature, source: EFeature) -> None:
    """The bounds. The upper bound is -1 if it is no number, or is unspecified in a feature map; any other impossible one becomes 1."""
    upper = -1 if source.upper is None or source.upper == -2 and source.is_grouped else source.upper
    upper = 1 if upper < -1 or upper == 0 else upper
    lower = max(0, source.lower or 0)
    made.upper, made.lower = upper, lower if upper == -1 else min(lower, upper)
    if (made.lower, made.upper) != (source.lower, source.upper):
        old = f'{source.lower}..{source.upper}'.replace('None', '?')
        bending.notes.tell('bounds', source.qualified, f'{old} becomes {made.lower}..{made.upper}')


def bend_flags(bending: 'Bent', made: MFeature, source: EFeature) -> None:
    """The flags that the repository has. The others are noted."""
    tell = bending.notes.tell
    for flag, (value, kind, text) in FLAGS.items():
        if source.flags[flag] == value and not source.is_grouped:
            tell(kind, source.qualified, text)
    if source.flags['transient'] and not source.is_grouped:
        tell('transient', source.qualified, 'stays, since its opposite is stored')
    if source.is_grouped:
        tell('group', source.qualified, 'is a list of its own; the order among the features of its feature map is lost')
    if made.is_many and not source.flags['ordered']:
        tell('unordered', source.qualified, 'is ordered here')
    if made.is_many and not source.flags['unique']:
        if made.is_reference:
            tell('not unique', source.qualified, 'holds an object once here')
        made.unique = made.is_reference
    if built_in(source) in OBJECTS and not source.is_reference and not made.is_many and source.default is None:
        made.unsettable = True
    elif source.flags['unsettable']:
        made.unsettable = not made.is_reference and not made.is_many
        if not made.unsettable:
            tell('unsettable', source.qualified, 'is set here if it has a value')
    if source.has_keys:
        tell('keys', source.qualified, 'left out; references go by position')


def bend_default(bending: 'Bent', made: MFeature, source: EFeature) -> None:
    """The default literal."""
    if source.default is None:
        return
    if not isinstance(made.type, MClass) and not made.is_many:
        made.default = literal_of(made.type, source.default)
    if made.default is None:
        bending.notes.tell('default', source.qualified, f'left out: {shortened(source.default)}', None, True)


def no_type(feature: EFeature) -> str:
    """Why the type of a feature has no place."""
    found = feature.type
    if not feature.is_reference:
        return 'its type is a class'
    if isinstance(found, EClass):
        return f'class {found.name} is left out'
    if isinstance(found, (EDataType, EEnum)):
        return 'its type is a data type'
    return f'no class of the files given: {feature.type_link}' if feature.type_link else 'it has no type'


def bend_feature(bending: 'Bent', owner: MClass, source: EFeature) -> Optional[MFeature]:
    """The feature; None if its type has no place."""
    kind = reference_type if source.is_reference else attribute_type
    found = kind(bending, source)
    if found is None:
        return None
    made = MFeature(bent(source.name), owner, found, source=source)
    if made.name != source.name:
        bending.notes.tell('feature name', source.qualified, f'becomes {made.name}')
    if source.is_generic:
        bending.notes.tell('generic type', source.qualified, f'erased to {made.type_name}')
    made.containment = source.is_reference and source.flags['containment']
    bend_bounds(bending, made, source)
    bend_flags(bending, made, source)
    bend_default(bending, made, source)
    return made
