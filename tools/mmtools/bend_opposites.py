"""Converts opposites: each end is declared in the class that is the type of the other end, and names the other end."""

from __future__ import annotations

from typing import Dict

from .metamodel import Left, MFeature
from .notes import Notes


def fault_of(one: MFeature, other: MFeature) -> str:
    """The reason why two features can't be opposites here; empty if they can."""
    if one is other:
        return 'it names itself'
    if other.source is None or one.source is None or other.source.opposite is not one.source:
        return 'the other end does not name it'
    if one.containment and other.containment:
        return 'both ends contain'
    if one.type is not other.owner or other.type is not one.owner:
        return 'an end is only inherited by the type of the other'
    return ''


def join_ends(one: MFeature, other: MFeature, notes: Notes) -> None:
    """Makes two features opposites. The end at the part has an upper bound of 1."""
    one.opposite = other
    if other.containment and one.upper != 1:
        notes.tell('bounds', one.qualified, f'{one.lower}..{one.upper} becomes {min(one.lower, 1)}..1: it leads to a holder')
        one.lower, one.upper = min(one.lower, 1), 1


def leave_out(one: MFeature, why: str, notes: Notes) -> None:
    """Leaves out the end at a part if the containment is no opposite here: the container of the part is known anyway."""
    one.owner.features.remove(one)
    if one.source is not None:
        one.owner.left[one.source.name] = Left('its opposite is a containment', one.source)
    notes.tell('opposite', one.qualified, f'left out with its opposite: {why}; `container` tells the holder')


def bend_opposites(features: Dict[object, MFeature], notes: Notes) -> None:
    """Joins the ends of all features."""
    for one in list(features.values()):
        if one.source is None or one.source.opposite_link is None:
            continue
        other = features.get(one.source.opposite)
        why = 'it is no reference here' if other is None or not other.is_reference or not one.is_reference else fault_of(one, other)
        if not why and other is not None:
            join_ends(one, other, notes)
        elif other is not None and other.containment and not one.containment and why.startswith('an end'):
            leave_out(one, why, notes)
        else:
            notes.tell('opposite', one.qualified, f'has none here: {why}')
