"""Completes links that only one of two opposite ends names, in the order in which EMF does it."""

from __future__ import annotations

from typing import TYPE_CHECKING, Dict, List, Set, Tuple

from .notes import Notes
from .objects import Obj, Slot, held

if TYPE_CHECKING:
    from .xmi_reader import XmiReader

LONG = 20  # from this length on the values of a list are searched in a set


class Completion:
    """Completes the links of one file, whose references are joined."""

    def __init__(self, reader: 'XmiReader', notes: Notes) -> None:
        """`back` has the links whose opposite end is transient, as EMF sets them."""
        self.back, self.plans, self.notes = reader.back, reader.plans, notes
        self.sets: Dict[Tuple[Obj, str], Set[object]] = {}

    def complete(self, objects: List[Obj]) -> None:
        """Completes the transient ends first, and then all ends in the order of the objects."""
        for target, slot, owner in self.back:
            if owner in held(target, self.other(target, slot)):
                continue
            if not self.add(target, self.other(target, slot), owner):
                self.take_over(target, slot, owner)
        for obj in objects:
            for slot in self.plans[obj.of].ends:
                value = obj.values.get(slot.name)
                is_joined = type(value) is Obj and value.values.get(slot.opposite.name) is obj
                if value is not None and not is_joined:
                    self.complete_end(obj, slot)

    def other(self, target: Obj, slot: Slot) -> Slot:
        """The slot of the other end."""
        assert slot.opposite is not None
        return self.plans[target.of].by_name[slot.opposite.name]

    def complete_end(self, obj: Obj, slot: Slot) -> None:
        """Completes the links of one end; a link whose other end is full is left out."""
        values = held(obj, slot)
        kept = [it for it in values if isinstance(it, str) or self.has_back(it, slot, obj)]
        if len(kept) < len(values):
            self.cut(obj, slot, kept)

    def cut(self, obj: Obj, slot: Slot, kept: List[object]) -> None:
        """Removes some links of an end, and notes it."""
        assert slot.opposite is not None
        self.notes.tell('link', slot.feature.qualified, f'left out: {slot.opposite.qualified} names another one', obj.line, True)
        self.sets.pop((obj, slot.name), None)
        if kept:
            obj.values[slot.name] = kept
        else:
            del obj.values[slot.name]

    def has_back(self, target: Obj, slot: Slot, owner: Obj) -> bool:
        """Whether the opposite end names an object too, or takes it now."""
        other = self.other(target, slot)
        if not other.is_many:
            found = target.values.get(other.name)
            return found is owner or found is None and self.add(target, other, owner)
        return owner in self.members(target, other) or self.add(target, other, owner)

    def members(self, obj: Obj, slot: Slot) -> object:
        """The values of a list, in a form in which a value is found fast."""
        values = obj.values.get(slot.name, [])
        if len(values) < LONG:
            return values
        key = (obj, slot.name)
        if key not in self.sets:
            self.sets[key] = set(values)
        return self.sets[key]

    def add(self, obj: Obj, slot: Slot, value: Obj) -> bool:
        """Adds a value unless the end is full."""
        if not slot.is_many:
            return obj.values.setdefault(slot.name, value) is value
        values = obj.values.setdefault(slot.name, [])
        upper = slot.feature.upper
        if upper != -1 and len(values) >= upper:
            return False
        values.append(value)
        if (obj, slot.name) in self.sets:
            self.sets[obj, slot.name].add(value)
        return True

    def take_over(self, target: Obj, slot: Slot, owner: Obj) -> None:
        """Makes a single end name the last object that names it, as EMF does; the link of the earlier object is left out."""
        other = self.other(target, slot)
        if other.is_many:
            return
        earlier = target.values[other.name]
        target.values[other.name] = owner
        if isinstance(earlier, Obj) and target in held(earlier, slot):
            self.cut(earlier, slot, [it for it in held(earlier, slot) if it is not target])
