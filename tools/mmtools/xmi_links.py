"""Joins the references that the reader of an XMI file left: inside of it to objects, and out of it to texts of proxies."""

from __future__ import annotations

from typing import Any, List, Set, Tuple

from .completion import Completion
from .datatypes import is_short
from .faults import fault
from .notes import shortened
from .objects import ATTRIBUTE, CONTAINED, CONTAINER, Obj, Slot
from .outside import Outside
from .progress import Progress
from .steps import is_fragment
from .xmi_open import WAITING, Pending
from .xmi_paths import LEFT, NO_FORM, Found
from .xmi_reader import XmiReader


class LinkJoiner:
    """Joins the references that one reader left."""

    def __init__(self, reader: XmiReader, outside: Outside) -> None:
        """`outside` knows the URI of the resource, and the other files that references lead to."""
        self.reader, self.outside = reader, outside
        self.file, self.notes, self.plans = reader.file, reader.notes, reader.plans
        self.holes: Set[Tuple[Obj, Slot]] = set()

    def join(self) -> None:
        """Joins all references in the order of EMF, in which those of an attribute with many references come last. Then completes the
        links that only one of two opposite ends names.
        """
        waiting = self.reader.pending + self.reader.many
        object_at = self.reader.addresses.lists.at
        for it in Progress(f'joining the references of {self.file}', len(waiting)).each(waiting):
            found = object_at(it.text) if it.slot.is_link else None
            if type(found) is Obj:
                self.join_inside(it, found)
            else:
                self.join_one(it)
        for owner, slot in self.holes:
            kept = [it for it in owner.values[slot.name] if it is not WAITING]
            if kept:
                owner.values[slot.name] = kept
            else:
                del owner.values[slot.name]
        objects = list(self.reader.graph.walk())
        self.drop_repeats(objects)
        Completion(self.reader, self.notes).complete(objects)

    def join_one(self, it: Pending) -> None:
        """Joins one reference."""
        uri, _, fragment = it.text.partition('#')
        if '#' not in it.text:
            uri, fragment = '', it.text
        is_here = not uri or self.outside.is_own(uri)
        if it.slot.kind == CONTAINER:
            if not is_here:
                self.leave(it, 'its holder is in another file')
            return
        if is_here:
            self.join_inside(it, self.reader.addresses.at(fragment))
        else:
            text, why = self.proxy(uri, fragment)
            if why:
                self.leave(it, why)
            else:
                self.put(it, text)

    def join_inside(self, it: Pending, found: Found) -> None:
        """Joins a reference inside of the file."""
        if isinstance(found, Obj):
            if found.of is not it.slot.type and not self.plans.conforms(found.of, it.slot.type):
                to = it.slot.feature
                fault(self.file, it.line, f'class {found.of.name} is no {to.type_name}, which {to.qualified} holds')
            self.put(it, found)
            if it.slot.completes:
                self.reader.back.append((found, it.slot, it.owner))
        elif found == LEFT:
            self.leave(it, 'it leads to what is left out')
        elif found == NO_FORM:
            self.leave(it, found)
        else:
            fault(self.file, it.line, f'{it.slot.feature.qualified} leads to nothing, {found}: {shortened(it.text)}')

    def put(self, it: Pending, value: Any) -> None:
        """Puts a value in its place."""
        if it.slot.is_many:
            it.owner.values[it.slot.name][it.index] = value
        else:
            it.owner.values[it.slot.name] = value

    def leave(self, it: Pending, why: str) -> None:
        """Notes a reference that is left out, and keeps no entry for it."""
        self.notes.tell('reference', it.slot.feature.qualified, f'left out: {why}: {shortened(it.text)}', it.line, True)
        if it.slot.kind == CONTAINER:
            return
        if it.slot.is_many:
            self.holes.add((it.owner, it.slot))
        else:
            del it.owner.values[it.slot.name]

    def proxy(self, uri: str, fragment: str) -> Tuple[str, str]:
        """The text of a proxy, or the reason why there is none."""
        bent, fault_there = self.outside.bent(self.file, uri, fragment)
        whole = self.outside.joined(uri)
        if whole is None:
            return '', 'not http, https or relative'
        if not is_fragment(bent):
            return '', fault_there
        text = f'{whole}#{bent}'
        return text, '' if is_short(text) else 'longer than 65,535 bytes'

    def drop_repeats(self, objects: List[Obj]) -> None:
        """Leaves out what a list has already, and refuses a list that is too long."""
        plans = self.plans
        for obj in objects:
            for slot in plans[obj.of].lists:
                if slot.name in obj.values:
                    self.check_list(obj, slot, obj.values[slot.name])

    def check_list(self, obj: Obj, slot: Slot, values: List[Any]) -> None:
        """Checks one list."""
        feature = slot.feature
        if len(values) > 1 and slot.kind != CONTAINED and (slot.kind != ATTRIBUTE or feature.unique) and len(set(values)) < len(values):
            self.notes.tell('value', feature.qualified, 'left out: values that the list has already', obj.line)
            values[:] = dict.fromkeys(values)
        if feature.upper != -1 and len(values) > feature.upper:
            fault(self.file, obj.line, f'{feature.qualified} has {len(values)} values, and its upper bound is {feature.upper}')
