"""The targets of fragments in an XMI file: by `xmi:id`, by the value of an `iD` attribute, and by steps from a root."""

from __future__ import annotations

from typing import Dict, List, Optional, Tuple, Union

from .datatypes import default_of, text_of
from .metamodel import MEnum
from .objects import CONTAINED, Graph, Obj, Slot, held
from .steps import Step, parse_steps
from .xml_reader import ECORE

NO_ID, NO_POSITION, NO_KEY, NO_FORM = 'no such id', 'no such position', 'no such key', 'a fragment of a form that is not known'
LEFT = 'left out'
Found = Union[Obj, str]
NAMELESS = ('eAnnotations', 'eGenericType', 'eGenericSuperTypes', 'eBounds', 'details', 'contents')  # containments without names


class Addresses:
    """The addresses of one file, while it is read and after it."""

    def __init__(self, graph: Graph) -> None:
        """As in EMF, an `xmi:id` that several objects have leads to the last of them, and a value of an `iD` attribute to the first."""
        self.graph = graph
        self.ids: Dict[str, Obj] = {}
        self.keys: Dict[str, Obj] = {}
        self.lists = graph.lists[True]
        self.gaps: Dict[Tuple[Obj, str], List[int]] = {}

    def skip(self, owner: Obj, slot: Slot) -> None:
        """Notes that a part is left out at this position, so that the positions after it count the part. From here on no list is
        remembered or looked up.
        """
        self.lists.clear()
        gaps = self.gaps.setdefault((owner, slot.name), [])
        gaps.append(len(held(owner, slot)) + len(gaps))

    def quick(self, fragment: str) -> Optional[Obj]:
        """The object of an id, or of steps by positions; None if it takes a longer look, or there is none yet."""
        if not fragment.startswith('/'):
            return self.ids.get(fragment) or self.keys.get(fragment)
        return None if self.gaps else self.graph.follow(fragment, True)

    def at(self, fragment: str) -> Found:
        """The object of a fragment; or that it was left out, or why there is none."""
        found = self.quick(fragment)
        if found is not None:
            return found
        if not fragment.startswith('/'):
            return NO_ID
        parsed = parse_steps(fragment)
        if parsed is None:
            return NO_FORM
        if parsed[0] >= len(self.graph.roots):
            return NO_POSITION
        at: Found = self.graph.roots[parsed[0]]
        for step in parsed[1]:
            if isinstance(at, str):
                break
            at = self.step(at, step)
        return at

    def step(self, obj: Obj, step: Step) -> Found:
        """What a step from an object leads to."""
        if step.feature is None:
            return self.named(obj, step)
        plan = self.graph.plans[obj.of]
        slot = plan.by_key.get(step.feature)
        if slot is None or slot.kind != CONTAINED:
            return LEFT if step.feature in plan.left else NO_POSITION
        parts = held(obj, slot)
        if step.keys:
            same = (it for it in parts if all(self.key_values(it, name) == values for name, values in step.keys))
            return next(same, NO_KEY)
        gaps = self.gaps.get((obj, slot.name), [])
        if step.index in gaps:
            return LEFT
        index = step.index - sum(it < step.index for it in gaps)
        return parts[index] if index < len(parts) else NO_POSITION

    def written(self, obj: Obj) -> str:
        """The fragment of an object by the names of Ecore. Its positions count the parts that were left out before the object."""
        if obj.parent is None or obj.via is None:
            return self.graph.fragment(obj, True)
        index = obj.index
        for gap in self.gaps.get((obj.parent, obj.via.name), []):
            index += gap <= index
        return f'{self.written(obj.parent)}/@{obj.via.key}' + (f'.{index}' if obj.via.is_many else '')

    def by_names(self, obj: Obj) -> Optional[str]:
        """The fragment of an element of Ecore by names, which EMF finds whatever the order; None if there is none."""
        if obj.of.source is None or obj.of.source.package.uri != ECORE:
            return None
        if obj.parent is None or obj.via is None:
            return self.graph.fragment(obj)
        above, name = self.by_names(obj.parent), obj.values.get('name')
        if above is None or not isinstance(name, str) or obj.via.key in NAMELESS:
            return None
        named = [it for it in self.graph.parts(obj.parent) if it.via is not None and it.via.key not in NAMELESS]
        same = [it for it in named if it.values.get('name') == name]
        number = next(place for place, it in enumerate(same) if it is obj)
        return f'{above}/{name}' + (f'.{number}' if number else '')

    def key_values(self, obj: Obj, name: str) -> Optional[List[Optional[str]]]:
        """The texts of the attribute that Ecore calls so, with its default if it was not set; None if there is none."""
        slot = self.graph.plans[obj.of].by_key.get(name)
        if slot is None or not isinstance(slot.type, (str, MEnum)):
            return None
        values = held(obj, slot)
        if not values and not slot.is_many:
            values = [default_of(slot.type, slot.feature.default)]
        return [None if it is None else text_of(slot.type, it) for it in values]

    def named(self, obj: Obj, step: Step) -> Found:
        """What a step by name leads to: in Ecore, the contained element of that name, or the annotation of that source."""
        if obj.of.source is None or obj.of.source.package.uri != ECORE:
            return NO_FORM
        index = step.index
        for slot in self.graph.plans[obj.of].slots:
            for part in held(obj, slot) if slot.kind == CONTAINED else ():
                if part.values.get(step.attribute) == step.value and index == 0:
                    return part
                index -= part.values.get(step.attribute) == step.value
        return NO_KEY
