"""Objects of a resource, as documents and XMI have them, and the features of their classes."""

from __future__ import annotations

from typing import Any, Dict, Iterator, List, Optional, Tuple, Union

from .datatypes import default_of
from .metamodel import MClass, MFeature
from .steps import INDEX

DEEPEST = 40  # the most levels of objects in a document
MOST_LISTS = 100_000  # the most lists that are remembered by their paths
ATTRIBUTE, CONTAINED, REFERENCE, CONTAINER = range(4)
NEVER = object()  # the default of a feature that is written whatever its value
BEYOND = object()  # what a fragment leads to if its list is known and has no such position
MARKS = ': #'  # characters at which a reader cuts a text: a path with one of them is not remembered


class Obj:
    """An object. `values` has the written values by the names of the document: a list for a many-valued feature, else one
    value. A value of a containment is an object; a value of another reference is an object or the text of a proxy. `via` is the
    slot of the parent that contains the object, and `index` its position there; for a root it is the position among the roots.
    """

    __slots__ = ('of', 'line', 'values', 'parent', 'via', 'index')

    def __init__(self, of: MClass, line: int = 0, values: Optional[Dict[str, Any]] = None) -> None:
        """A new object without a container."""
        self.of, self.line = of, line
        self.values: Dict[str, Any] = {} if values is None else values
        self.parent: Optional[Obj] = None
        self.via: Optional[Slot] = None
        self.index = 0


class Slot:
    """What the readers and writers need of a feature, without a call for each question."""

    __slots__ = (
        'feature', 'name', 'key', 'kind', 'is_many', 'type', 'opposite', 'is_id', 'is_completed', 'completes', 'is_plain', 'is_value',
        'is_link', 'is_settable', 'default',
    )

    def __init__(self, feature: MFeature) -> None:
        """`key` is the name in Ecore, which is empty if the feature is none of Ecore."""
        source = feature.source
        self.feature, self.name, self.type, self.is_many = feature, feature.name, feature.type, feature.is_many
        self.key = source.name if source is not None else ''
        self.kind = ATTRIBUTE
        if feature.is_reference:
            self.kind = CONTAINED if feature.containment else CONTAINER if feature.is_container else REFERENCE
        self.opposite = feature.opposite
        self.is_id = source is not None and source.flags['iD']
        self.is_completed = is_completed_by_emf(feature)
        self.completes = self.kind == REFERENCE and feature.opposite is not None and is_completed_by_emf(feature.opposite)
        self.default = NEVER
        if not (feature.unsettable or self.is_many or isinstance(self.type, MClass)):
            self.default = default_of(self.type, feature.default)
        is_changeable = self.is_many or source is None or source.flags['changeable'] or source.is_grouped
        self.is_settable = is_changeable and not self.is_completed
        self.is_value = self.kind == ATTRIBUTE and not self.is_many and not self.is_id
        self.is_plain = self.is_value and feature.type == 'EString'
        self.is_link = self.kind == REFERENCE and not self.is_many and not self.completes


def is_completed_by_emf(feature: MFeature) -> bool:
    """Whether EMF saves nothing of a feature, since it is transient: it completes the feature from the opposite end as it loads."""
    return feature.source is not None and feature.source.flags['transient'] and not feature.source.is_grouped


class Plan:
    """The slots of a class by both kinds of names, what is left out of it, and the classes that it conforms to."""

    def __init__(self, of: MClass) -> None:
        """All is found here, once for each class."""
        self.slots = [Slot(feature) for feature in of.all_features()]
        self.by_name = {slot.name: slot for slot in self.slots}
        self.by_key = {slot.key: slot for slot in self.slots if slot.key}
        self.references = [slot for slot in self.slots if slot.kind == REFERENCE]
        self.ends = [slot for slot in self.references if slot.opposite is not None]
        self.lists = [slot for slot in self.slots if slot.is_many]
        self.has_parts = any(slot.kind == CONTAINED for slot in self.slots)
        above = of.above()
        self.left = {name: left for it in above for name, left in it.left.items() if name not in self.by_key}
        self.above = frozenset(map(id, above))


class Plans(Dict[MClass, Plan]):
    """The plan of each class, made when it is asked for."""

    def __missing__(self, of: MClass) -> Plan:
        """Makes a plan."""
        made = self[of] = Plan(of)
        return made

    def conforms(self, of: MClass, to: object) -> bool:
        """Whether the class `of` is the class `to` or a subclass of it."""
        return of is to or id(to) in self[of].above


class Lists(Dict[str, List[Obj]]):
    """The lists of contained objects that were looked up, by the paths to them."""

    def at(self, fragment: str) -> Union[Obj, object, None]:
        """The object of a fragment, or `BEYOND`, if its list is known; None if the list is not known."""
        path, _, digits = fragment.rpartition('.')
        parts = self.get(path)
        if parts is None or INDEX.fullmatch(digits) is None:
            return None
        index = int(digits)
        return parts[index] if index < len(parts) else BEYOND

    def remember(self, fragment: str, parts: List[Obj]) -> None:
        """Keeps the list of a fragment, if its path is one of positions."""
        path = fragment.rpartition('.')[0]
        if any(mark in path for mark in MARKS):
            return
        if len(self) >= MOST_LISTS:
            self.clear()
        self[path] = parts


class Graph:
    """The roots of a resource."""

    def __init__(self, plans: Plans) -> None:
        """There are no roots yet."""
        self.plans = plans
        self.roots: List[Obj] = []
        self.paths: Tuple[Dict[Obj, str], Dict[Obj, str]] = ({}, {})
        self.lists = (Lists(), Lists())

    def walk(self) -> Iterator[Obj]:
        """Each object, before those that it contains."""
        plans, stack = self.plans, self.roots[::-1]
        while stack:
            obj = stack.pop()
            yield obj
            if plans[obj.of].has_parts:
                stack += reversed(self.parts(obj))

    def parts(self, obj: Obj) -> List[Obj]:
        """What an object contains, in the order in which it was written."""
        plan = self.plans[obj.of]
        found: List[Obj] = []
        if not plan.has_parts:
            return found
        slots = plan.by_name
        for name, value in obj.values.items():
            slot = slots[name]
            if slot.kind == CONTAINED:
                if slot.is_many:
                    found += value
                else:
                    found.append(value)
        return found

    def follow(self, fragment: str, by_keys: bool) -> Optional[Obj]:
        """The object of a fragment by positions; None if there is none yet, or the fragment is of another form."""
        known = self.lists[by_keys].at(fragment)
        if known is not None:
            return known if type(known) is Obj else None
        parts = None
        words = fragment.split('/')
        root = words[1] if len(words) > 1 and not words[0] else '-'
        if root and not INDEX.fullmatch(root) or len(self.roots) <= int(root or '0'):
            return None
        found = self.roots[int(root or '0')]
        for word in words[2:]:
            key, dot, digits = word.partition('.')
            plan = self.plans[found.of]
            slot = (plan.by_key if by_keys else plan.by_name).get(key[1:])
            if slot is None or slot.kind != CONTAINED or slot.name not in found.values or key[0] != '@':
                return None
            parts = value = found.values[slot.name]
            if slot.is_many:
                if not INDEX.fullmatch(digits) or len(value) <= int(digits):
                    return None
                value = value[int(digits)]
            elif dot:
                return None
            found = value
        if parts is not None and type(parts) is list:
            self.lists[by_keys].remember(fragment, parts)
        return found

    def where(self, obj: Obj) -> str:
        """The place of an object of a document, for faults and notes."""
        if obj.parent is None or obj.via is None:
            return f'root {obj.index}'
        return f'{self.where(obj.parent)} {obj.via.name} {obj.index}'

    def fragment(self, obj: Obj, by_keys: bool = False) -> str:
        """The fragment of an object, by the names of the document or by those of Ecore."""
        parent, via = obj.parent, obj.via
        if parent is None or via is None:
            return '/' if len(self.roots) == 1 else f'/{obj.index}'
        paths = self.paths[by_keys]
        path = paths.get(parent)
        if path is None:
            path = paths[parent] = self.fragment(parent, by_keys)
        name = via.key if by_keys else via.name
        return f'{path}/@{name}.{obj.index}' if via.is_many else f'{path}/@{name}'


def as_list(slot: Slot, value: Any) -> List[Any]:
    """The values of a slot."""
    return value if slot.is_many else [value]


def held(obj: Obj, slot: Slot) -> List[Any]:
    """The values that an object has in a slot."""
    return as_list(slot, obj.values[slot.name]) if slot.name in obj.values else []
