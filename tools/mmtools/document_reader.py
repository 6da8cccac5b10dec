"""Reads documents of resources into objects."""

from __future__ import annotations

import json
from typing import Any, Callable, Dict, List, NoReturn, Optional

from .datatypes import is_value
from .faults import fault, read_bytes
from .metamodel import LONGEST_TEXT, MClass, Metamodel
from .notes import Notes, counted, shortened
from .objects import CONTAINED, CONTAINER, DEEPEST, REFERENCE, Graph, Obj, Plans, Slot, as_list
from .progress import Progress
from .steps import is_fragment
from .uris import joined

FORMATS = (1, 2)
SHORT = LONGEST_TEXT // 4  # characters of a text that is surely not too long


def read_json(file: str, hook: Optional[Callable[[Dict[str, Any]], Any]] = None) -> Any:
    """The value of a JSON file in UTF-8."""
    try:
        text = read_bytes(file).decode('utf-8')
    except UnicodeDecodeError as found:
        fault(file, None, f'not UTF-8: byte {found.start}')
    if text.startswith('\ufeff'):
        fault(file, None, 'begins with a byte order mark')
    try:
        return json.loads(text, object_hook=hook, parse_constant=lambda name: fault(file, None, f'not JSON: {name}'))
    except ValueError as found:
        fault(file, None, f'not JSON: {found}')
    except RecursionError:
        fault(file, None, 'nests too deep')


class DocumentReader:
    """Reads one document into objects."""

    def __init__(self, file: str, meta: Metamodel, plans: Plans, uri: Optional[str] = None) -> None:
        """`uri` is that of the resource: references to it lead to objects of the document."""
        self.file, self.plans, self.uri = file, plans, joined(uri, uri) if uri is not None else None
        self.own: Dict[str, bool] = {'': True}
        self.classes = {it.name: it for it in meta.classes}
        self.graph = Graph(plans)
        self.linked: List[Obj] = []  # objects that may have references
        self.progress = Progress('', 0)
        self.count = 0
        self.strays: Dict[str, int] = {}

    def read(self) -> Graph:
        """The objects of the document."""
        top = read_json(self.file, self.made)
        if not isinstance(top, dict) or set(top) != {'format', 'roots'} or not isinstance(top['roots'], list):
            fault(self.file, None, 'no document of a resource: it has the keys format and roots')
        if type(top['format']) is not int or top['format'] not in FORMATS:
            fault(self.file, None, f'format {json.dumps(top["format"])[:20]} is another than 1 or 2')
        self.progress = Progress(f'reading the objects of {self.file}', self.count)
        for place, root in enumerate(top['roots']):
            if type(root) is not Obj:
                fault(self.file, None, f'root {place}: no object: it has the keys class and features')
            root.index = place
            self.graph.roots.append(root)
        for root in self.graph.roots:
            self.check(root, 1)
        self.progress.end()
        for obj in Progress(f'joining the references of {self.file}', len(self.linked)).each(self.linked):
            self.join(obj)
        return self.graph

    def tell_strays(self, notes: Notes) -> None:
        """Notes references by whole URIs that could lead to this document, if nothing says what its own URI is."""
        for uri, count in self.strays.items():
            verb = 'leads' if count == 1 else 'lead'
            text = f'{counted(count, "reference")} {verb} to it as to another resource; if it is that of the document, give it with --uri'
            notes.tell('URI', uri, text)

    def made(self, value: Dict[str, Any]) -> Any:
        """An object for a JSON object that has the keys `class` and `features`, else the value itself. The class is checked later: if
        no class has the name, the name takes its place.
        """
        if len(value) == 2 and 'class' in value and type(value.get('features')) is dict:
            self.count += 1
            name = value['class']
            return Obj(self.classes.get(name, name) if isinstance(name, str) else name, 0, value['features'])
        return value

    def fault(self, obj: Obj, text: str) -> NoReturn:
        """Ends with a fault in an object."""
        fault(self.file, None, f'{self.graph.where(obj)}: {text}')

    def check(self, obj: Obj, level: int) -> None:
        """Checks an object and all that it contains, and joins the parts with it."""
        of = obj.of
        if not isinstance(of, MClass) or of.is_abstract:
            self.fault(obj, f'no class that has objects: {shortened(str(getattr(of, "name", of)))}')
        if level > DEEPEST:
            self.fault(obj, f'deeper than {DEEPEST} levels')
        self.progress.step(1)
        plan = self.plans[of]
        if plan.references:
            self.linked.append(obj)
        slots = plan.by_name
        for name, content in obj.values.items():
            slot = slots.get(name)
            if slot is None or slot.kind == CONTAINER:
                self.fault(obj, f'class {of.name} has no feature {shortened(name)} to write')
            if slot.is_plain and type(content) is str and len(content) < SHORT:
                continue
            if slot.is_many and type(content) is not list:
                self.fault(obj, f'{name} is many-valued, and no array is written')
            if slot.kind == REFERENCE:
                continue
            if slot.kind == CONTAINED:
                self.check_parts(obj, slot, as_list(slot, content), level)
            elif not (all([is_taken(slot, it) for it in content]) if slot.is_many else is_taken(slot, content)):
                self.fault(obj, f'{name} has what is no {slot.feature.type_name}')

    def check_parts(self, obj: Obj, slot: Slot, parts: List[Any], level: int) -> None:
        """Checks what is contained."""
        for place, part in enumerate(parts):
            if type(part) is not Obj:
                fault(self.file, None, f'{self.graph.where(obj)} {slot.name} {place}: no object: it has the keys class and features')
            part.parent, part.via, part.index = obj, slot, place
            self.check(part, level + 1)
            if part.of is not slot.type and not self.plans.conforms(part.of, slot.type):
                self.fault(obj, f'{slot.name} does not hold objects of class {part.of.name}')

    def join(self, obj: Obj) -> None:
        """Joins the references of an object: they become objects, or stay the texts of proxies."""
        values = obj.values
        for slot in self.plans[obj.of].references:
            if slot.name not in values:
                continue
            content = values[slot.name]
            if slot.is_many:
                content[:] = [self.target(obj, slot, text) for text in content]
            else:
                values[slot.name] = self.target(obj, slot, content)

    def target(self, obj: Obj, slot: Slot, text: Any) -> Any:
        """The object that a reference leads to, or the text of a proxy."""
        known = self.graph.lists[False].at(text) if type(text) is str else None
        if type(known) is Obj and (known.of is slot.type or self.plans.conforms(known.of, slot.type)):
            return known
        feature = slot.feature
        if not isinstance(text, str):
            self.fault(obj, f'{feature.qualified} has what is no text')
        uri, mark, fragment = text.partition('#')
        if not mark:
            uri, fragment = '', text
        found = self.graph.follow(fragment, False)
        if found is None and not is_fragment(fragment):
            self.fault(obj, f'{feature.qualified} has what is no fragment: {shortened(text)}')
        fits = found is not None and self.plans.conforms(found.of, slot.type)
        if not self.is_own(uri):
            if fits and self.uri is None and ':' in uri:
                self.strays[uri] = self.strays.get(uri, 0) + 1
            return text
        if not fits:
            self.fault(obj, f'{feature.qualified} leads to no {feature.type_name}: {shortened(text)}')
        return found

    def is_own(self, uri: str) -> bool:
        """Whether a URI is that of the document."""
        if uri not in self.own:
            self.own[uri] = self.uri is not None and joined(self.uri, uri) == self.uri
        return self.own[uri]


def is_taken(slot: Slot, value: Any) -> bool:
    """Whether an attribute takes a value."""
    if value is None:
        return slot.type == 'EString' and not slot.is_many
    return not isinstance(slot.type, MClass) and is_value(slot.type, value)
