"""Reads an XMI file into objects as it is parsed. What a reference can't lead to yet stays a text until the end (`xmi_links`)."""

from __future__ import annotations

from typing import Any, Dict, List, Optional, Set, Tuple, Union

from .bending import Bent
from .datatypes import text_of, value_of
from .ecore_model import EClass, EFeature
from .faults import fault
from .metamodel import LONGEST_TEXT, MClass, MEnum
from .notes import Notes, counted, shortened
from .objects import ATTRIBUTE, BEYOND, CONTAINED, CONTAINER, DEEPEST, Graph, Obj, Plans, Slot
from .skipped import Skipped
from .xmi_attributes import XSI_NIL, link_of, type_text, value_under
from .xmi_open import WAITING, Pending, Text
from .xmi_paths import Addresses
from .xml_parser import DEEPEST as DEEPEST_ELEMENT, Parser
from .xml_reader import XSI, is_xmi, name_of

XML = 'http://www.w3.org/XML/1998/namespace'
SHORT = LONGEST_TEXT // 4  # characters of a text that is surely not too long
Slots = List[Optional[Slot]]
FEW = 5  # up to so many references of an attribute EMF resolves one by one


class XmiReader(Parser):
    """Reads one file."""

    def __init__(self, file: str, bent: Bent, plans: Plans, notes: Notes) -> None:
        """The classes are those of the packages that were converted to `bent`."""
        super().__init__(file)
        self.bent, self.plans, self.notes = bent, plans, notes
        self.graph = Graph(plans)
        self.addresses = Addresses(self.graph)
        self.open: List[Union[Obj, Text, Skipped, None]] = []
        self.texts: List[str] = []
        self.texted: Set[int] = set()
        self.xmi_ids = self.count = 0
        self.shapes: Dict[Tuple[Any, ...], Tuple[MClass, Slots]] = {}
        self.pending: List[Pending] = []
        self.many: List[Pending] = []
        self.back: List[Tuple[Obj, Slot, Obj]] = []

    def read(self) -> Graph:
        """The objects of the file."""
        self.run()
        if self.xmi_ids:
            self.notes.tell('xmi:id', self.file, f'{counted(self.xmi_ids, "id")} left out; references go by position')
        return self.graph

    def start(self, tag: str, attributes: List[str]) -> None:
        """An element starts: an object, a value, or what is left out."""
        opened = self.open
        if self.texts:
            self.text_before()
        top = opened[-1] if opened else None
        if type(top) is Obj:
            slot = self.plans[top.of].by_key.get(tag)
            names = attributes[::2]
            shape = self.shapes.get((slot, *names)) if slot is not None and slot.kind == CONTAINED else None
            if shape is not None and len(opened) < DEEPEST:
                self.put_part(top, slot, self.object(shape[0], names, shape[1], attributes[1::2]))
            else:
                self.child(top, slot, tag, attributes)
        elif not opened:
            self.first(tag, attributes)
        elif len(opened) == DEEPEST_ELEMENT:
            self.fault(f'elements nest deeper than {DEEPEST_ELEMENT} levels')
        elif top is None:
            self.root(tag, attributes)
        elif isinstance(top, Skipped):
            opened.append(top.below(tag, attributes, self))
        else:
            self.fault(f'{name_of(tag)[1]} is an element inside of a value')

    def end(self, _: str) -> None:
        """An element ends."""
        top = self.open.pop()
        if type(top) is Text:
            text = ''.join(self.texts)
            self.texts = []
            self.take_text(top, text)
        elif self.texts:
            self.open.append(top)
            self.text_before()
            self.open.pop()

    def data(self, text: str) -> None:
        """Takes text. Outside of a value, spaces are ignored."""
        if self.open and (type(self.open[-1]) is Text or not text.isspace()):
            self.texts.append(text)

    def text_before(self) -> None:
        """Notes text between the elements of an object, which is left out."""
        top = self.open[-1] if self.open else None
        if type(top) is Obj and id(top) not in self.texted:
            self.texted.add(id(top))
            self.notes.tell('text', top.of.name, 'left out: text between elements', top.line, True)
        self.texts = []

    def first(self, tag: str, attributes: List[str]) -> None:
        """The root element: that of XMI, or the only root."""
        space, name = name_of(tag)
        if name == 'XMI' and is_xmi(space):
            self.open.append(None)
        else:
            self.root(tag, attributes)

    def root(self, tag: str, attributes: List[str]) -> None:
        """A root."""
        space, name = name_of(tag)
        if is_xmi(space):
            self.skip(f'xmi:{name}')
            return
        made = self.new_object(self.class_of(space, name), attributes)
        made.index = len(self.graph.roots)
        self.graph.roots.append(made)
        self.open.append(made)

    def skip(self, name: str) -> None:
        """Leaves out an element of XMI."""
        self.notes.tell('element', name, 'left out', self.line, True)
        self.open.append(Skipped(None))

    def class_of(self, space: str, name: str) -> MClass:
        """The class of a name in a package."""
        found = self.bent.by_name.get((space, name))
        if found is None:
            self.fault(f'no class {shortened(name)} in a package {space or "without URI"} of the files given')
        if found.is_abstract:
            self.fault(f'class {shortened(name)} is abstract')
        return found

    def typed(self, slot: Slot, attributes: List[str]) -> MClass:
        """The class of a contained object: the class that its `xsi:type` names, else the type of the reference."""
        text, to = type_text(attributes), slot.type
        assert isinstance(to, MClass)
        if text is None:
            if to.is_abstract:
                self.fault(f'{slot.key} without xsi:type, and class {to.name} is abstract')
            return to
        name = self.qualified(text)
        if name is None:
            self.fault(f'xsi:type {shortened(text)} has a prefix that is not declared')
        found = self.class_of(*name)
        if not self.plans.conforms(found, to):
            self.fault(f'class {found.name} is no {to.name}, which {slot.feature.qualified} holds')
        return found

    def new_object(self, of: MClass, attributes: List[str]) -> Obj:
        """An object with its attributes."""
        names, slots = attributes[::2], self.plans[of].by_key
        return self.object(of, names, [slots.get(name) for name in names], attributes[1::2])

    def object(self, of: MClass, names: List[str], slots: Slots, texts: List[str]) -> Obj:
        """An object with its attributes. It is in nothing yet, so its own references don't find it by position.

        Single values, and references by the position in a list that is known, are set here; the other features by `attribute`.
        """
        made = Obj(of, self.parser.CurrentLineNumber)
        self.count += 1
        values, object_at = made.values, self.addresses.lists.at
        for name, slot, text in zip(names, slots, texts):
            value: Any = None
            if slot is None:
                self.other_attribute(made, name, text)
                continue
            if slot.is_plain and len(text) < SHORT:
                values[slot.name] = text
                continue
            if slot.is_value:
                value = value_of(slot.type, text)
            elif slot.is_link:
                value = object_at(text)
                if value is BEYOND:
                    value = WAITING
                    self.pending.append(Pending(made, slot, 0, text, made.line))
                elif value is not None and value.of is not slot.type and not self.plans.conforms(value.of, slot.type):
                    value = None
            if value is None:
                self.attribute(made, slot, text)
            else:
                values[slot.name] = value
        return made

    def note_shape(self, of: MClass, slot: Slot, attributes: List[str]) -> None:
        """Records the class and the slots of objects of a slot with these attributes, if all attributes are features and none is a link
        or a type. `start` reads further such objects by this record.
        """
        names = attributes[::2]
        slots = [self.plans[of].by_key.get(name) for name in names]
        if None not in slots and 'href' not in names and of is slot.type:
            self.shapes[(slot, *names)] = (of, slots)

    def other_attribute(self, owner: Obj, name: str, text: str) -> None:
        """An attribute that is no feature here: an attribute of XMI or XML, or a feature that is left out."""
        space, local = name_of(name)
        if not space:
            self.left(owner, local, [])
        elif is_xmi(space):
            if local == 'id':
                self.xmi_ids += 1
                self.addresses.ids[text] = owner
        elif space == XML:
            self.notes.tell('attribute', f'{owner.of.name}.xml:{local}', 'left out', self.line, True)
        elif space != XSI:
            self.fault(f'class {owner.of.name} has no feature {shortened(local)} of {space}')

    def left(self, owner: Obj, name: str, attributes: List[str]) -> Skipped:
        """Notes a feature that is left out, or refuses a feature that is unknown."""
        found = self.plans[owner.of].left.get(name)
        if found is None:
            self.fault(f'class {owner.of.name} has no feature {shortened(name)}')
        self.notes.tell('value', f'{owner.of.name}.{name}', f'left out: {found.why}', self.line, True)
        is_part = found.source.is_reference and found.source.flags['containment']
        return Skipped(self.skipped_class(attributes, found.source) if is_part else None)

    def attribute(self, owner: Obj, slot: Slot, text: str) -> None:
        """A feature that is written as an attribute. A list is cut at spaces, as EMF does."""
        if slot.is_many and not text.strip(' ') and slot.feature.source is not None and slot.feature.source.flags['unsettable']:
            self.notes.tell('unsettable', slot.feature.qualified, 'is set to an empty list there, and not set here', self.line)
        if slot.kind == ATTRIBUTE:
            if not slot.is_many:
                self.put_text(owner, slot, text)
                return
            for word in text.split(' '):
                if word:
                    self.put_text(owner, slot, word)
        elif slot.kind == CONTAINED:
            self.fault(f'{slot.feature.qualified} contains objects, and is written as an attribute')
        else:
            self.words(owner, slot, text, self.line)

    def words(self, owner: Obj, slot: Slot, text: str, line: int) -> None:
        """References of an attribute, with spaces between them. A word with a colon and no `#` is the type of the next one."""
        if ':' not in text and ' ' not in text and text:
            if not self.refer(owner, slot, text, line):
                self.pending.append(Pending(owner, slot, self.wait(owner, slot, line), text, line))
            return
        type_name, waiting = '', []
        for word in text.split():
            if '#' in word or ':' not in word:
                type_name = ''
                if not self.refer(owner, slot, word, line):
                    waiting.append(Pending(owner, slot, self.wait(owner, slot, line), word, line))
                continue
            self.tell_type_name(slot, type_name, line)
            type_name = word
        self.tell_type_name(slot, type_name, line)
        if len(waiting) > FEW:
            self.many += waiting
        else:
            self.pending += waiting

    def tell_type_name(self, slot: Slot, name: str, line: int) -> None:
        """Notes a reference that is read as the type of the next one, if there is no next one."""
        if name:
            why = f'left out: a text with a colon and without # is the name of a type: {shortened(name)}'
            self.notes.tell('reference', slot.feature.qualified, why, line, True)

    def refer(self, owner: Obj, slot: Slot, text: str, line: int) -> bool:
        """Joins a reference to an object that was read already. Returns whether there is such an object."""
        fragment = text[1:] if text.startswith('#') else text
        if slot.kind == CONTAINER or '#' in fragment:
            return False
        found = self.addresses.at(fragment) if '[' in fragment else self.addresses.quick(fragment)
        if type(found) is not Obj or found.of is not slot.type and not self.plans.conforms(found.of, slot.type):
            return False
        self.put(owner, slot, found, line)
        if slot.completes:
            self.back.append((found, slot, owner))
        return True

    def wait(self, owner: Obj, slot: Slot, line: int) -> int:
        """Keeps the place of a reference that is joined later, and returns its position."""
        if slot.kind == CONTAINER:
            return 0
        self.put(owner, slot, WAITING, line)
        return len(owner.values[slot.name]) - 1 if slot.is_many else 0

    def child(self, owner: Obj, slot: Optional[Slot], tag: str, attributes: List[str]) -> None:
        """A feature that is written as an element."""
        if len(self.open) == DEEPEST_ELEMENT:
            self.fault(f'elements nest deeper than {DEEPEST_ELEMENT} levels')
        if slot is None:
            self.other_child(owner, tag, attributes)
            return
        is_nil = False
        if attributes and XSI_NIL in attributes:
            is_nil = (value_under(attributes, XSI_NIL) or '').strip() in ('true', '1')
        if slot.kind == CONTAINED:
            self.contained(owner, slot, attributes, is_nil)
            return
        line = self.line
        if slot.kind != ATTRIBUTE and not is_nil:
            link = link_of(attributes)
            if link is not None:
                self.pending.append(Pending(owner, slot, self.wait(owner, slot, line), link, line))
                is_nil = True
        self.open.append(Text(owner, slot, line, is_nil))

    def other_child(self, owner: Obj, tag: str, attributes: List[str]) -> None:
        """An element whose tag is no feature. If there is a default namespace, the element may be a feature in that namespace."""
        space, name = name_of(tag)
        if is_xmi(space):
            self.skip(f'xmi:{name}')
        elif space and space == self.prefixes.get('', [''])[-1]:
            self.child(owner, self.plans[owner.of].by_key.get(name), name, attributes)
        elif space:
            self.fault(f'class {owner.of.name} has no feature {shortened(name)} of {space}')
        else:
            self.open.append(self.left(owner, name, attributes))

    def contained(self, owner: Obj, slot: Slot, attributes: List[str], is_nil: bool) -> None:
        """An object that is contained. An object of another file is left out."""
        href = value_under(attributes, 'href') if 'href' in attributes else None
        if is_nil or href is not None:
            if href is not None:
                text = f'left out: it is in another file: {shortened(href)}'
                self.notes.tell('containment', slot.feature.qualified, text, self.line, True)
                self.addresses.skip(owner, slot)
            self.open.append(Skipped(None))
            return
        if len(self.open) - (self.open[0] is None) >= DEEPEST:
            self.fault(f'an object at level {DEEPEST + 1}; a document has {DEEPEST} levels at most')
        of = self.typed(slot, attributes)
        self.note_shape(of, slot, attributes)
        self.put_part(owner, slot, self.new_object(of, attributes))

    def put_part(self, owner: Obj, slot: Slot, made: Obj) -> None:
        """Puts an object into its container, and opens it."""
        made.parent, made.via = owner, slot
        if slot.is_many and slot.name in owner.values:
            parts = owner.values[slot.name]
            made.index = len(parts)
            parts.append(made)
        else:
            self.put(owner, slot, made)
        self.open.append(made)

    def take_text(self, top: Text, text: str) -> None:
        """The text of a value, or of references."""
        owner, slot = top.owner, top.slot
        if slot.kind != ATTRIBUTE:
            if not top.is_nil:
                if not text.strip():
                    fault(self.file, top.line, f'{slot.key} has no href')
                self.words(owner, slot, text, top.line)
        elif not top.is_nil:
            self.put_text(owner, slot, text, top.line)
        elif slot.is_many:
            self.notes.tell('value', slot.feature.qualified, 'left out: null in a list', top.line, True)
        elif slot.type == 'EString':
            self.put(owner, slot, None, top.line)
        else:
            self.notes.tell('value', slot.feature.qualified, f'left out: null in {slot.feature.type_name}', top.line, True)

    def put_text(self, owner: Obj, slot: Slot, text: str, line: int = 0) -> None:
        """Adds the value of a text."""
        of = slot.type
        assert isinstance(of, (str, MEnum))
        found = value_of(of, text)
        if found is None:
            what = 'longer than 65,535 bytes' if of == 'EString' else f'no {slot.feature.type_name}: {shortened(text)}'
            fault(self.file, line or self.line, f'{slot.feature.qualified} is {what}')
        if slot.is_id:
            self.addresses.keys.setdefault(text_of(of, found), owner)
        self.put(owner, slot, found, line)

    def put(self, owner: Obj, slot: Slot, value: Any, line: int = 0) -> None:
        """Adds a value."""
        values = owner.values
        if slot.is_many:
            found = values.get(slot.name)
            if found is None:
                values[slot.name] = [value]
            else:
                found.append(value)
        elif slot.name in values:
            fault(self.file, line or self.line, f'{slot.feature.qualified} has one value, and several are written')
        else:
            values[slot.name] = value

    def skipped_class(self, attributes: List[str], feature: EFeature) -> Optional[EClass]:
        """The class of an object that is left out, as far as it is known."""
        text = type_text(attributes)
        if text is None:
            return feature.type if isinstance(feature.type, EClass) else None
        name = self.qualified(text)
        found = self.bent.by_name.get(name) if name is not None else None
        return found.source if found is not None else None
