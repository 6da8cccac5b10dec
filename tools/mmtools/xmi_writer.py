"""Writes objects as XMI, as EMF does. Single values, and references inside of the file, are attributes of the object's element. Lists of
values, references to other files, and the objects that it contains are elements below.
"""

from __future__ import annotations

import re
from typing import Any, Dict, List, NoReturn, Optional, Set, Tuple
from xml.sax.saxutils import escape

from .datatypes import text_of
from .ecore_model import EPackage
from .emf_values import Check, check_of, type_name
from .faults import fault
from .metamodel import MClass, MEnum, Metamodel
from .names import is_name, is_xml_name
from .notes import Notes, shortened
from .objects import ATTRIBUTE, CONTAINED, REFERENCE, Graph, Obj, Slot, as_list
from .outside import Link, Outside
from .progress import Progress
from .xml_reader import XMI_SPACES, XSI

FORBIDDEN = re.compile('[^\t\n\r\u0020-\ud7ff\ue000-\ufffd\U00010000-\U0010ffff]')
IN_TEXT = {'\r': '&#xD;'}
IN_ATTRIBUTE = {'"': '&quot;', '\t': '&#x9;', '\n': '&#xA;', '\r': '&#xD;'}
MARKS = re.compile('[&<>"\t\n\r]')
SPECIAL = re.compile('[^ !#-%\'-;=?-\ud7ff\ue000-\ufffd\U00010000-\U0010ffff]')  # what is forbidden, or a mark
PIECE = 20_000  # texts that are joined to one piece of output
ABSENT = object()  # the value of a feature that has none


class XmiWriter:
    """Writes one resource."""

    def __init__(self, file: str, graph: Graph, meta: Metamodel, outside: Outside, notes: Notes) -> None:
        """`file` is that of the document, which faults name; `outside` knows the URI of the resource and the other files."""
        self.file, self.graph, self.meta, self.outside, self.notes = file, graph, meta, outside, notes
        self.plans = graph.plans
        self.prefixes: Dict[EPackage, str] = {}
        self.types: Dict[MClass, str] = {}
        self.checks: Dict[Slot, Optional[Check]] = {}
        self.free: Set[Slot] = set()  # attributes that take any text
        self.written: Set[Slot] = set()  # features that are written whatever their value
        self.literals: Dict[Tuple[Slot, str], str] = {}  # the texts of literals
        self.count = 0  # objects since the last flush
        self.out: List[str] = []
        self.done: List[bytes] = []
        self.progress = Progress('', 0)

    def pieces(self, count: int) -> List[bytes]:
        """The file in pieces. The head is made last, when all prefixes are known."""
        self.progress = Progress('writing the objects', count)
        roots = self.graph.roots
        name = 'xmi:XMI' if len(roots) != 1 else self.type_text(roots[0])
        self.out.append('' if len(roots) == 1 else '>\n' if roots else '/>\n')
        for root in roots:
            if len(roots) == 1:
                self.element(root, name, '', '')
            else:
                self.element(root, self.type_text(root), f'  <{self.type_text(root)}', '  ')
        if len(roots) > 1:
            self.out.append('</xmi:XMI>\n')
        self.flush()
        self.progress.end()
        return [f'<?xml version="1.0" encoding="UTF-8"?>\n<{name}{self.head()}'.encode('utf-8'), *self.done]

    def flush(self) -> None:
        """Joins what was written."""
        self.progress.step(self.count)
        self.count = 0
        self.done.append(''.join(self.out).encode('utf-8'))
        self.out.clear()

    def head(self) -> str:
        """The version of XMI, and the prefixes."""
        spaces = [('xmi', XMI_SPACES[0]), ('xsi', XSI)] + [(prefix, it.uri) for it, prefix in self.prefixes.items()]
        declared = ''.join(f' xmlns:{prefix}="{attribute_text(uri)}"' for prefix, uri in spaces)
        return ' xmi:version="2.0"' + declared

    def fault(self, obj: Obj, text: str) -> NoReturn:
        """Ends with a fault in an object."""
        fault(self.file, None, f'{self.graph.where(obj)}: {text}')

    def prefix(self, obj: Obj, of: MClass) -> str:
        """The prefix of the package of a class."""
        package = of.source.package if of.source else None
        if package is None or not package.uri:
            self.fault(obj, f'class {of.name} is in a package without URI, so XMI has no name for it')
        if package not in self.prefixes:
            wanted = package.prefix if is_name(package.prefix) and not package.prefix.lower().startswith('xm') else ''
            taken = list(self.prefixes.values()) + ['xsi', '']
            number = 1
            while wanted in taken:
                wanted, number = f'p{number}', number + 1
            self.prefixes[package] = wanted
        return self.prefixes[package]

    def type_text(self, obj: Obj, of: Optional[MClass] = None) -> str:
        """The name of a class with its prefix: that of an object, or another one that the object needs."""
        of = of or obj.of
        if of not in self.types:
            name = of.source.name if of.source else of.name
            if not is_xml_name(name):
                self.fault(obj, f'class {shortened(of.name)} is called {shortened(name)} in Ecore, which is no name in XML')
            self.types[of] = f'{self.prefix(obj, of)}:{name}'
        return self.types[of]

    def element(self, obj: Obj, name: str, start: str, space: str) -> None:
        """The element of an object, which begins with `start`."""
        out, values, fragment, below = self.out, obj.values, self.graph.fragment, []
        out.append(start)
        for slot in self.plans[obj.of].slots:
            value = values.get(slot.name, ABSENT)
            if value is ABSENT:
                continue
            if type(value) is str and slot in self.free and not SPECIAL.search(value):
                out.append(f' {slot.key}="{value}"')
            elif value == [] or not (slot in self.written or self.is_written(obj, slot)):
                continue
            elif type(value) is Obj and slot.kind == REFERENCE:
                out.append(f' {slot.key}="{fragment(value, True)}"')
            elif slot.kind == ATTRIBUTE and not slot.is_many and value is not None:
                out.append(f' {slot.key}="{self.attribute(obj, slot, value)}"')
            elif slot.kind == REFERENCE and slot.is_many and not any([type(it) is str for it in value]):
                out.append(f' {slot.key}="{" ".join([fragment(it, True) for it in value])}"')
            else:
                below.append((slot, value))
        self.count += 1
        self.end_element(obj, name, below, space)
        if len(out) > PIECE:
            self.flush()

    def end_element(self, obj: Obj, name: str, below: List[Tuple[Slot, Any]], space: str) -> None:
        """The elements below an object, and its end."""
        if not below:
            self.out.append('/>\n')
            return
        self.out.append('>\n')
        for slot, value in below:
            for it in as_list(slot, value):
                self.child(obj, slot, it, space + '  ')
        self.out.append(f'{space}</{name}>\n')

    def is_written(self, obj: Obj, slot: Slot) -> bool:
        """Whether a feature that has a value is written. EMF completes transient ends itself, and can't set what is unchangeable."""
        if slot not in self.checks:
            self.checks[slot] = check_of(slot.feature)
            self.check_name(obj, slot)
        if slot.is_settable:
            self.written.add(slot)
            if self.checks[slot] is None and isinstance(slot.type, str):
                self.free.add(slot)
            return True
        if slot.is_completed:
            for it in as_list(slot, obj.values[slot.name]):
                if type(it) is str:
                    why = f'left out: EMF saves no transient end: {shortened(it)}'
                    self.notes.tell('reference', f'{self.graph.where(obj)} {slot.feature.qualified}', why, None, True)
            return False
        self.notes.tell('value', f'{self.graph.where(obj)} {slot.feature.qualified}', 'left out: EMF sets nothing unchangeable', None, True)
        if slot.kind == CONTAINED:
            self.notes.objects_below += self.count_below(obj.values[slot.name])
        return False

    def count_below(self, obj: Obj) -> int:
        """How many objects an object contains."""
        return sum(1 + self.count_below(it) for it in self.graph.parts(obj))

    def check_name(self, obj: Obj, slot: Slot) -> None:
        """Refuses a feature whose name in Ecore is none of XML, or that of another feature of the class."""
        name, feature = slot.key, slot.feature
        if not is_xml_name(name):
            self.fault(obj, f'{feature.qualified} is called {shortened(name)} in Ecore, which is no name in XML')
        if self.plans[obj.of].by_key[name] is not slot:
            self.fault(obj, f'{feature.qualified} is called {shortened(name)} in Ecore, as another feature of {obj.of.name} is')

    def attribute(self, obj: Obj, slot: Slot, value: Any) -> str:
        """The text of a value between quotation marks."""
        if type(value) is int and self.checks[slot] is None:
            return str(value)
        known = self.literals.get((slot, value))
        if known is not None:
            return known
        text = self.plain(obj, slot, value)
        text = attribute_text(text) if MARKS.search(text) else text
        if isinstance(slot.type, MEnum):
            self.literals[slot, value] = text
        return text

    def plain(self, obj: Obj, slot: Slot, value: Any) -> str:
        """The text of a value. XML has no way to write some control characters, and EMF refuses some texts."""
        text = value if type(value) is str and not isinstance(slot.type, MEnum) else text_of(slot.type, value)
        if FORBIDDEN.search(text):
            self.fault(obj, f'{slot.feature.qualified} has a character that XML cannot write')
        check = self.checks[slot]
        if check is not None and not check(text):
            self.fault(obj, f'{slot.feature.qualified} is {shortened(text)}, which EMF reads as no {type_name(slot.feature)}')
        return text

    def child(self, obj: Obj, slot: Slot, value: Any, space: str) -> None:
        """A value that is an element of its own."""
        name = slot.key
        if slot.kind == CONTAINED:
            head = '' if value.of is slot.type else f' xsi:type="{self.type_text(value)}"'
            self.element(value, name, f'{space}<{name}{head}', space)
        elif value is None:
            self.out.append(f'{space}<{name} xsi:nil="true"/>\n')
        elif slot.kind == ATTRIBUTE:
            self.out.append(f'{space}<{name}>{escape(self.plain(obj, slot, value), IN_TEXT)}</{name}>\n')
        else:
            head, href = self.link(obj, slot, value)
            self.out.append(f'{space}<{name}{head} href="{href}"/>\n')

    def link(self, obj: Obj, slot: Slot, value: Any) -> Tuple[str, str]:
        """The type and the href of a reference that is an element. The type is written if that of the reference is abstract."""
        to = slot.type
        assert isinstance(to, MClass)
        if isinstance(value, Obj):
            head = f' xsi:type="{self.type_text(value)}"' if to.is_abstract else ''
            return head, '#' + self.graph.fragment(value, True)
        if FORBIDDEN.search(value):
            self.fault(obj, f'{slot.feature.qualified} has a character that XML cannot write')
        found: Link = self.outside.written(value)
        if found.is_by_position:
            why = 'goes by position into a package that is not given; EMF may have another order'
            self.notes.tell('reference', f'{self.graph.where(obj)} {slot.feature.qualified}', f'{why}: {shortened(value)}')
        of = found.of if found.of is not None and self.plans.conforms(found.of, to) else None
        if of is None or of.is_abstract:
            of = next((it for it in self.meta.classes if not it.is_abstract and self.plans.conforms(it, to)), None)
        head = f' xsi:type="{self.type_text(obj, of)}"' if to.is_abstract and of is not None else ''
        return head, attribute_text(found.text)


def attribute_text(text: str) -> str:
    """A text between quotation marks."""
    return escape(text, IN_ATTRIBUTE)
