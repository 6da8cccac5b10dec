"""Reads an XML file into elements, and the names of XMI."""

from __future__ import annotations

from dataclasses import dataclass, field
from typing import Dict, List, Optional, Tuple

from .faults import fault
from .xml_parser import DEEPEST, Parser

XMI_SPACES = ('http://www.omg.org/XMI', 'http://schema.omg.org/spec/XMI/2.0', 'http://schema.omg.org/spec/XMI/2.1')
XSI = 'http://www.w3.org/2001/XMLSchema-instance'
ECORE = 'http://www.eclipse.org/emf/2002/Ecore'
Name = Tuple[str, str]  # namespace, which is empty if there is none, and local name


def is_xmi(space: str) -> bool:
    """Whether a namespace is that of XMI, in one of its versions."""
    return space in XMI_SPACES or space.startswith('http://www.omg.org/spec/XMI/')


@dataclass
class Element:
    """An element: its name, attributes and children, its own text, the prefixes that hold there, and its line."""

    space: str
    name: str
    attributes: Dict[Name, str]
    prefixes: Dict[str, str]
    line: int
    children: List['Element'] = field(default_factory=list)
    text: str = ''

    def plain(self, name: str) -> Optional[str]:
        """The value of an attribute without a namespace."""
        return self.attributes.get(('', name))

    def xmi(self, name: str) -> Optional[str]:
        """The value of an attribute of XMI."""
        return next((value for (space, local), value in self.attributes.items() if local == name and is_xmi(space)), None)

    def xsi(self, name: str) -> Optional[str]:
        """The value of an attribute of XML Schema instances."""
        return self.attributes.get((XSI, name))

    def type_name(self) -> Optional[str]:
        """The text of `xsi:type`, or of `xmi:type`."""
        return self.xsi('type') or self.xmi('type')

    def qualified(self, text: str) -> Optional[Name]:
        """The namespace and the local name of a text with a prefix; None if the prefix is unknown."""
        prefix, colon, local = text.strip().partition(':')
        if not colon:
            return (self.prefixes.get('', ''), prefix)
        return (self.prefixes[prefix], local) if prefix in self.prefixes else None


def name_of(text: str) -> Name:
    """The name that the parser gives as namespace, space and local name."""
    space, _, local = text.rpartition(' ')
    return (space, local)


class Builder(Parser):
    """Builds the elements of a file."""

    def __init__(self, file: str) -> None:
        """Nothing is open yet."""
        super().__init__(file)
        self.root: Optional[Element] = None
        self.open: List[Element] = []
        self.texts: List[List[str]] = []
        self.declared: Dict[str, str] = {}

    def declare(self, prefix: Optional[str], uri: Optional[str]) -> None:
        """Notes a prefix of the element that starts next."""
        super().declare(prefix, uri)
        self.declared[prefix or ''] = uri or ''

    def start(self, tag: str, attributes: List[str]) -> None:
        """Opens an element."""
        if len(self.open) == DEEPEST:
            self.fault(f'elements nest deeper than {DEEPEST} levels')
        prefixes = self.open[-1].prefixes if self.open else {'xml': 'http://www.w3.org/XML/1998/namespace'}
        if self.declared:
            prefixes = {**prefixes, **self.declared}
            self.declared = {}
        space, local = name_of(tag)
        named = {name_of(name): value for name, value in zip(attributes[::2], attributes[1::2])}
        made = Element(space, local, named, prefixes, self.line)
        if self.open:
            self.open[-1].children.append(made)
        else:
            self.root = made
        self.open.append(made)
        self.texts.append([])

    def end(self, _: str) -> None:
        """Closes an element."""
        self.open.pop().text = ''.join(self.texts.pop())

    def data(self, text: str) -> None:
        """Takes text of the open element."""
        if self.texts:
            self.texts[-1].append(text)


def read_xml(file: str) -> Element:
    """The root element of an XML file."""
    builder = Builder(file)
    builder.run()
    if builder.root is None:
        fault(file, None, 'not XML: no element')
    return builder.root
