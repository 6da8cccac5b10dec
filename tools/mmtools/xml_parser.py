"""Parses an XML file by `expat`, piece by piece. Document types and entities are refused: nothing else is read, and nothing expands."""

from __future__ import annotations

import codecs
from typing import Dict, List, NoReturn, Optional, Tuple
from xml.parsers import expat

from .faults import fault, pieces
from .progress import MANY_BYTES, Progress

DEEPEST = 100  # the most levels of elements
INVALID_TOKEN = 'not well-formed (invalid token)'


class Parser:
    """Parses one file. A reader derives its own class from this one, with `start`, `end` and `data` for elements and texts."""

    def __init__(self, file: str) -> None:
        """`file` is named by faults."""
        self.file, self.encoding = file, 'UTF-8'
        self.level = 0
        self.prefixes: Dict[str, List[str]] = {'xml': ['http://www.w3.org/XML/1998/namespace']}
        parser = expat.ParserCreate(namespace_separator=' ')
        parser.buffer_text = True
        parser.ordered_attributes = True
        parser.SetParamEntityParsing(expat.XML_PARAM_ENTITY_PARSING_NEVER)
        parser.StartNamespaceDeclHandler = self.declare
        parser.EndNamespaceDeclHandler = self.forget
        parser.XmlDeclHandler = self.take_declaration
        parser.StartDoctypeDeclHandler = self.refuse_doctype
        parser.EntityDeclHandler = self.refuse_entity
        parser.ExternalEntityRefHandler = self.refuse_entity
        parser.StartElementHandler = self.start
        parser.EndElementHandler = self.end
        parser.CharacterDataHandler = self.data
        self.parser = parser

    def start(self, tag: str, attributes: List[str]) -> None:
        """An element starts; its attributes are names and values in turn."""
        raise NotImplementedError

    def end(self, tag: str) -> None:
        """An element ends."""
        raise NotImplementedError

    def data(self, text: str) -> None:
        """A text inside of an element."""
        raise NotImplementedError

    @property
    def line(self) -> int:
        """The line at which the parser is."""
        return self.parser.CurrentLineNumber

    def fault(self, text: str) -> NoReturn:
        """Ends with a fault at this line."""
        fault(self.file, self.line, text)

    def refuse_doctype(self, *_: object) -> None:
        """Refuses a document type."""
        self.fault('a document type (DOCTYPE) is refused')

    def refuse_entity(self, *_: object) -> int:
        """Refuses an entity."""
        self.fault('an entity declaration is refused')

    def take_declaration(self, _: str, encoding: Optional[str], __: int) -> None:
        """Notes the declared encoding."""
        self.encoding = encoding or self.encoding

    def declare(self, prefix: Optional[str], uri: Optional[str]) -> None:
        """Begins the scope of a prefix."""
        self.prefixes.setdefault(prefix or '', []).append(uri or '')

    def forget(self, prefix: Optional[str]) -> None:
        """Ends the scope of a prefix."""
        self.prefixes[prefix or ''].pop()

    def qualified(self, text: str) -> Optional[Tuple[str, str]]:
        """The namespace and the local name of a text with a prefix; None if the prefix is unknown."""
        prefix, colon, local = text.strip().partition(':')
        if not colon:
            prefix, local = '', prefix
        spaces = self.prefixes.get(prefix)
        return (spaces[-1], local) if spaces else None if colon else ('', local)

    def run(self) -> None:
        """Parses the file."""
        length, chunks = pieces(self.file)
        progress = Progress(f'reading {self.file}', length, MANY_BYTES)
        done, chunk = 0, b''
        try:
            for chunk in chunks:
                self.parser.Parse(chunk, False)
                done += len(chunk)
                progress.step(len(chunk))
            self.parser.Parse(b'', True)
        except expat.ExpatError as found:
            self.tell(found, chunk[max(0, self.parser.ErrorByteIndex - done):])
        except (LookupError, ValueError) as found:
            self.fault(f'the encoding cannot be read: {found}')
        finally:
            progress.end()
            self.parser.StartElementHandler = self.parser.EndElementHandler = self.parser.CharacterDataHandler = None

    def tell(self, found: expat.ExpatError, rest: bytes) -> NoReturn:
        """Ends with the fault of the parser; `rest` has the bytes from the fault on. A byte that the encoding doesn't have is named."""
        text = expat.ErrorString(found.code)
        if text == INVALID_TOKEN and rest:
            try:
                codecs.getincrementaldecoder(self.encoding)().decode(rest[:4])
            except UnicodeDecodeError as wrong:
                if wrong.start == 0:
                    fault(self.file, found.lineno, f'not XML: byte 0x{rest[0]:02x} is none of the encoding {self.encoding}')
            except LookupError:
                pass
        fault(self.file, found.lineno, f'not XML: {text}')
