"""The shared library as an engine (docs/C.md): by the extension module, or by ctypes if there is no extension module."""

from __future__ import annotations

import ctypes
import os
import subprocess
from typing import Any, List, Optional, Sequence

from .engines import CTYPES, EXTENSION, Engine
from .errors import REFUSED, MetamodelRefused, NotStarted, RepositoryClosed
from .process import LONGEST_LINE, data_of, program_file
from .values import text_word

try:
    from . import _native  # type: ignore[attr-defined]
except ImportError:
    _native = None

OK, BLANK, LOST, CLOSED, TOO_LONG, MEMORY = 0, 20, 23, 30, 31, 32  # some statuses of calls (mmrepo.h)
FAULTS = (
    '', 'SYNTAX', 'LAYOUT', 'LIMIT', 'NAME', 'DUPLICATE_NAME', 'NO_TYPE', 'CYCLE', 'BOUNDS', 'OPPOSITE', 'BOTH_CONTAIN', 'CONTAINER_BOUND',
    'DEFAULT',
)
NO_MEMORY = 'memory was refused to the library, which closed the session'
ROOM = 65_536  # bytes of a buffer that is kept; a longer text is copied into a buffer of its own


class _Handle(ctypes.Structure):
    """A session as C has it."""

    _fields_ = [('at', ctypes.c_void_p), ('is_open', ctypes.c_bool)]


class Library:
    """The library by ctypes. It and its sessions have the methods of the extension module."""

    def __init__(self, path: str) -> None:
        """Loads the library at a path. Raises an OSError if there is none."""
        library = ctypes.PyDLL(path)
        number, size, words = ctypes.c_uint32, ctypes.c_size_t, ctypes.c_char_p
        handle = ctypes.c_void_p
        self.has_calls = hasattr(library, 'mmrepo_load')
        self.functions = {
            'open': (number, [handle, words, size]), 'line': (number, [handle, words, size]),
            'text': (size, [handle, ctypes.c_void_p, size]), 'close': (None, [handle]),
        }
        if self.has_calls:
            self.functions.update({
                'list_length': (number, [handle, ctypes.c_bool, number, words, size]),
                'list_value': (number, [handle, ctypes.c_bool, number, words, size, number]),
                'load': (number, [handle, number, words, size]),
            })
        for name, (result, arguments) in self.functions.items():
            try:
                function = getattr(library, f'mmrepo_{name}')
            except AttributeError:
                raise OSError(f'the library has no mmrepo_{name}') from None
            function.restype, function.argtypes = result, arguments
            setattr(self, name, function)

    def session(self) -> _Session:
        """A new session, which is not open yet."""
        return _Session(self)


class _Session:
    """A session by ctypes."""

    def __init__(self, library: Any) -> None:
        self._library = library
        self._line, self._text = library.line, library.text
        self._struct = _Handle(None, False)
        self._at = ctypes.addressof(self._struct)
        self._room = bytearray(ROOM)
        self._place = ctypes.addressof((ctypes.c_char * ROOM).from_buffer(self._room))

    def open(self, document: bytes) -> int:
        """Opens a session over a metamodel, and returns the status."""
        return self._library.open(self._at, document, len(document))

    def line(self, line: str) -> str:
        """Runs a line, and gives what it prints."""
        data = line.encode()
        size = len(data)
        if size > LONGEST_LINE or b'\n' in data:
            data_of(line)
        status = self._line(self._at, data, size)
        if status == OK:
            size = self._text(self._at, self._place, ROOM)
            if size <= ROOM:
                return self._room[:size].decode()
        return self._answer(status)

    def list_length(self, is_resource: bool, number: int, name: str) -> str:
        """How many values a list has, as a text."""
        data = name.encode()
        return self._answer(self._library.list_length(self._at, is_resource, number, data, len(data)))

    def list_value(self, is_resource: bool, number: int, name: str, index: int) -> str:
        """The value at an index of a list, as a text."""
        data = name.encode()
        return self._answer(self._library.list_value(self._at, is_resource, number, data, len(data), index))

    def load(self, resource: int, document: bytes) -> str:
        """Loads a document, and returns the text that this prints."""
        return self._answer(self._library.load(self._at, resource, document, len(document)))

    def _answer(self, status: int) -> str:
        """The text that a call printed, or an error by its status."""
        if status == OK or BLANK <= status <= LOST:
            size = self._text(self._at, self._place, ROOM)
            if size <= ROOM:
                return self._room[:size].decode()
            room = ctypes.create_string_buffer(size)
            self._text(self._at, room, size)
            return room.raw.decode('utf-8')
        if status == MEMORY:
            raise MemoryError  # this has closed the session
        if status == CLOSED:
            raise RepositoryClosed(NO_MEMORY)
        raise RuntimeError(f'the library returned the status {status}')

    def close(self) -> None:
        """Closes the session, and frees its memory."""
        self._library.close(self._at)

    def abandon(self) -> None:
        """Closes the session, and frees nothing."""
        self._struct.at, self._struct.is_open = None, False

    def __del__(self) -> None:
        if hasattr(self, '_at'):
            self.close()


class InProcess(Engine):
    """A session of the library in this process."""

    def __init__(self, file: str, metamodel: str, document: bytes, wanted: Optional[str] = None) -> None:
        """Opens a session over a metamodel, given as its file and its document. Raises a NotStarted if there is no library, and a
        MetamodelRefused for a fault of the metamodel."""
        super().__init__()
        if wanted == EXTENSION and _native is None:
            raise NotStarted('the extension module is not built')
        is_native = _native is not None and wanted != CTYPES
        self.name = EXTENSION if is_native else CTYPES
        self._metamodel = os.path.abspath(metamodel)
        try:
            library = _native.Library(file) if is_native else Library(file)
        except OSError as error:
            raise NotStarted(f'{file} was not loaded: {error}') from None
        self._session = library.session()
        status = self._session.open(document)
        if status != OK:
            raise self._refusal(metamodel, status)
        self.exchange = self._session.line  # type: ignore
        if library.has_calls:
            self.list_length, self.list_value, self.load = self._session.list_length, self._session.list_value, self._session.load

    def _refusal(self, metamodel: str, status: int) -> Exception:
        """The error of a metamodel that is refused. The program, if there is one, says at which place, and what to fix."""
        if status == MEMORY:
            return MemoryError()
        if status == TOO_LONG:
            return NotStarted(f'{metamodel} has more than {LONGEST_LINE} bytes')
        said = self._said('')
        if said.startswith(f'{REFUSED}{status} '):
            fault, *explained = said[len(REFUSED):].split('\n')
            return MetamodelRefused(metamodel, fault, explained)
        return MetamodelRefused(metamodel, f'{status} {FAULTS[status]}')

    def exchange_all(self, lines: Sequence[str]) -> List[str]:
        """The texts that lines print. If a line can't be run, an error is raised before the first line is run."""
        text = '\n'.join(lines)
        if not text.isascii() or len(text) > LONGEST_LINE or text.count('\n') >= max(1, len(lines)):
            for line in lines:
                data_of(line)
        return list(map(self.exchange, lines))

    def explained(self, line: str, uri: Optional[str]) -> List[str]:
        """What the program, if there is one, says of a document that is refused."""
        if uri is None:
            return []
        _, _, document = line.partition(' ')[2].partition(' ')
        said = self._said(f'resource {text_word(uri)}\nload r0 {document}\n')
        return [it[len('line 2: '):] for it in said.split('\n') if it.startswith('line 2: ')]

    def _said(self, script: str) -> str:
        """What the program writes on standard error for a script."""
        try:
            command = [program_file(None), '--meta', self._metamodel, '--explain']
            done = subprocess.run(command, input=script.encode(), stdout=subprocess.DEVNULL, stderr=subprocess.PIPE)
        except (NotStarted, OSError):
            return ''
        return done.stderr.decode('utf-8', 'replace').strip()

    def end(self, why: str) -> None:
        """Closes the session. Later lines raise a RepositoryClosed with the reason."""
        self._session.close()
        self.shut(why)

    def close(self) -> None:
        """Closes the session."""
        self.end('the repository is closed')

    def abandon(self) -> None:
        """Leaves the memory of the session as it is."""
        super().abandon()
        self._session.abandon()


