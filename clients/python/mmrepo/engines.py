"""The engines of a repository: a process of the program, or the shared library in this process."""

from __future__ import annotations

import os
from pathlib import Path
from typing import Any, Callable, List, Optional, Sequence
from weakref import WeakSet

from .errors import NotOwner, NotStarted, RepositoryClosed

LIBRARY, ENGINE = 'MMREPO_LIBRARY', 'MMREPO_ENGINE'  # in the environment
EXTENSION, CTYPES, PROGRAM = 'extension', 'ctypes', 'program'  # the names of engines
FORKED = 'the repository belongs to the process that was forked'

_HERE = Path(__file__).resolve().parent


class Engine:
    """The interface of an engine, which answers lines. Each line of an answer ends with a newline."""

    name: str
    may_hang = False  # whether an answer may never come
    is_shut = False  # whether each call raises an error
    list_length: Optional[Callable[[bool, int, str], str]] = None
    """How many values a list has. The arguments are whether the list is of a resource, the number of the resource or object, and the
    name of the feature. None if the engine has no such call; then it has none for `list_value` and `load` either.
    """
    list_value: Optional[Callable[[bool, int, str, int], str]] = None
    """The value at an index of a list."""
    load: Optional[Callable[[int, bytes], str]] = None
    """Loads a document into the resource with a number."""

    def __init__(self) -> None:
        _open.add(self)

    def exchange(self, line: str) -> str:
        """The text that a line prints.

        Raises a ValueError, and sends nothing, for a line that is too long, has a newline or half of a surrogate pair.
        """
        raise NotImplementedError

    def exchange_all(self, lines: Sequence[str]) -> List[str]:
        """The texts that lines print."""
        exchange = self.exchange
        return [exchange(line) for line in lines]

    def explained(self, line: str, uri: Optional[str]) -> List[str]:
        """What `--explain` says of the last line, without its number. `uri` is the URI of the resource of a `load`."""
        raise NotImplementedError

    def end(self, why: str) -> None:
        """Ends the engine at once. Later lines raise a RepositoryClosed with the reason."""
        raise NotImplementedError

    def close(self) -> None:
        """Ends the engine in the regular way, as opposed to `end`."""
        raise NotImplementedError

    def abandon(self) -> None:
        """Leaves the engine to the parent of a fork."""
        self.refuse(lambda: NotOwner(FORKED))

    def refuse(self, error: Callable[[], Exception]) -> None:
        """Makes all further calls raise an error."""
        def refused(*_: Any) -> Any:
            raise error()

        self.is_shut = True
        self.exchange = refused  # type: ignore
        if self.load is not None:
            self.list_length = self.list_value = self.load = refused

    def shut(self, why: str) -> None:
        """Makes all later calls raise a RepositoryClosed, unless they raise an error already."""
        if not self.is_shut:
            self.refuse(lambda: RepositoryClosed(why))


_open: WeakSet[Engine] = WeakSet()


def _after_fork() -> None:
    """Marks all repositories in the child of a fork: they belong to the parent."""
    for engine in list(_open):
        engine.abandon()


os.register_at_fork(after_in_child=_after_fork)


def start(metamodel: str, document: bytes, program: Optional[str], library: Optional[str], journal: Optional[str] = None) -> Engine:
    """The engine of a repository over a metamodel.

    Only the program keeps a journal, so with a journal the engine is the program. Otherwise the engine is the library, if
    `library` is given; else the program, if `program` is given; else the library that MMREPO_LIBRARY names, or the library
    beside this package; else the program. If neither is given, MMREPO_ENGINE can demand an engine by its name; if only
    `library` is given, it can demand `extension` or `ctypes`.
    """
    from .inprocess import InProcess
    from .process import Program, program_file
    if journal is not None:
        return Program(program_file(program), metamodel, journal)
    wanted = None if program else os.environ.get(ENGINE) or None
    if wanted not in (None, EXTENSION, CTYPES, PROGRAM):
        raise NotStarted(f'no engine {wanted}: {ENGINE} is {EXTENSION}, {CTYPES} or {PROGRAM}')
    if library or program is None and wanted != PROGRAM:
        named = library or os.environ.get(LIBRARY)
        file = named or (None if LIBRARY in os.environ else _beside())
        if file is not None:
            try:
                return InProcess(file, metamodel, document, wanted)
            except NotStarted:
                if named or wanted is not None:
                    raise  # the one beside the package may be of another system, and then the program is taken
        elif wanted is not None:
            raise NotStarted(f'no library: name it by library= or by {LIBRARY} in the environment')
    return Program(program_file(program), metamodel)


def _beside() -> Optional[str]:
    """The library that is installed with this package."""
    file = _HERE / 'libmmrepo.so'
    return str(file) if file.is_file() else None
