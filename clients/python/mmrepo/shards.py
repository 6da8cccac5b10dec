"""Shards: a model of files that is too large for one repository is read group by group. docs/SHARDS.md is the page on them."""

from __future__ import annotations

import os
import tempfile
import uuid
from collections import deque
from concurrent.futures import Executor, Future
from contextlib import contextmanager
from functools import partial
from typing import Any, Callable, Deque, Iterable, Iterator, List, NamedTuple, Optional, Sequence, Set, Tuple, Union

from .directory import Directory
from .errors import NotLoaded
from .findings import Finding
from .loading import DOCUMENTS, XMI_FILES, Loaded, Loader, first_number, parsed, several
from .proxies import Found, proxies_of
from .repository import Repository
from .resources import Resource
from .uris import BASE, checked_base, name_of
from .walking import Met, Shapes, links_of
from .xmi import Xmi

MOST_OBJECTS, MOST_FILES = 1_000_000, 50_000  # the most objects and files of a group
Path = Union[str, os.PathLike]
Group = Tuple[str, ...]


class Models(NamedTuple):
    """Files of models, and how they are read: everything that a worker has to know."""

    metamodel: bytes
    path: str
    base: str
    ecore: Tuple[str, ...]
    suffixes: Tuple[str, ...]
    program: Optional[str]

    def names(self) -> Tuple[List[str], List[Tuple[str, str]]]:
        """The files, in order; and the names that are refused, each with the reason."""
        return Directory(self.path).names([*DOCUMENTS, *self.xmi_suffixes])

    @property
    def xmi_suffixes(self) -> Tuple[str, ...]:
        """The suffixes of the files that are read by the tools."""
        return self.suffixes if self.ecore else ()

    @contextmanager
    def opened(self) -> Iterator[Part]:
        """A new repository, into which files are loaded."""
        with tempfile.TemporaryDirectory() as room:
            file = os.path.join(room, 'metamodel.json')
            with open(file, 'wb') as stream:
                stream.write(self.metamodel)
            with Repository(file, self.program) as repo:
                repo._session.is_shard = True
                yield Part(self, repo)


class Part:
    """Some files that are loaded into a repository, and the files to which their proxies lead."""

    def __init__(self, models: Models, repo: Repository) -> None:
        directory = Directory(models.path)
        beside = directory.names(models.suffixes)[0] if models.ecore else []
        xmi = Xmi(directory, models.ecore, beside) if models.ecore else None
        self.repo, self.base, self.directory = repo, models.base, directory
        self.loader = Loader(repo, directory, models.base, xmi, models.suffixes)
        self.shapes = Shapes(repo.metamodel)

    def proxies(self, loaded: Loaded, objects: Iterable[Met]) -> List[Found]:
        """The proxies of objects of a file."""
        links = [link for met in objects for link in links_of(met)]
        return proxies_of(self.repo._session, first_number(loaded.resource), links) if links else []

    def targets(self, proxies: Iterable[Found]) -> Set[str]:
        """The files to which proxies lead, and that are not loaded."""
        uris = {it.proxy.uri for it in proxies}
        names = {name_of(self.base, uri) for uri in uris}
        return {
            name for name in names
            if name is not None and name not in self.loader.names and self.loader.is_document(name) and self.directory.has(name)
        }


def weight(content: bytes, is_xmi: bool) -> int:
    """An upper bound for the number of objects in a file. An object of a document has two pairs of braces, and the document has one."""
    return content.count(b'<') if is_xmi else max(0, content.count(b'{') - 1) // 2


def groups(models: Models, names: Iterable[str], objects: int) -> Iterator[Group]:
    """Cuts files, in order, into groups of at most `objects` objects. A file that has more objects is a group of its own."""
    directory = Directory(models.path)
    group: List[str] = []
    count = 0
    for name in names:
        try:
            more = weight(directory.read(name), bool(models.xmi_suffixes) and name.endswith(models.xmi_suffixes))
        except OSError:
            more = 0  # the worker says why
        if group and (count + more > objects or len(group) == MOST_FILES):
            yield tuple(group)
            group, count = [], 0
        group.append(name)
        count += more
    if group:
        yield tuple(group)


def in_order(work: Callable[[Group], Any], parts: Iterable[Group], executor: Optional[Executor]) -> Iterator[Any]:
    """The results of work on groups, in the order of the groups. Without an executor the groups are done one after another."""
    if executor is None:
        for part in parts:
            yield work(part)
        return
    run = uuid.uuid4().hex  # an executor that keeps results, as Dask's, then does not return the results of an earlier run
    waiting: Deque[Future] = deque(executor.submit(_called, work, part, run) for part in parts)
    try:
        while waiting:
            yield waiting.popleft().result()
    finally:
        for future in waiting:
            future.cancel()


def _called(work: Callable[[Group], Any], part: Group, run: str) -> Any:
    """The work of a worker on a group. `run` is different in each run, and is not used."""
    return work(part)


def _on_shard(models: Models, function: Callable[[Repository, List[Resource]], Any], names: Group) -> Any:
    """Loads a group and the files to which its proxies lead, resolves all proxies, and calls the function."""
    with models.opened() as part:
        resources, targets = [], set()
        for name in names:
            loaded = part.loader.load(name)
            if loaded is not None:
                resources.append(loaded.resource)
                if '#' in loaded.document and loaded.count:
                    targets |= part.targets(part.proxies(loaded, part.shapes.walk(parsed(loaded.document))))
        _check_loaded(part, names)
        beside = sorted(targets - set(names))
        for name in beside:
            part.loader.load(name)
        _check_loaded(part, beside)
        part.repo.resolve_all()
        return function(part.repo, resources)


def _check_loaded(part: Part, names: Sequence[str]) -> None:
    """Raises a NotLoaded if a file could not be loaded."""
    wrong = {name for name in names if name in part.loader.unread}
    if wrong:
        raise NotLoaded([it for it in part.loader.findings if it.file in wrong])


def map(
    function: Callable[[Repository, List[Resource]], Any], path: Path, executor: Optional[Executor], *, metamodel: Path,
    objects: int = 500_000, base: str = BASE, ecore: Sequence[Path] = (), suffixes: Sequence[str] = XMI_FILES,
    program: Optional[Path] = None,
) -> Iterator[Any]:
    """Cuts the files below a path into groups of at most so many objects, calls the function on each group, and returns the
    results in the order of the files.

    A worker of the executor loads a group together with the files to which its proxies lead, resolves all proxies, and calls
    `function(repo, resources)` with the resources of the group. Without an executor this process does it, one group after
    another.

    Raises a NotLoaded if a file of a group, or a file to which it leads, can't be loaded; and any error that the function
    raises. Each worker needs the paths and the program. docs/SHARDS.md says what is promised.
    """
    if not 1 <= objects <= MOST_OBJECTS:
        raise ValueError(f'a group has 1 to {MOST_OBJECTS} objects')
    models = models_of(path, metamodel, base, ecore, suffixes, program)
    names, refused = models.names()
    if refused:
        raise NotLoaded([Finding(name, 'FILE', '', why) for name, why in refused])
    own = Directory(path).name_of(os.fspath(metamodel))
    parts = groups(models, [name for name in names if name != own], objects)
    return in_order(partial(_on_shard, models, function), parts, executor)


def models_of(
    path: Path, metamodel: Path, base: str = BASE, ecore: Sequence[Path] = (), suffixes: Sequence[str] = XMI_FILES,
    program: Optional[Path] = None,
) -> Models:
    """The models below a path. Raises an OSError if there is no folder or no metamodel, and a ValueError for a wrong base."""
    with open(metamodel, 'rb') as file:
        document = file.read()
    Directory(path)
    files = tuple(os.path.abspath(it) for it in several(ecore))
    given = None if program is None else os.path.abspath(program)
    return Models(document, os.path.realpath(path), checked_base(base), files, several(suffixes), given)
