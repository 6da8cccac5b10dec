"""A repository, which a session of the library or a program in its live mode holds."""

from __future__ import annotations

import os
from contextlib import suppress
from pathlib import Path
from types import TracebackType
from typing import Any, Dict, Iterable, List, NamedTuple, Optional, Sequence, Type, Union

from .batches import Batch
from .copying import copied
from .engines import start
from .errors import CallableFailed, NotOpened, RepositoryClosed
from .folders import Folder, save_all
from .journals import made_by
from .loading import XMI_FILES, several
from .metamodel import EClass, EReference, Metamodel
from .notices import Hearer, View, depth
from .objects import EObject
from .resources import Resource
from .session import Session
from .snapshots import Snapshot, snapshot_of
from .uris import BASE
from .values import name_word, text_word


class Resolved(NamedTuple):
    """How many proxies were replaced by their objects, and how many are left."""

    resolved: int
    left: int


class Repository:
    """Objects of a metamodel. A repository is for the thread that opens it, and lives until it is closed.

    Each call is a command of docs/SCRIPT.md. A command that is refused raises a Refused, and has changed nothing.
    """

    def __init__(
        self, metamodel: Union[str, os.PathLike], program: Union[None, str, os.PathLike] = None,
        library: Union[None, str, os.PathLike] = None, journal: Union[None, str, os.PathLike] = None,
    ) -> None:
        """Opens a repository over the file of a metamodel: in this process by the shared library, or in a process of the
        program.

        The library is the argument, else the file that MMREPO_LIBRARY names, else the one beside this package. The program is
        used if it is an argument, or if there is no library. The program is the argument, else the file that MMREPO names, else
        the one beside this package, else `mmrepo` on the PATH.

        With the file of a journal, each change is on the disk before its call returns, and the repository begins with the
        content of the journal (docs/JOURNAL.md). Only the program keeps a journal, so no library may be an argument then.

        Raises an OSError if the file can't be read, a MetamodelRefused for a fault of the metamodel, a NotStarted if there is
        no library and no program, and a JournalRefused if the program does not take the journal.
        """
        if journal is not None and library is not None:
            raise ValueError('a journal is kept by the program, and not by the library')
        path = os.fspath(metamodel)
        with open(path, 'rb') as file:
            document = file.read()
        self._file = os.path.abspath(path)
        kept = None if journal is None else os.fspath(journal)
        engine = start(
            path, document, None if program is None else os.fspath(program), None if library is None else os.fspath(library), kept
        )
        try:
            self._session = Session(engine, Metamodel(document))
            if kept is not None:
                self._session.begin_with(made_by(kept, self.metamodel))
        except BaseException:
            engine.end('the metamodel was not read')
            raise

    @property
    def engine(self) -> str:
        """The engine that answers: `extension` and `ctypes` for the library in this process, by the extension module and by
        ctypes, or `program`.
        """
        return self._session.engine.name

    @property
    def metamodel(self) -> Metamodel:
        """The classes and enumerations."""
        return self._session.metamodel

    def create(self, eclass: Union[str, EClass], /, **features: Any) -> EObject:
        """Makes an object of a class, with values of features: one value, or several values of a list.

        Refused if there is no such class (NO_CLASS) or it is abstract (ABSTRACT). The values are given one after another. If one
        of them raises an error, the object is deleted again. Objects that were put into it are then in no container, and links
        that were cut for earlier values stay cut.
        """
        name = eclass.name if isinstance(eclass, EClass) else eclass
        known = self._session.metamodel.classes.get(name)
        made = self._session.object(f'new {name if known else name_word(name)}', known)
        if features:
            try:
                self._give(made, features)
            except BaseException:
                with suppress(RepositoryClosed):  # then the error that is raised says why
                    self._take_back(made, features)
                raise
        return made

    def _give(self, made: EObject, features: Dict[str, Any]) -> None:
        """Gives features of an object their values."""
        for name, value in features.items():
            feature = made.eClass.findEStructuralFeature(name)
            if feature is not None and feature.many:
                made.eGet(feature).extend(value)
            else:
                made.eSet(name, value)

    def _take_back(self, made: EObject, names: Iterable[str]) -> None:
        """Deletes an object that got values of features. What was put into it is taken out first, and so is not destroyed.

        Errors of callables are dropped: the views are notified while an earlier error waits to be raised.
        """
        for feature in map(made.eClass.findEStructuralFeature, names):
            if isinstance(feature, EReference) and feature.containment:
                with suppress(CallableFailed):
                    made.eUnset(feature)
        with suppress(CallableFailed):
            made.delete()

    def batch(self) -> Batch:
        """Commands that are collected, and sent at once: `with repo.batch() as batch: batch.create("Book", pages=3)`."""
        return self._session.batch()

    def object(self, number: int) -> EObject:
        """The object of a number, which `number` of an object returns. Refused if no object of the number lives (NO_OBJECT)."""
        word = f'#{number:d}'
        self._session.class_of(word)
        found: EObject = self._session.named(word)
        return found

    def objects(self, eclass: Union[None, str, EClass] = None) -> List[EObject]:
        """The objects that live, by their numbers: all, or the objects of a class and of its subclasses. Raises a KeyError if
        there is no such class.
        """
        return self._session.objects(self.metamodel.classes[eclass] if isinstance(eclass, str) else eclass)

    def copy(self, node: EObject) -> EObject:
        """A copy of an object with all that is below it, in no container.

        A reference to a copied object leads, in the copy, to the copy of that object. Any other reference leads to the same
        object as in the original, but is left out if it has an opposite. Raises a ValueError if an object has a proxy.
        """
        self._session.check_node(node)
        return copied(self._session, node)

    def snapshot(self, node: Union[EObject, Resource]) -> Snapshot:
        """What a node and each node below it have: a dict of the features by their names. Its `replay` brings it up to date by a notification."""
        self._session.check_node(node)
        return snapshot_of(self._session, node)

    def resource(self, uri: str) -> Resource:
        """Makes a resource of a URI of http or https. Refused for any other text (BAD_URI), and for a URI that a resource has
        already (RESOURCE_EXISTS).
        """
        return self._session.resource(f'resource {text_word(uri)}', uri)

    @property
    def resources(self) -> List[Resource]:
        """All resources, in the order in which they were made."""
        return self._session.resources()

    def open(
        self, path: Union[str, os.PathLike], base: str = BASE, ecore: Sequence[str] = (), strict: bool = False,
        suffixes: Sequence[str] = XMI_FILES,
    ) -> Folder:
        """Loads each `*.json` below a directory into a resource, and resolves all proxies. The URI of a resource is the base
        and the relative path. With the Ecore files of the metamodel each `*.xmi` is loaded too, or the files with other
        suffixes.

        The `findings` of the Folder say what could not be loaded or resolved. If there are findings and `strict` is set, a
        NotOpened is raised. Raises an OSError if there is no directory, and a ValueError if the base is not a valid one.
        docs/FOLDERS.md has more.
        """
        folder = Folder(self, path, base, several(ecore), several(suffixes), self._file)
        self._session.folders.append(folder)
        if strict and folder.findings:
            raise NotOpened(folder)
        return folder

    def save_all(self, force: bool = False) -> List[Path]:
        """Writes the files of changed resources of all folders, and returns their paths.

        At any moment each file has its old content or its new content. If a resource can't be saved, a NotSaved is raised and
        nothing is written. The same happens, unless `force` is set, if others have changed a file or if something of it was
        left out when it was read. In a shard a ValueError is raised, since files of other shards refer to its objects by their
        positions.
        """
        if self._session.is_shard:
            raise ValueError('the files of a shard are not written: open the folder for it (docs/SHARDS.md)')
        return save_all(self._session.folders, force)

    def at(self, address: str) -> Optional[EObject]:
        """The object at an address: the URI of a resource, `#` and a fragment. Returns None if nothing is there."""
        return self._session.optional(f'at {text_word(address)}')

    def resolve_all(self) -> Resolved:
        """Resolves each proxy that leads to an object which its reference can take."""
        return Resolved(*self._session.counts('resolveall', 'resolved', 'left'))

    def attach(self, hearer: Hearer, node: Union[EObject, Resource], deep: bool = True) -> View:
        """Attaches a callable to a node. It is called with each notification of the node, and if `deep` is set also with each
        notification of a node below it. The calls begin with the next command, and are made when a command is done.

        A callable may give commands. Notifications of a command that it gives come after the notifications that are already
        waiting. If a callable raises an error, a CallableFailed is raised after all notifications have been delivered.
        """
        if not callable(hearer):
            raise TypeError(f'{hearer!r} is not callable')
        self._session.check_node(node)
        return self._session.attach(node, hearer, depth(deep))

    def close(self) -> None:
        """Ends the engine. No view is notified. Later calls raise a RepositoryClosed, except a further `close`, which does
        nothing. Raises a ProgramEnded if the program ends with a status other than 0.
        """
        self._session.close()

    def __reduce_ex__(self, protocol: Any) -> Any:
        """Raises a TypeError: a repository belongs to one process."""
        raise TypeError('a repository stays in its process: `save` of each resource gives a text to keep')

    def __enter__(self) -> Repository:
        return self

    def __exit__(
        self, kind: Optional[Type[BaseException]], error: Optional[BaseException], trace: Optional[TracebackType]
    ) -> None:
        """Closes the repository. After an error the engine is ended at once, and that error is the one that is raised."""
        if kind is None:
            self.close()
        else:
            self._session.end('the repository is closed')
