"""Folders: the files below a directory are resources of a repository, and are saved to their files again."""

from __future__ import annotations

import json
from contextlib import suppress
from pathlib import Path
from typing import TYPE_CHECKING, Any, Dict, List, NamedTuple, Optional, Sequence, Tuple

from .directory import Directory, Replacement, State, checked_name, digest_of, reason
from .errors import NotLoaded, NotSaved, Refused
from .findings import Finding
from .loading import DOCUMENTS, Loaded, Loader, first_number, parsed
from .proxies import Judge, proxies_of
from .resources import Resource
from .uris import checked_base, shortened, uri_of
from .values import text_word
from .walking import Shapes, links_of, place_text
from .xmi import ToolFailed, Xmi

if TYPE_CHECKING:
    from .repository import Repository

CHANGED = 'it was changed by others since it was read; save_all(force=True) overwrites it'
LEFT_OUT = 'something of the file was left out when it was read; save_all(force=True) writes it without that'


class Kept:
    """A resource and its file: the document of the file, and the content that the file had when it was read or written."""

    def __init__(self, name: str, resource: Resource, is_whole: bool) -> None:
        self.name, self.resource, self.is_whole = name, resource, is_whole
        self.saved: Optional[bytes] = None  # of the document; None if there is no file yet
        self.content: Optional[bytes] = None


class Ready(NamedTuple):
    """A file that is to be written: its new content, and the state that it must still have."""

    folder: Folder
    kept: Kept
    saved: bytes
    content: bytes
    before: Optional[State]


class Folder:
    """The files below a directory as `open` of a repository has loaded them.

    `resources` has the resource of each file that could be loaded, in the order of the names, and each resource that was made
    since. `findings` say what could not be loaded or resolved, and what was left out of an XMI file.
    """

    def __init__(
        self, repo: Repository, path: Any, base: str, ecore: Sequence[str], suffixes: Sequence[str], metamodel: str
    ) -> None:
        """Loads the files, and resolves all proxies. The file of the metamodel is not loaded."""
        self.base = checked_base(base)
        self.directory = Directory(path)
        self._repo, self._suffixes = repo, tuple(suffixes) if ecore else ()
        names, refused = self.directory.names([*DOCUMENTS, *self._suffixes])
        xmi = Xmi(self.directory, ecore, [it for it in names if it.endswith(self._suffixes)]) if ecore else None
        self._xmi = xmi
        self._loader = Loader(repo, self.directory, base, xmi, suffixes)
        self._kept: Dict[str, Kept] = {}
        meta = self.directory.name_of(metamodel)
        loaded = [self._loader.load(it) for it in names if it != meta]
        left = repo.resolve_all().left
        unresolved = [finding for it in loaded if it is not None for finding in self._keep(it, left > 0)]
        links = [Finding(name, 'FILE', '', why) for name, why in refused]
        self.findings: List[Finding] = sorted(links + self._loader.findings + unresolved, key=lambda it: it.file)

    @property
    def path(self) -> Path:
        """The directory."""
        return Path(self.directory.path)

    @property
    def resources(self) -> List[Resource]:
        """The resources of the files."""
        return [it.resource for it in self._kept.values()]

    def resource(self, name: str) -> Resource:
        """Makes an empty resource for a new file, as `sub/town.json`. `save_all` makes the file and its folders.

        Raises a ValueError if the name leads out of the folder, or has a different suffix, and a NotLoaded if it is the name of
        a file that could not be loaded. Refused (RESOURCE_EXISTS) if there is a resource of its URI.
        """
        if not self._loader.is_document(checked_name(name)):
            raise ValueError(f'{name!r} has to end with one of {", ".join(DOCUMENTS + self._suffixes)}')
        if name in self._loader.unread:
            raise NotLoaded([it for it in self._loader.findings if it.file == name], name)
        made = self._repo.resource(uri_of(self.base, name))
        self._take(Kept(name, made, True))
        return made

    def _take(self, kept: Kept) -> None:
        self._kept[kept.name] = kept
        kept.resource.path = Path(self.directory.full(kept.name))

    def _keep(self, loaded: Loaded, has_proxies: bool) -> List[Finding]:
        """Remembers the content of a file, and returns the findings of its proxies."""
        kept = Kept(loaded.name, loaded.resource, loaded.is_whole)
        document = loaded.resource.save()
        kept.saved, kept.content = digest_of(document.encode('utf-8')), loaded.digest
        self._take(kept)
        return self._unresolved(loaded, document) if has_proxies and loaded.count else []

    def _unresolved(self, loaded: Loaded, document: str) -> List[Finding]:
        """The findings of the proxies that are left in a resource."""
        session, uri = self._repo._session, loaded.resource.uri
        shapes = Shapes(session.metamodel)
        links = [link for met in shapes.walk(parsed(document)) for link in links_of(met)]
        found = proxies_of(session, first_number(loaded.resource), links)
        return [it for _, it in Judge(session, self.base, loaded.name, uri, self._loader.unread).findings(found)]

    # Saving

    def changed(self) -> List[Resource]:
        """The resources whose documents differ from their files. A resource that can't be saved is one of them."""
        return [it.resource for it in self._kept.values() if self._document_of(it)[0] != it.saved]

    def _document_of(self, kept: Kept) -> Tuple[Optional[bytes], str]:
        """The hash of the document of a resource, and the document; None and the refusal if it can't be saved."""
        try:
            document = kept.resource.save()
        except Refused as refused:
            return None, refused.name
        return digest_of(document.encode('utf-8')), document

    def prepared(self, force: bool) -> Tuple[List[Ready], List[Finding]]:
        """The files to write, and a finding for each changed file that must not be written."""
        ready: List[Ready] = []
        findings: List[Finding] = []
        for kept in self._kept.values():
            saved, document = self._document_of(kept)
            if saved is None:
                findings.append(Finding(kept.name, document, '', f'its resource is not saved: {document}'))
            elif saved != kept.saved:
                try:
                    before = self._state(kept, force)
                    ready.append(Ready(self, kept, saved, self._content(kept, document), before))
                except _InTheWay as found:
                    findings.append(Finding(kept.name, *found.args))
        return ready, findings

    def _state(self, kept: Kept, force: bool) -> Optional[State]:
        """The state of a file that may be overwritten."""
        try:
            state = self.directory.state(kept.name)
        except OSError as error:
            raise _InTheWay('FILE', '', reason(error)) from None
        if not force and (state.digest if state else None) != kept.content:
            raise _InTheWay('CHANGED', '', CHANGED)
        if not force and not kept.is_whole:
            raise _InTheWay('LEFT_OUT', '', LEFT_OUT)
        return state

    def _content(self, kept: Kept, document: str) -> bytes:
        """The content of a file for a document, in which references to other files of the folder are relative."""
        if '#' in document:
            document = self._with_relative(kept.resource.uri, document)
        if not self._loader.is_xmi(kept.name):
            return document.encode('utf-8') + b'\n'
        assert self._xmi is not None
        try:
            return self._xmi.write(document.encode('utf-8'))
        except (ToolFailed, OSError) as error:
            raise _InTheWay('TOOL', '', str(error)) from None

    def _with_relative(self, uri: str, document: str) -> str:
        """A document with relative references, written as the program writes it."""
        read = parsed(document)
        for met in Shapes(self._repo.metamodel).walk(read):
            for feature in met.shape.links:
                value = met.features.get(feature.name)
                if value and feature.many:
                    _check_differ(value, place_text((met.place, feature.name, None)))
                    value[:] = [shortened(self.base, uri, text) if '#' in text else text for text in value]
                elif value and '#' in value:
                    met.features[feature.name] = shortened(self.base, uri, value)
        return json.dumps(read, ensure_ascii=False, sort_keys=True, separators=(',', ':'))


class _InTheWay(Exception):
    """The reason why a file is not written: the kind, place and text of a finding."""


def _check_differ(texts: Sequence[str], place: str) -> None:
    """Refuses a list that has an object and also a proxy with its address: a document with one text twice could not be read."""
    if len(set(texts)) < len(texts):
        text = next(it for it in texts if texts.count(it) > 1)
        raise _InTheWay('DUPLICATE', place, f'{text_word(text)} is in the list twice, as an object and as a proxy that was left; take one out')


def save_all(folders: Sequence[Folder], force: bool) -> List[Path]:
    """Writes the files of the resources that have changed: all of them, or none if one can't be written."""
    ready: List[Ready] = []
    findings: List[Finding] = []
    for folder in folders:
        files, wrong = folder.prepared(force)
        ready += files
        findings += wrong
    if findings:
        raise NotSaved(findings)
    made: List[Replacement] = []
    try:
        for it in ready:
            made.append(it.folder.directory.replacement(it.kept.name, it.content, it.before.mode if it.before else None))
        late = [it for it in ready if not it.folder.directory.is_as(it.kept.name, it.before)]
        if late:
            raise NotSaved([Finding(it.kept.name, 'CHANGED', '', CHANGED) for it in late])
        for it, replacement in zip(ready, made):
            replacement.put()
            it.kept.saved, it.kept.content, it.kept.is_whole = it.saved, digest_of(it.content), True
        for folder in folders:
            folder.directory.sync(it.kept.name for it in ready if it.folder is folder)
    finally:
        for replacement in made:
            with suppress(OSError):  # a file that is left beside another one does no harm
                replacement.drop()
    return [Path(it.folder.directory.full(it.kept.name)) for it in ready]
