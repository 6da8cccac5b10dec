"""Loads files of a folder into resources of a repository, and says what could not be loaded."""

from __future__ import annotations

import json
import os
from pathlib import Path
from typing import TYPE_CHECKING, Any, Dict, List, NamedTuple, Optional, Sequence, Tuple, Union

from .directory import Directory, digest_of, reason
from .errors import Refused
from .findings import Finding, explained
from .process import LONGEST_LINE
from .proxies import LIMIT
from .resources import Resource
from .uris import uri_of
from .xmi import ToolFailed, Xmi

if TYPE_CHECKING:
    from .repository import Repository

DOCUMENTS, XMI_FILES = ('.json',), ('.xmi',)  # the suffixes of files
COMMAND = len('load r99999 ')  # bytes of a line before a document
EXISTS, LIMIT_NUMBER, DOCUMENT = 16, 14, 18  # the numbers of three refusals
TOO_LONG = f'it has %s bytes; a document that is loaded has at most {LONGEST_LINE - COMMAND} (docs/FOLDERS.md)'


class Loaded(NamedTuple):
    """A loaded file: its resource, how many objects were made, its document, and the hash of its content."""

    name: str
    resource: Resource
    count: int
    document: str
    digest: bytes
    is_whole: bool  # whether nothing of an XMI file was left out


class Loader:
    """Loads files of a folder. `findings` say why a file can't be loaded; `unread` has its name and the kind of the finding."""

    def __init__(self, repo: Repository, directory: Directory, base: str, xmi: Optional[Xmi], suffixes: Sequence[str]) -> None:
        """`suffixes` are those of XMI files, which are read if there are tools for them."""
        self.repo, self.directory, self.base = repo, directory, base
        self._xmi, self._suffixes = xmi, tuple(suffixes)
        self.findings: List[Finding] = []
        self.unread: Dict[str, str] = {}
        self.names: Dict[str, Resource] = {}

    def is_xmi(self, name: str) -> bool:
        """Whether a file is read by the tools."""
        return self._xmi is not None and name.endswith(self._suffixes)

    def is_document(self, name: str) -> bool:
        """Whether a file of this name may be loaded."""
        return name.endswith(DOCUMENTS) or self.is_xmi(name)

    def load(self, name: str) -> Optional[Loaded]:
        """Makes the resource of a file, and loads it. Returns None if the file can't be loaded."""
        try:
            return self._load(name)
        except _NotLoaded as found:
            self.unread[name] = found.findings[0].kind
            self.findings += found.findings
            return None

    def _load(self, name: str) -> Loaded:
        try:
            content = self.directory.read(name)
        except OSError as error:
            raise _NotLoaded(Finding(name, 'FILE', '', reason(error))) from None
        document, notes = self._converted(name, content) if self.is_xmi(name) else (content, [])
        if len(document) > LONGEST_LINE - COMMAND and self.repo._session.engine.load is None:
            raise _NotLoaded(Finding(name, 'LONG', '', TOO_LONG % len(document)))
        try:
            text = document.decode('utf-8')
        except UnicodeDecodeError as error:
            says = f'from byte {error.start + 1} on the document is no JSON: it is not UTF-8'
            raise _NotLoaded(Finding(name, 'SYNTAX', '', says)) from None
        resource = self._resource(name)
        resource.path = Path(self.directory.full(name))
        try:
            count = resource.load(text)
        except Refused as refused:
            resource.path = None
            raise _NotLoaded(*_reasons(name, refused)) from None
        self.findings += notes
        self.names[name] = resource
        return Loaded(name, resource, count, text, digest_of(content), not notes)

    def _converted(self, name: str, content: bytes) -> Tuple[bytes, List[Finding]]:
        """The document of an XMI file, and what was left out of it."""
        assert self._xmi is not None
        try:
            made = self._xmi.read(name, content)
        except (ToolFailed, OSError) as error:
            raise _NotLoaded(Finding(name, 'TOOL', '', str(error))) from None
        return made.document, [Finding(name, 'LEFT_OUT', '', note) for note in made.notes]

    def _resource(self, name: str) -> Resource:
        """A new resource for a file."""
        try:
            return self.repo.resource(uri_of(self.base, name))
        except Refused as refused:
            taken = 'the repository has a resource of its URI; give a different base'
            text = taken if refused.number == EXISTS else f'no resource is made for it: {refused.name}'
            raise _NotLoaded(Finding(name, refused.name, '', text)) from None


class _NotLoaded(Exception):
    """A file can't be loaded: its findings."""

    def __init__(self, *findings: Finding) -> None:
        super().__init__(*findings)
        self.findings = findings


def _reasons(name: str, refused: Refused) -> List[Finding]:
    """Why the document of a file was refused."""
    if refused.number == DOCUMENT and refused.cause is not None:
        cause = refused.cause[1]
        return [explained(name, cause, line) for line in refused.explained or (f'it is refused: {cause}',)]
    if refused.number == LIMIT_NUMBER:
        return [Finding(name, LIMIT, '', 'there is no room for its objects: a repository makes at most 1,000,000')]
    return [Finding(name, refused.name, '', f'it is refused: {refused.name}')]


def several(given: Union[str, os.PathLike, Sequence[Any]]) -> Tuple[str, ...]:
    """A tuple of paths or texts, made from one of them or from several."""
    return tuple(os.fspath(it) for it in ([given] if isinstance(given, (str, os.PathLike)) else given))


def parsed(document: str) -> Dict[str, List[dict]]:
    """The JSON of a document that the program has loaded."""
    return json.loads(document)


def first_number(resource: Resource) -> int:
    """The number of the first object of a resource that was loaded and has roots. The other objects have the next numbers."""
    return int(resource.eContents[0]._word[1:])
