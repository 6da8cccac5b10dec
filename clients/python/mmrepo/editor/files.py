"""The files of the model: the resources, saving, new files, and XMI and documents that are brought in or taken out."""

from __future__ import annotations

import os
import tempfile
from pathlib import Path
from typing import Any, Dict, List, NamedTuple, Optional, Sequence, Tuple

from ..directory import Directory
from ..errors import MmrepoError, NotLoaded, NotSaved, Refused
from ..folders import Folder
from ..loading import DOCUMENTS
from ..repository import Repository
from ..resources import Resource
from ..uris import name_of
from ..xmi import Converted, ToolFailed, Xmi
from .edits import NotDone
from .words import PLAIN

BY_FORCE = {'CHANGED', 'LEFT_OUT'}  # the findings that saving by force overcomes
NO_ECORE = 'the model is not one of Ecore files: start the editor with --ecore FILE to read and write XMI'
NO_FOLDER = 'no folder is open: start the editor with a folder, as: python3 -m mmrepo edit META FOLDER'


class Given(NamedTuple):
    """What the editor was started with."""

    metamodel: str
    ecore: Tuple[str, ...]
    suffixes: Tuple[str, ...]


class Files:
    """The open folders, and their resources."""

    def __init__(self, repo: Repository, given: Given, folders: Sequence[Folder]) -> None:
        self._repo, self.given, self.folders = repo, given, list(folders)

    def listed(self) -> List[Dict[str, Any]]:
        """The resources for the page: each with its name, and the number of its folder."""
        return [{'resource': it._word, 'name': self.name(it), 'uri': it.uri, 'folder': self._folder_of(it)} for it in self._repo.resources]

    def name(self, resource: Resource) -> str:
        """The name of a resource: its file's name in the folder, else its URI."""
        number = self._folder_of(resource)
        return resource.uri if number is None else name_of(self.folders[number].base, resource.uri) or resource.uri

    def _folder_of(self, resource: Resource) -> Optional[int]:
        """The number of the folder of a resource."""
        if resource.path is None:
            return None
        return next((number for number, it in enumerate(self.folders) if resource.uri.startswith(it.base)), None)

    def findings(self) -> List[str]:
        """What could not be opened, a line each."""
        return [it.line for folder in self.folders for it in folder.findings]

    def save(self, force: bool) -> Dict[str, Any]:
        """Writes the files that have changed, or says why they can't be written."""
        if not self.folders:
            raise NotDone('NO_FOLDER', NO_FOLDER)
        try:
            return {'saved': [str(path) for path in self._repo.save_all(force)]}
        except NotSaved as found:
            kinds = {it.kind for it in found.findings}
            return {'saved': [], 'findings': [it.line for it in found.findings], 'force': not force and kinds <= BY_FORCE}
        except OSError as error:
            raise NotDone('FILE', f'FILE: {error}') from None

    def new(self, folder: int, name: str) -> Resource:
        """An empty resource for a new file of a folder."""
        if not 0 <= folder < len(self.folders):
            raise NotDone('NO_FOLDER', NO_FOLDER)
        try:
            if self.folders[folder].directory.has(name):
                raise NotDone('FILE', f'FILE: there is a file {name} already')
            return self.folders[folder].resource(name)
        except (ValueError, OSError, NotLoaded) as error:
            raise NotDone('FILE', f'FILE: {error}') from None
        except Refused as refused:
            raise NotDone(refused.name, f'{refused.name}: there is a resource of this name already') from None

    # What comes in

    def converted(self, name: str, content: bytes) -> Converted:
        """The document of an imported file: XMI is converted by the tool, a document is taken as it is. The document is loaded into a
        trial repository first, so that either all of it is imported or nothing."""
        is_document = name.endswith(DOCUMENTS)
        made = Converted(content, []) if is_document else self._by_tool(name, content)
        try:
            text = made.document.decode('utf-8')
            with Repository(self.given.metamodel) as trial:
                trial.resource('http://models.example/trial').load(text)
        except Refused as refused:
            raise NotDone(refused.name, '\n'.join([f'{refused.name}: {name} is refused', *refused.explained])) from None
        except ValueError as error:
            raise NotDone('DOCUMENT', f'DOCUMENT: {name}: {error}') from None
        return made

    def _by_tool(self, name: str, content: bytes) -> Converted:
        """The document of an XMI file."""
        if not self.given.ecore:
            raise NotDone('NO_ECORE', NO_ECORE)
        with tempfile.TemporaryDirectory() as room:
            file = f'{os.path.basename(name)[:100] or "model"}'
            try:
                Path(room, file).write_bytes(content)
                return Xmi(Directory(room), self.given.ecore, [file]).read(file, content)
            except (ToolFailed, OSError, ValueError) as error:
                raise NotDone('TOOL', f'TOOL: {error}') from None

    # What goes out

    def document(self, resource: Resource) -> str:
        """The document of a resource."""
        try:
            return resource.save()
        except Refused as refused:
            raise NotDone(refused.name, f'{refused.name}: {PLAIN.get(refused.name, "the resource is not written")}') from None

    def exported(self, resource: Resource, document: str, is_xmi: bool) -> Dict[str, Any]:
        """The text of a resource, and a name for its file."""
        stem = os.path.basename(self.name(resource)).rpartition('.')[0] or 'model'
        if not is_xmi:
            return {'name': f'{stem}.json', 'text': document + '\n'}
        if not self.given.ecore:
            raise NotDone('NO_ECORE', NO_ECORE)
        with tempfile.TemporaryDirectory() as room:
            try:
                made = Xmi(Directory(room), self.given.ecore, []).write(document.encode('utf-8'))
            except (MmrepoError, OSError) as error:
                raise NotDone('TOOL', f'TOOL: {error}') from None
        return {'name': stem + (self.given.suffixes or ('.xmi',))[0], 'text': made.decode('utf-8')}
