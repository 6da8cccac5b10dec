"""Resources of a repository."""

from __future__ import annotations

from pathlib import Path
from typing import TYPE_CHECKING, List, Optional

from .lists import FeatureList
from .objects import EObject, Node
from .values import Value

if TYPE_CHECKING:
    from .session import Session


class Resource(Node):
    """A resource: objects that are its roots, and all objects below them. `uri` is its URI as the repository has it:
    `HTTP://M.example` becomes `http://m.example/`. `path` is its file if it belongs to a folder that was opened, else None.
    """

    __slots__ = ('uri', 'path')
    uri: str
    path: Optional[Path]

    def __init__(self, session: Session, word: str, uri: str) -> None:
        """`resource` of a repository makes resources."""
        super().__init__(session, word)
        self.uri = uri
        self.path = None

    @property
    def contents(self) -> FeatureList:
        """Its roots: a list that can be changed."""
        return FeatureList(self, 'contents', None)

    @contents.setter
    def contents(self, value: FeatureList) -> None:
        """Accepts only the list itself, so that `resource.contents += [..]` works."""
        if not (isinstance(value, FeatureList) and value.is_of(self, 'contents')):
            raise AttributeError('contents is changed by the methods of its list')

    @property
    def eContents(self) -> List[EObject]:
        """The roots, at this moment."""
        return self._session.values(f'contents {self._word}')

    def append(self, root: Value) -> bool:
        """Puts an object after the other roots. The object leaves the container, or the resource, that it was in."""
        return self.contents.append(root)

    def remove(self, root: Value) -> None:
        """Takes an object out of the roots. Raises a ValueError if it is not one of them."""
        self.contents.remove(root)

    def load(self, text: str) -> int:
        """Makes the objects of a document (docs/DOCUMENTS.md), all or none, and returns how many were made.

        Refused if the resource has roots (NOT_EMPTY), and if the document can't be read (DOCUMENT, with a cause). In this
        process a document may have any length. A line for a program has at most 16,777,216 bytes; a longer one raises a
        ValueError.
        """
        return self._session.load(self._word, text)

    def save(self) -> str:
        """The document of the resource, in one line. Refused as `save` of docs/SCRIPT.md is, as DANGLING."""
        return self._session.document(f'save {self._word}')

    def __repr__(self) -> str:
        return f'<Resource {self._word}>'
