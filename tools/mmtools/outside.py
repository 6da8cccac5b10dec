"""The targets of references into other files: the URIs of resources, and the names in fragments, converted in both directions."""

from __future__ import annotations

import os
from typing import Dict, List, NamedTuple, Optional, Set, Tuple

from .bending import Bent
from .metamodel import MClass
from .package_paths import PackagePaths
from .notes import Notes
from .objects import Obj, Plans
from .steps import renamed
from .uris import joined, path_of, real_path
from .xmi_reader import XmiReader

BY_NAME = 'its fragment goes by id or name, and its file is not given with --beside'


class Link(NamedTuple):
    """A reference out of a file: its text, the class of its target if it is known, and whether it goes by position into a package."""

    text: str
    of: Optional[MClass]
    is_by_position: bool


class Outside:
    """The other files of one run, which are read."""

    def __init__(self, uri: Optional[str], file: str, bent: Bent, beside: List[XmiReader]) -> None:
        """`uri` is that of the resource in `file`, `beside` are the readers of the other files."""
        self.uri, self.file, self.beside = uri, file, beside
        self.uris: Dict[str, Optional[str]] = {}
        self.packages = PackagePaths(bent)
        self.readers: Dict[str, Optional[XmiReader]] = {}
        self.names: Dict[str, Set[str]] = {}
        self.keys: Dict[str, Set[str]] = {}
        for of in bent.meta.classes:
            for feature in of.features:
                if feature.containment and feature.source is not None:
                    self.names.setdefault(feature.source.name, set()).add(feature.name)
                    self.keys.setdefault(feature.name, set()).add(feature.source.name)

    def joined(self, uri: str) -> Optional[str]:
        """A URI joined with that of the resource; None if the result is no URI of http or https."""
        if uri not in self.uris:
            self.uris[uri] = joined(self.uri, uri)
        return self.uris[uri]

    def is_own(self, uri: str) -> bool:
        """Whether a URI is that of the file itself."""
        return self.uri is not None and self.joined(uri) == self.joined(self.uri) or uri == os.path.basename(self.file)

    def reader(self, uri: str) -> Optional[XmiReader]:
        """The file that a URI leads to: by path, by the URI of its root package, or by last segment."""
        if uri not in self.readers:
            self.readers[uri] = self.find(uri)
        return self.readers[uri]

    def find(self, uri: str) -> Optional[XmiReader]:
        """Looks for the file of a URI."""
        path = real_path(os.path.dirname(self.file), path_of(uri))
        tests = (
            lambda it: os.path.realpath(it.file) == path,
            lambda it: any(root.values.get('nsURI') == uri for root in it.graph.roots),
            lambda it: os.path.basename(it.file) == uri.rpartition('/')[2],
        )
        return next((reader for test in tests for reader in self.beside if test(reader)), None)

    def bent(self, file: str, uri: str, fragment: str) -> Tuple[str, str]:
        """A fragment of another file as a document writes it, or the reason why there is none."""
        other = self.reader(uri)
        if other is None:
            return self.packages.by_positions(file, uri, fragment) or renamed(fragment, self.names), BY_NAME
        target = other.addresses.at(fragment)
        if isinstance(target, Obj):
            return other.graph.fragment(target), ''
        return fragment, f'in {other.file} it leads to nothing, {target}'

    def written(self, text: str) -> 'Link':
        """The text of a proxy as XMI writes it: relative to the resource, with the names of Ecore."""
        uri, _, fragment = text.partition('#')
        other = self.reader(self.relative(uri)) or self.reader(uri)
        target = other.graph.follow(fragment, False) if other is not None else None
        made, of, is_by_position = renamed(fragment, self.keys), None, False
        named = self.packages.by_names(self.file, uri, fragment)
        if named is not None:
            made, of = named
        elif other is not None and target is not None:
            made, of = other.addresses.by_names(target) or other.addresses.written(target), target.of
        else:
            is_by_position = '/@eClassifiers.' in fragment
        return Link(f'{self.relative(uri)}#{made}', of, is_by_position)

    def relative(self, uri: str) -> str:
        """A URI relative to that of the resource, if it is in the same folder or below it."""
        whole = self.joined(self.uri) if self.uri is not None else None
        if whole is None:
            return uri
        folder = whole.rpartition('/')[0] + '/'
        rest = uri[len(folder):] if uri.startswith(folder) else ''
        return rest if rest[:1] not in ('', '/') and ':' not in rest.partition('/')[0] else uri


def read_beside(files: List[str], bent: Bent, plans: Plans) -> List[XmiReader]:
    """The readers of other files, which have their objects. What is left out there is not noted."""
    made = [XmiReader(file, bent, plans, Notes()) for file in files]
    for reader in made:
        reader.read()
    return made
