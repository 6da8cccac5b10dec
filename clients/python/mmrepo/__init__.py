"""A client of `mmrepo`, a reflective model repository. docs/PYTHON.md has a whole example.

    with Repository("library.json") as repo:
        book = repo.create("Book")
        book.name = "Emma"
"""

from .batches import Batch
from .errors import (
    BadLine,
    CallableFailed,
    IndexRefused,
    JournalRefused,
    MetamodelRefused,
    MmrepoError,
    NotLoaded,
    NotOpened,
    NotOwner,
    NotSaved,
    NotStarted,
    ProgramEnded,
    ProgramError,
    Refused,
    ReplyCut,
    ReplyNotUnderstood,
    RepositoryClosed,
)
from .findings import Finding
from .folders import Folder
from .lists import FeatureList
from .metamodel import EAttribute, EClass, EClassifier, EDataType, EEnum, EReference, EStructuralFeature, Metamodel
from .notices import Kind, Notice, View
from .objects import EObject
from .repository import Repository, Resolved
from .resources import Resource
from .snapshots import Snapshot
from .values import Literal, Proxy, Value
from .xmi import ToolFailed

__all__ = [
    'BadLine', 'Batch', 'CallableFailed', 'EAttribute', 'EClass', 'EClassifier', 'EDataType', 'EEnum', 'EObject', 'EReference',
    'EStructuralFeature', 'FeatureList', 'Finding', 'Folder', 'IndexRefused', 'JournalRefused', 'Kind', 'Literal', 'Metamodel', 'MetamodelRefused',
    'MmrepoError', 'NotLoaded', 'NotOpened', 'NotOwner', 'NotSaved', 'NotStarted', 'Notice', 'ProgramEnded', 'ProgramError', 'Proxy', 'Refused', 'ReplyCut',
    'ReplyNotUnderstood', 'Repository', 'RepositoryClosed', 'Resolved', 'Resource', 'Snapshot', 'ToolFailed', 'Value', 'View',
]
