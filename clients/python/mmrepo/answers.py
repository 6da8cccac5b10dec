"""Reads answers. Each function reads the answers of one kind, and raises a ValueError for an answer of another kind."""

from __future__ import annotations

import re
from typing import Any, Dict, List, Optional, Sequence, Type, TypeVar

from .values import name_word

T = TypeVar('T')
FLAGS = {'true': True, 'false': False}
OUTCOMES: Dict[str, Optional[bool]] = {'ok': None, **FLAGS}


def read_ok(answer: str) -> None:
    """Reads `ok`, which has no value."""
    if answer != 'ok':
        raise ValueError('not ok')


def read_flag(answer: str) -> bool:
    """Reads `true` or `false`."""
    if answer not in FLAGS:
        raise ValueError('no flag')
    return FLAGS[answer]


def read_counts(words: Sequence[str], answer: str) -> List[int]:
    """Reads the number after each of some words, for instance 3 of `deleted 3`."""
    found = re.fullmatch(' '.join(f'{word} ([0-9]+)' for word in words), answer)
    if found is None:
        raise ValueError('no counts')
    return [int(number) for number in found.groups()]


def read_names(answer: str) -> List[str]:
    """Reads names in brackets."""
    if answer[:1] != '[' or answer[-1:] != ']':
        raise ValueError('no names')
    return [name_word(name) for name in answer[1:-1].split(' ')] if answer != '[]' else []


def read_document(answer: str) -> str:
    """Reads a document."""
    if answer[:1] != '{':
        raise ValueError('no document')
    return answer


def checked(found: Any, kind: Type[T]) -> T:
    """The value that was found. Raises a ValueError if it is of another type."""
    if not isinstance(found, kind):
        raise ValueError('of another kind')
    return found
