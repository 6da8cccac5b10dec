"""Fragments of URIs, as XMI and the documents write them: `//@books.0`, `/1/@cover`, and names in Ecore, as `//Book/pages`."""

from __future__ import annotations

import re
from dataclasses import dataclass
from typing import List, Mapping, Optional, Set, Tuple
from urllib.parse import unquote

INDEX = re.compile(r'0|[1-9][0-9]{0,6}', re.ASCII)
STEP = re.compile(r'/@([A-Za-z_][A-Za-z0-9_]*)(?:\.(0|[1-9][0-9]{0,6}))?', re.ASCII)
FRAGMENT = re.compile(r'/(0|[1-9][0-9]{0,6})?(/@[A-Za-z_][A-Za-z0-9_]*(\.(0|[1-9][0-9]{0,6}))?)*', re.ASCII)


@dataclass(frozen=True)
class Step:
    """A step from an object to an object that it contains: by a feature, or by the value of an attribute, and by the position among
    the objects that these give.

    `keys` has the attributes of a step by keys, and the texts of their values, with None for null.
    """

    feature: Optional[str]
    attribute: str
    value: str
    index: int
    keys: Tuple[Tuple[str, List[Optional[str]]], ...] = ()


NAMED = re.compile(r'/@([^/\[\]]+?)(?=\.[0-9]+(?:/|$)|/|$)', re.ASCII)
VALUE = r"(?:null|'[^']*'|\"[^\"]*\")"
VALUES = rf'(?:{VALUE}|\[(?:{VALUE}(?:,{VALUE})*)?\])'
KEY = re.compile(rf'([^=,\[\]]+)=({VALUES})')
KEYED = re.compile(rf'@([^\[\]]+)\[([^=,\[\]]+={VALUES}(?:,[^=,\[\]]+={VALUES})*)\]')


def renamed(fragment: str, names: Mapping[str, Set[str]]) -> str:
    """A fragment by positions in which each name of a feature is replaced by its name in `names`, if there is exactly one."""
    return NAMED.sub(lambda it: f'/@{next(iter(names[it[1]]))}' if len(names.get(it[1], ())) == 1 else it[0], fragment)


def is_fragment(text: str) -> bool:
    """Whether a document takes a text as a fragment."""
    return FRAGMENT.fullmatch(text) is not None


def parse_steps(fragment: str) -> Optional[Tuple[int, List[Step]]]:
    """The position of the root and the steps of a fragment that begins with `/`."""
    root, *rest = fragment[1:].split('/')
    if root and not INDEX.fullmatch(root):
        return None
    steps = [parse_step(word) for word in rest]
    found = [step for step in steps if step is not None]
    return (int(root or '0'), found) if len(found) == len(steps) else None


def keyed_step(word: str) -> Step:
    """A step by keys, `@feature[key='value',keys=['a','b']]`. EMF writes the marks of a value by their numbers."""
    found = KEYED.fullmatch(word)
    assert found is not None
    keys = []
    for key, text in KEY.findall(found.group(2)):
        values = re.findall(VALUE, text)
        keys.append((unquote(key), [None if it == 'null' else unquote(it[1:-1]) for it in values]))
    return Step(unquote(found.group(1)), '', '', 0, tuple(keys))


def parse_step(word: str) -> Optional[Step]:
    """One step: `@feature.0`, and in Ecore `name.0` or, for an annotation, `%source%.0`."""
    if word.endswith(']') and KEYED.fullmatch(word):
        return keyed_step(word)
    text, dot, index = word.rpartition('.')
    if not dot or not INDEX.fullmatch(index):
        text, index = word, '0'
    if text.startswith('@') and len(text) > 1:
        return Step(unquote(text[1:]), '', '', int(index))
    if text.startswith('%') and text.endswith('%') and len(text) > 1:
        return Step(None, 'source', unquote(text[1:-1]), int(index))
    return Step(None, 'name', unquote(text), int(index)) if text and not text.startswith('@') else None
