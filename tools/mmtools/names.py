"""Names that the repository takes: a name of Ecore is converted to one, and made different from the names that are taken."""

from __future__ import annotations

import re
from functools import lru_cache
from typing import Container
from xml.parsers import expat

from .metamodel import LONGEST_NAME

NAME = re.compile(r'[A-Za-z_][A-Za-z0-9_]*', re.ASCII)
OTHER = re.compile(r'[^A-Za-z0-9_]', re.ASCII)
RESERVED = ('EString', 'EInt', 'ELong', 'EBoolean', 'Resource')


def is_name(text: str) -> bool:
    """Whether a text is a name of at most 255 bytes."""
    return NAME.fullmatch(text) is not None and len(text) <= LONGEST_NAME


@lru_cache(maxsize=None)
def is_xml_name(text: str) -> bool:
    """Whether a text is a name of XML without a colon. `expat` says so: like Java's parser it goes by the fourth edition of XML 1.0."""
    found = []
    parser = expat.ParserCreate()
    parser.StartElementHandler = lambda name, _: found.append(name)
    try:
        parser.Parse(f'<{text}/>', True)
    except (expat.ExpatError, UnicodeError):
        return False
    return found == [text] and ':' not in text


def bent(text: str) -> str:
    """The name of a text: `_` for each character that no name has, `_` before a digit, and 255 characters at most."""
    made = OTHER.sub('_', text)
    if not made or made[0].isdigit():
        made = '_' + made
    return made[:LONGEST_NAME]


def numbered(name: str, taken: Container[str]) -> str:
    """The name, or the first of `name_2`, `name_3` and so on that is not taken."""
    made, number = name, 2
    while made in taken:
        end = f'_{number}'
        made, number = name[:LONGEST_NAME - len(end)] + end, number + 1
    return made
