"""Values: how they are written as words of a script, and how they are read from answers."""

from __future__ import annotations

import re
from dataclasses import dataclass
from json.decoder import scanstring  # type: ignore[attr-defined]
from json.encoder import encode_basestring  # type: ignore[attr-defined]
from typing import TYPE_CHECKING, Any, Callable, Dict, List, Tuple, Union

if TYPE_CHECKING:
    from .objects import EObject

LONGEST_NUMBER = 4_294_967_295  # the greatest index that a word can name
LEAST_INTEGER, GREATEST_INTEGER = -(2**63), 2**63 - 1

_NAME = re.compile(r'[A-Za-z_][A-Za-z0-9_]*')
_WORD = re.compile(r'[^ "\]]+')
_INTEGER = re.compile(r'0|-?[1-9][0-9]*')
_CONSTANTS: Dict[str, Any] = {'null': None, 'true': True, 'false': False}
_encode: Callable[[str], str] = encode_basestring


class Literal(str):
    """A literal of an enumeration: a text that is its name."""

    __slots__ = ()

    def __repr__(self) -> str:
        return f'Literal({str(self)!r})'


@dataclass(frozen=True)
class Proxy:
    """The address of an object of another resource, in place of the object."""

    address: str

    @property
    def uri(self) -> str:
        """The URI of the resource: the text before the first `#`."""
        return self.address.partition('#')[0]

    @property
    def fragment(self) -> str:
        """The fragment of the object: the text after the first `#`."""
        return self.address.partition('#')[2]


Value = Union[None, bool, int, str, Literal, Proxy, 'EObject']
Named = Callable[[str], Any]  # what a word such as `#3`, `r0` or `A9` names


def is_number(text: str) -> bool:
    """Whether a text is a number as a word writes it: ASCII digits, with no 0 in front of others."""
    return text.isdigit() and text.isascii() and (text[0] != '0' or text == '0')


def is_name(text: str) -> bool:
    """Whether a text is a name: an ASCII letter or `_`, and then letters, digits and `_`."""
    return _NAME.fullmatch(text) is not None


def name_word(name: Any) -> str:
    """The word of a class or a feature. Raises a TypeError if it is no text, and a ValueError if it is no name."""
    if not isinstance(name, str):
        raise TypeError(f'{name!r} is no text')
    if not is_name(name):
        raise ValueError(f'{name!r} is no name')
    return name


def index_word(index: int) -> str:
    """The word of an index of a list, counted from 0. Raises an IndexError for an index that no list has."""
    if not 0 <= index <= LONGEST_NUMBER:
        raise IndexError(f'there is no index {index}')
    return str(index)


def text_word(text: Any) -> str:
    """The word of a text. Raises a TypeError for anything else."""
    if not isinstance(text, str):
        raise TypeError(f'{text!r} is no text')
    return _encode(text)


def data_word(value: Any, is_enumeration: bool) -> str:
    """The word of a value that is no object. A text is a literal if the type of the feature is an enumeration. Raises a
    ValueError for a whole number beyond 64 bits, and a TypeError for a proxy and for anything that is no value.
    """
    if value is None:
        return 'null'
    if value is True or value is False:
        return 'true' if value else 'false'
    if isinstance(value, str):
        is_literal = is_enumeration or isinstance(value, Literal)
        return f':{str(value)}' if is_literal and is_name(value) else _encode(value)
    if isinstance(value, int):
        if not LEAST_INTEGER <= value <= GREATEST_INTEGER:
            raise ValueError('a whole number has at most 64 bits')
        return str(int(value))
    if isinstance(value, Proxy):
        raise TypeError('a proxy comes from a document alone, and no command takes it')
    raise TypeError(f'{value!r} is no value of a feature')


def value_at(text: str, at: int, named: Named) -> Tuple[Any, int]:
    """The value that begins at an offset of an answer, and the offset after it. Raises a ValueError if there is none."""
    if text.startswith('"', at):
        return scanstring(text, at + 1)
    found = _WORD.match(text, at)
    if found is None:
        raise ValueError('no value')
    word, end = found.group(), found.end()
    if word in _CONSTANTS:
        return _CONSTANTS[word], end
    if word[0] in '#rA':
        return named(word), end
    if word[0] == ':':
        return Literal(name_word(word[1:])), end
    if word == 'proxy' and text.startswith(' "', end):
        address, end = scanstring(text, end + 2)
        return Proxy(address), end
    if _INTEGER.fullmatch(word) is None:
        raise ValueError(f'{word} is no value')
    return int(word), end


def value_of(text: str, named: Named) -> Any:
    """The one value of an answer."""
    if text.isdigit() and text.isascii() and (text[0] != '0' or text == '0'):
        return int(text)
    if text[:1] == '#':
        return named(text)
    if text == 'null':
        return None
    value, end = value_at(text, 0, named)
    if end != len(text):
        raise ValueError('more than a value')
    return value


def values_of(text: str, named: Named) -> List[Any]:
    """The values of an answer, as `[1 2]`."""
    values: List[Any] = []
    if text == '[]':
        return values
    if text[:2] == '[#' and text[-1:] == ']':  # all are objects, since a text or a proxy among them would have a quotation mark
        words = text[1:-1].split(' ')
        if '"' not in text and all(word[:1] == '#' for word in words):
            return [named(word) for word in words]
    at = 0
    while text.startswith(' ' if values else '[', at):
        value, at = value_at(text, at + 1, named)
        values.append(value)
    if at != len(text) - 1 or text[at] != ']':
        raise ValueError('no list')
    return values
