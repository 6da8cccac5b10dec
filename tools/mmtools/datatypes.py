"""The data types of Ecore that the repository has, the literals of defaults, and the values that XMI writes."""

from __future__ import annotations

import re
from typing import Optional, Union

from .metamodel import LONGEST_TEXT, MEnum

Value = Union[str, int, bool, None]

# Data types of Ecore, what each becomes, and what is lost on the way.
BUILT_IN = {
    'EString': ('EString', ''),
    'EInt': ('EInt', ''),
    'ELong': ('ELong', ''),
    'EBoolean': ('EBoolean', ''),
    'EIntegerObject': ('EInt', 'null is unset'),
    'ELongObject': ('ELong', 'null is unset'),
    'EBooleanObject': ('EBoolean', 'null is unset'),
    'EShort': ('EInt', 'its range is wider'),
    'EByte': ('EInt', 'its range is wider'),
    'EShortObject': ('EInt', 'its range is wider, and null is unset'),
    'EByteObject': ('EInt', 'its range is wider, and null is unset'),
}
OBJECTS = frozenset(f'ecore:{name}' for name, (_, loss) in BUILT_IN.items() if loss.endswith('null is unset'))
RANGES = {'EInt': 1 << 31, 'ELong': 1 << 63}
NUMBER = re.compile(r'([+-]?)0*([0-9]{1,19})', re.ASCII)
SURE_DIGITS = 10  # from so many digits on a number may be out of range
SPACES = ' \t\r\n'


def is_short(text: str) -> bool:
    """Whether a text is within the limit of a document."""
    return len(text.encode('utf-8', 'surrogatepass')) <= LONGEST_TEXT


def number(data_type: str, text: str) -> Optional[int]:
    """The number of a text, in the range of EInt or ELong."""
    if len(text) < SURE_DIGITS and text.isdecimal() and text.isascii():
        return int(text)
    found = NUMBER.fullmatch(text.strip(SPACES))
    if not found:
        return None
    value = int(found.group(1) + found.group(2))
    return value if -RANGES[data_type] <= value < RANGES[data_type] else None


def boolean(text: str) -> Optional[bool]:
    """The truth value of a text: true and false in upper or lower case, or 1 and 0."""
    return {'true': True, '1': True, 'false': False, '0': False}.get(text.strip(SPACES).lower())


def value_of(data_type: Union[str, MEnum], text: str) -> Value:
    """The value of a text of XMI in a data type; None if it is no value, or if the text is too long."""
    if isinstance(data_type, MEnum):
        return data_type.literal(text.strip(SPACES))
    if data_type in RANGES:
        return number(data_type, text)
    if data_type == 'EBoolean':
        return boolean(text)
    return text if is_short(text) else None


def text_of(data_type: Union[str, MEnum], value: Value) -> str:
    """The text of a value in XMI."""
    if isinstance(value, bool):
        return 'true' if value else 'false'
    if isinstance(data_type, MEnum):
        return data_type.texts.get(str(value), str(value))
    return str(value)


def literal_of(data_type: Union[str, MEnum], text: str) -> Optional[str]:
    """The literal of a default in its normal spelling; None if the text is no value."""
    value = value_of(data_type, text)
    if value is None:
        return None
    return ('true' if value else 'false') if isinstance(value, bool) else str(value)


def default_of(data_type: Union[str, MEnum], literal: Optional[str]) -> Value:
    """The value of an attribute that was never set."""
    if isinstance(data_type, MEnum):
        return literal if literal is not None else data_type.literals[0]
    if data_type in RANGES:
        return int(literal or '0')
    if data_type == 'EBoolean':
        return literal == 'true'
    return literal


def is_value(data_type: Union[str, MEnum], value: object) -> bool:
    """Whether a value of a document belongs to a data type; null is not checked."""
    if isinstance(data_type, MEnum):
        return isinstance(value, str) and value in data_type.literals
    if data_type in RANGES:
        bound = RANGES[data_type]
        return isinstance(value, int) and not isinstance(value, bool) and -bound <= value < bound
    if data_type == 'EBoolean':
        return isinstance(value, bool)
    return isinstance(value, str) and is_short(value)
