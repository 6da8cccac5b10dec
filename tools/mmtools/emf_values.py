"""Which texts EMF reads as values of its data types, if those are narrower than EString."""

from __future__ import annotations

import re
from datetime import date
from typing import Callable, Dict, Optional

from .bend_features import built_in
from .ecore_model import EDataType
from .metamodel import MFeature

Check = Callable[[str], bool]
REAL = re.compile(
    r'[\0- ]*[+-]?(NaN|Infinity|([0-9]+\.?[0-9]*|\.[0-9]+)([eE][+-]?[0-9]+)?[fFdD]?'
    r'|0[xX]([0-9a-fA-F]+\.?|[0-9a-fA-F]*\.[0-9a-fA-F]+)[pP][+-]?[0-9]+[fFdD]?)[\0- ]*', re.ASCII
)
DATE = re.compile(r'([0-9]{4})-([0-9]{2})-([0-9]{2})(T[0-9]{2}:[0-9]{2}(:[0-9]{2}(\.[0-9]{3}([+-][0-9]{4})?)?)?)?', re.ASCII)


def whole(bound: int) -> Check:
    """The check whether a text is a number from -bound to bound - 1."""
    return lambda text: re.fullmatch(r'[+-]?[0-9]{1,20}', text, re.ASCII) is not None and -bound <= int(text) < bound


def like(pattern: str) -> Check:
    """The check whether a text matches a pattern."""
    compiled = re.compile(pattern, re.ASCII | re.DOTALL)
    return lambda text: compiled.fullmatch(text) is not None


def is_char(text: str) -> bool:
    """Whether EMF reads a text as an EChar: the number of a character, or one character that is no digit."""
    return text.isdecimal() and text.isascii() and int(text) < 1 << 16 or len(text) == 1 and not text.isdecimal() and text < '\U00010000'


def is_date(text: str) -> bool:
    """Whether a text is a date, or a date and a time."""
    found = DATE.fullmatch(text)
    try:
        return found is not None and bool(date(*map(int, found.groups()[:3])))
    except ValueError:
        return False


BYTE, SHORT, INT, LONG = (whole(1 << bits) for bits in (7, 15, 31, 63))
REALS: Check = lambda text: REAL.fullmatch(text) is not None
BOOLEAN = like('(?i:true|false)')
INTEGER = like(r'[+-]?[0-9]+')
DECIMAL = like(r'[+-]?([0-9]+\.?[0-9]*|\.[0-9]+)([eE][+-]?[0-9]+)?')
BYTES = like(r'[0-9a-fA-F]*')
CHECKS: Dict[str, Check] = {
    'EByte': BYTE, 'EShort': SHORT, 'EFloat': REALS, 'EDouble': REALS, 'EChar': is_char, 'EDate': is_date, 'EByteArray': BYTES,
    'EBigInteger': INTEGER, 'EBigDecimal': DECIMAL, 'EByteObject': BYTE, 'EShortObject': SHORT, 'EFloatObject': REALS,
    'EDoubleObject': REALS, 'ECharacterObject': is_char,
}
JAVA: Dict[str, Check] = {
    'byte': BYTE, 'short': SHORT, 'int': INT, 'long': LONG, 'float': REALS, 'double': REALS, 'boolean': BOOLEAN, 'char': is_char,
    'java.lang.Byte': BYTE, 'java.lang.Short': SHORT, 'java.lang.Integer': INT, 'java.lang.Long': LONG, 'java.lang.Float': REALS,
    'java.lang.Double': REALS, 'java.lang.Boolean': BOOLEAN, 'java.lang.Character': is_char, 'java.math.BigInteger': INTEGER,
    'java.math.BigDecimal': DECIMAL,
}


def check_of(feature: MFeature) -> Optional[Check]:
    """The test whether EMF reads a text as a value of an attribute; None if it reads each text that the attribute takes here."""
    source = feature.source
    if source is None or source.is_reference:
        return None
    name = built_in(source)
    if name.startswith('ecore:'):
        return CHECKS.get(name[6:])
    if isinstance(source.type, EDataType):
        return JAVA.get((source.type.element.plain('instanceClassName') or source.type.element.plain('instanceTypeName') or '').strip())
    return None


def type_name(feature: MFeature) -> str:
    """What Ecore calls the type of an attribute."""
    source = feature.source
    if source is None:
        return feature.type_name
    return source.type.name if isinstance(source.type, EDataType) else built_in(source).rpartition(':')[2] or feature.type_name
