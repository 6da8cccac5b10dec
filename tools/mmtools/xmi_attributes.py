"""The attributes of XMI and of XML Schema instances, in the list of names and values that the parser gives."""

from __future__ import annotations

from typing import List, Optional

from .xml_reader import XSI, is_xmi

XSI_TYPE, XSI_NIL = f'{XSI} type', f'{XSI} nil'


def value_under(attributes: List[str], name: str) -> Optional[str]:
    """The value of an attribute."""
    return next((text for key, text in zip(attributes[::2], attributes[1::2]) if key == name), None)


def xmi_value(attributes: List[str], name: str) -> Optional[str]:
    """The value of an attribute of XMI; its name comes after a space."""
    for place in range(0, len(attributes), 2):
        key = attributes[place]
        if key.endswith(name) and is_xmi(key[:-len(name)]):
            return attributes[place + 1]
    return None


def type_text(attributes: List[str]) -> Optional[str]:
    """The text of `xsi:type`, or of `xmi:type`."""
    if XSI_TYPE in attributes:
        return value_under(attributes, XSI_TYPE)
    return xmi_value(attributes, ' type') if attributes else None


def link_of(attributes: List[str]) -> Optional[str]:
    """The reference of an element that has one as an attribute."""
    return (value_under(attributes, 'href') or xmi_value(attributes, ' idref')) if attributes else None
