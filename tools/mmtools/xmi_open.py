"""What the reader of an XMI file keeps: an open element that has a text, and a reference until it is joined."""

from __future__ import annotations

from typing import NamedTuple

from .objects import Obj, Slot

WAITING = object()  # what a list has in place of a reference that is still a text


class Pending(NamedTuple):
    """A reference that is still a text. `index` is its position in the list."""

    owner: Obj
    slot: Slot
    index: int
    text: str
    line: int


class Text:
    """An open element that has a value, or references."""

    __slots__ = ('owner', 'slot', 'line', 'is_nil')

    def __init__(self, owner: Obj, slot: Slot, line: int, is_nil: bool) -> None:
        """The text is taken when the element ends."""
        self.owner, self.slot, self.line, self.is_nil = owner, slot, line, is_nil
