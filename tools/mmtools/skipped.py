"""Elements that are left out with everything below them. The objects among them are counted."""

from __future__ import annotations

from functools import lru_cache
from typing import TYPE_CHECKING, Dict, List, Optional

from .ecore_model import EClass, EFeature

if TYPE_CHECKING:
    from .xmi_reader import XmiReader


@lru_cache(maxsize=None)
def features_of(of: EClass) -> Dict[str, EFeature]:
    """The features of a class by name, own and inherited."""
    found: Dict[str, EFeature] = {}
    seen: List[EClass] = []
    stack = [of]
    while stack:
        at = stack.pop()
        if at not in seen:
            seen.append(at)
            found.update({it.name: it for it in at.features})
            stack += at.supers
    return found


class Skipped:
    """An open element that is left out. `of` is its class, if it is an object of one."""

    __slots__ = ('of',)

    def __init__(self, of: Optional[EClass]) -> None:
        """What is below an element of an unknown class is not counted."""
        self.of = of

    def below(self, tag: str, attributes: List[str], reader: 'XmiReader') -> 'Skipped':
        """The element below; it counts if it is a contained object."""
        feature = features_of(self.of).get(tag) if self.of is not None else None
        if feature is None or not feature.is_reference or not feature.flags['containment']:
            return Skipped(None)
        reader.notes.objects_below += 1
        return Skipped(reader.skipped_class(attributes, feature))
