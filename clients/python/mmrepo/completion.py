"""Completes a word that is typed: verbs, classes, features and values."""

from __future__ import annotations

from typing import Callable, List, Optional, Sequence

from .metamodel import EAttribute, EClass, EEnum, EStructuralFeature, Metamodel

# The verbs of docs/SCRIPT.md.
VERBS = (
    'add', 'at', 'attach', 'class', 'container', 'contents', 'delete', 'detach', 'fragment', 'get', 'isset', 'load', 'move', 'new', 'remove',
    'removevalue', 'resolve', 'resolveall', 'resource', 'save', 'seen', 'set', 'unset', 'unwatch', 'validate', 'watch', 'within',
)
WITH_FEATURE = ('add', 'get', 'isset', 'move', 'remove', 'removevalue', 'resolve', 'set', 'unset')
WITH_VALUE = ('add', 'removevalue', 'set')
DEPTHS = ('flat', 'deep')


class Completion:
    """What a word may be, by the words before it."""

    def __init__(self, metamodel: Metamodel, class_of: Callable[[str], Optional[EClass]], own: Sequence[str]) -> None:
        """`class_of` gives the class of an object by its word, and `own` are the words of the shell itself."""
        self._metamodel, self._class_of, self._own = metamodel, class_of, own

    def candidates(self, before: Sequence[str], begun: str) -> List[str]:
        """The words that may come after the earlier words and begin with the typed text."""
        return sorted(it for it in self._all(before) if it.startswith(begun))

    def _all(self, before: Sequence[str]) -> List[str]:
        if not before:
            return [*VERBS, *self._own]
        verb, count = before[0], len(before)
        if verb == 'new' and count == 1:
            return [it.name for it in self._metamodel.classes.values() if not it.abstract]
        if verb in WITH_FEATURE and count == 2:
            return self._features(before[1])
        if verb in WITH_VALUE and count == 3:
            return self._values(before[1], before[2])
        if verb in ('attach', 'watch') and count == 3:
            return list(DEPTHS)
        return []

    def _features(self, node: str) -> List[str]:
        """The names of the features of a node."""
        if node.startswith('r'):
            return ['contents']
        eclass = self._class_of(node)
        return [it.name for it in eclass.eAllStructuralFeatures()] if eclass else []

    def _values(self, node: str, name: str) -> List[str]:
        """The values of a feature that have names."""
        eclass = self._class_of(node)
        feature: Optional[EStructuralFeature] = eclass.findEStructuralFeature(name) if eclass else None
        if feature is None:
            return []
        if isinstance(feature.eType, EEnum):
            return [f':{it}' for it in feature.eType.eLiterals]
        if feature.eType.name == 'EBoolean':
            return ['false', 'true']
        is_null = not feature.many and not (isinstance(feature, EAttribute) and feature.eType.name != 'EString')
        return ['null'] if is_null else []
