"""Shows objects to a reader: an object in a line, with its class and name, and the objects below it as a tree."""

from __future__ import annotations

import re
from typing import Dict, Iterator, List, Optional, Tuple

from .errors import shown
from .metamodel import EAttribute, EClass, EReference, Metamodel
from .session import Session

OBJECT = re.compile(r'#(?:0|[1-9][0-9]*)')
NAMES = ('name', 'id')  # the attributes that name an object for a reader
LINES = 100  # lines of a tree, unless a number is given
ANSWERED = 20  # objects that are described below an answer


class Drawing:
    """Asks a session for what is drawn."""

    def __init__(self, session: Session, metamodel: Metamodel) -> None:
        self._session, self._metamodel = session, metamodel
        self._classes: Dict[str, EClass] = {}

    def _ask(self, line: str) -> str:
        """The first line of an answer."""
        return (self._session.raw(line) or [''])[0]

    def class_of(self, word: str) -> Optional[EClass]:
        """The class of an object; None if the word names no object."""
        if word not in self._classes:
            found = self._metamodel.classes.get(self._ask(f'class {word}').partition(' ')[2])
            if found is None:
                return None
            self._classes[word] = found
        return self._classes[word]

    def label(self, word: str) -> str:
        """A node in one line, as `#1 Book "Emma"`."""
        eclass = self.class_of(word) if OBJECT.fullmatch(word) else None
        if eclass is None:
            uri = self._session.uri_of(word)
            return word if uri is None else f'{word} {uri}'
        for name in NAMES:
            feature = eclass.findEStructuralFeature(name)
            if isinstance(feature, EAttribute) and not feature.many:
                value = self._ask(f'get {word} {name}')
                if value != 'null':
                    return f'{word} {eclass.name} {shown(value)}'
        return f'{word} {eclass.name}'

    def answered(self, answer: str) -> List[str]:
        """The lines below an answer that is an object or a list of objects: each with its label."""
        words = answer[1:-1].split(' ') if answer.startswith('[') else [answer]
        if not all(OBJECT.fullmatch(word) for word in words):
            return []
        more = [f'  .. and {len(words) - ANSWERED:,} more'] if len(words) > ANSWERED else []
        return [f'  {self.label(word)}' for word in words[:ANSWERED]] + more

    def tree(self, word: str, most: int = LINES) -> Iterator[str]:
        """A node and what is below it, a line each."""
        yield self.label(word)
        waiting = [('', part) for part in reversed(self._parts(word))]
        count = 1
        while waiting:
            if count >= most:
                yield f'.. more than {most} lines: tree {word} {10 * most} shows more'
                return
            before, (name, part) = waiting.pop()
            is_last = not waiting or waiting[-1][0] != before
            yield f'{before}{"└── " if is_last else "├── "}{name} {self.label(part)}'
            count += 1
            below = before + ('    ' if is_last else '│   ')
            waiting += [(below, it) for it in reversed(self._parts(part))]

    def _parts(self, word: str) -> List[Tuple[str, str]]:
        """The objects that a node contains, each with the name of its feature and its index there."""
        eclass = self.class_of(word) if OBJECT.fullmatch(word) else None
        if eclass is None:
            return [(f'[{index}]', it) for index, it in enumerate(self._words(f'contents {word}'))]
        found: List[Tuple[str, str]] = []
        for feature in eclass.eAllStructuralFeatures():
            if isinstance(feature, EReference) and feature.containment:
                words = self._words(f'get {word} {feature.name}')
                found += [(f'{feature.name}[{index}]' if feature.many else feature.name, it) for index, it in enumerate(words)]
        return found

    def _words(self, line: str) -> List[str]:
        """The objects of an answer."""
        return OBJECT.findall(self._ask(line))

    def features(self, word: str) -> Iterator[str]:
        """An object and all its features, a line each. A feature that is not set is in brackets."""
        yield self.label(word)
        eclass = self.class_of(word)
        for feature in eclass.eAllStructuralFeatures() if eclass else []:
            answer = self._ask(f'get {word} {feature.name}')
            is_set = self._ask(f'isset {word} {feature.name}') == 'true'
            if isinstance(feature, EReference) and not feature.many and OBJECT.fullmatch(answer):
                answer = self.label(answer)
            yield f'  {feature.name} = {shown(answer)}' if is_set else f'  ({feature.name} = {shown(answer)})'
