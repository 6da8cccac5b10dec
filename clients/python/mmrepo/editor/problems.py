"""The problems of objects: features with fewer values than they should have, and proxies that are left."""

from __future__ import annotations

from typing import Any, Dict, Iterable, List, NamedTuple, Optional, Tuple

from ..repository import Repository
from .forms import Id
from .mirror import Entry, Mirror
from .reading import is_proxy, object_of


class Problem(NamedTuple):
    """The problems of an object: the features that are too short, and each proxy by its feature and index."""

    short: Tuple[str, ...]
    proxies: Tuple[Tuple[str, int], ...]


class Problems:
    """The problems of all objects. The program says which features are too short."""

    def __init__(self, repo: Repository, mirror: Mirror) -> None:
        self._repo, self._mirror = repo, mirror
        self._found: Dict[int, Problem] = {}
        self.short = self.proxies = 0

    def look_at_all(self) -> None:
        """Looks at each object."""
        nodes = [(number, entry) for number, entry in self._mirror.nodes.items() if isinstance(number, int)]
        bounded = [number for number, entry in nodes if entry.shape and entry.shape.is_bounded]
        answers = self._repo._session.raw_all([f'validate #{number}' for number in bounded])
        short = {number: tuple(answer[0][1:-1].split()) for number, answer in zip(bounded, answers)}
        for number, entry in nodes:
            self._note(number, Problem(short.get(number, ()), _proxies(entry)))

    def look_at(self, numbers: Iterable[Id], gone: Iterable[int]) -> Dict[str, Any]:
        """Looks at objects that have changed, and returns what is new for the page."""
        changed: Dict[int, Optional[Dict[str, Any]]] = {}
        for number in gone:
            if self._note(number, None):
                changed[number] = None
        for number in numbers:
            entry = self._mirror.nodes.get(number)
            if not isinstance(number, int) or entry is None or entry.shape is None:
                continue
            short = tuple(object_of(self._repo, number).validate()) if entry.shape.is_bounded else ()
            if self._note(number, Problem(short, _proxies(entry))):
                changed[number] = self.of(number)
        return {'objects': changed, **self.counts()}

    def counts(self) -> Dict[str, int]:
        """How many objects have problems, and how many problems there are of each kind."""
        return {'count': len(self._found), 'short': self.short, 'proxies': self.proxies}

    def of(self, number: int) -> Optional[Dict[str, Any]]:
        """The problems of an object, or None."""
        found = self._found.get(number)
        return found and {'short': found.short, 'proxies': found.proxies}

    def some(self, most: int) -> List[Dict[str, Any]]:
        """The problems of the first objects that have any, by number."""
        return [{'object': number, **(self.of(number) or {})} for number in sorted(self._found)[:most]]

    def _note(self, number: int, problem: Optional[Problem]) -> bool:
        """Records the problems of an object. Returns whether they have changed."""
        before = self._found.pop(number, None)
        after = problem if problem is not None and (problem.short or problem.proxies) else None
        if after is not None:
            self._found[number] = after
        for it, sign in ((before, -1), (after, 1)):
            if it is not None:
                self.short += sign * len(it.short)
                self.proxies += sign * len(it.proxies)
        return before != after


def _proxies(entry: Entry) -> Tuple[Tuple[str, int], ...]:
    """The proxies that an object has."""
    if entry.shape is None:
        return ()
    found: List[Tuple[str, int]] = []
    for form in entry.shape.links:
        value = entry.values.get(form.name)
        if value is not None:
            found += [(form.name, index) for index, it in enumerate(value if form.many else (value,)) if is_proxy(it)]
    return tuple(found)
