"""Reads nodes: the nodes of a resource all at once from its document, and single nodes by a read of each feature."""

from __future__ import annotations

from typing import Any, Dict, Iterator, List, Sequence, Tuple

from ..loading import first_number, parsed
from ..objects import EObject
from ..repository import Repository
from ..resources import Resource
from .forms import CONTENTS, ROOTS, Form, encoded, id_of
from .mirror import Entry, Mirror

Later = Tuple[Entry, int, Form, Any]  # the entry and the number of an object, a reference of it, and the texts of the reference


def read_resources(repo: Repository, mirror: Mirror, resources: Sequence[Resource], has_proxies: bool) -> None:
    """Reads resources whose objects are numbered as a load numbers them: each before its contents, in order. If there may be
    proxies or other resources, the repository is asked for each reference that leads to a different resource.
    """
    places: Dict[str, Dict[str, int]] = {}
    later: Dict[str, List[Later]] = {}
    for resource in resources:
        reader = _Reader(mirror, resource)
        places[resource.uri], later[resource.uri] = reader.places, reader.later
    for uri, links in later.items():
        own = places[uri]
        for entry, number, form, texts in links:
            if has_proxies and any('#' in text for text in texts):
                found = asked_values(repo, number, form)
            else:
                found = [own[text] if text in own else _elsewhere(places, text) for text in texts]
            entry.values[form.name] = found if form.many else found[0]


def _elsewhere(places: Dict[str, Dict[str, int]], address: str) -> int:
    """The object at an address in a different resource."""
    uri, _, fragment = address.partition('#')
    return places[uri][fragment]


def asked_values(repo: Repository, number: int, form: Form) -> List[Any]:
    """The values of a feature of an object, as the repository answers."""
    value = object_of(repo, number).eGet(form.name)
    return [encoded(form, it) for it in (value if form.many else [value])]


def object_of(repo: Repository, number: int) -> EObject:
    """The object of a number."""
    return repo._session.named(f'#{number}')


class _Reader:
    """Goes through the document of a resource, and makes its entries. `later` has the links, and `places` the objects by fragment."""

    def __init__(self, mirror: Mirror, resource: Resource) -> None:
        self._mirror = mirror
        self.places: Dict[str, int] = {}
        self.later: List[Later] = []
        top = mirror.nodes[resource._word] = Entry(None)
        roots = parsed(resource.save())['roots']
        if roots:
            self._walk(resource._word, top, roots, first_number(resource))

    def _walk(self, word: str, top: Entry, roots: List[Dict[str, Any]], number: int) -> None:
        """Makes the entries of all objects, each before what it contains."""
        waiting = [
            (root, word, top, ROOTS, '/' if len(roots) == 1 else f'/{index}') for index, root in enumerate(roots)
        ]
        waiting.reverse()
        while waiting:
            written, holder, above, form, place = waiting.pop()
            entry = self._entry(written, number, holder, form)
            self.places[place] = number
            if form.many:
                above.values.setdefault(form.name, []).append(number)
            else:
                above.values[form.name] = number
            waiting += reversed([(part, number, entry, it, place + step) for it, step, part in _parts(entry, written['features'])])
            number += 1

    def _entry(self, written: Dict[str, Any], number: int, holder: Any, under: Form) -> Entry:
        """The entry of an object without what it contains; its links come later."""
        shape = self._mirror.shapes.of(written['class'])
        entry = self._mirror.nodes[number] = Entry(shape, holder, under.name)
        if under.opposite is not None:
            entry.values[under.opposite] = holder
        for name, value in written['features'].items():
            form = shape.forms[name]
            if form.refers:
                if not form.contains and value:
                    self.later.append((entry, number, form, value if form.many else [value]))
                continue
            if form.unsettable:
                entry.flags.add(name)
            if form.many:
                if value:
                    entry.values[name] = [str(it) for it in value] if form.is_long else value
            else:
                entry.put(form, str(value) if form.is_long else value)
        return entry


def _parts(entry: Entry, features: Dict[str, Any]) -> Iterator[Tuple[Form, str, Dict[str, Any]]]:
    """What an object of a document contains: the feature, the step of a fragment, and what is written of the part."""
    assert entry.shape is not None
    for form in entry.shape.parts:
        value = features.get(form.name)
        if value and form.many:
            yield from ((form, f'/@{form.name}.{index}', part) for index, part in enumerate(value))
        elif value:
            yield form, f'/@{form.name}', value


def asked(mirror: Mirror, node: Any) -> Entry:
    """A node as the repository has it now: each feature is read."""
    if not isinstance(node, EObject):
        entry = Entry(None)
        entry.values = {CONTENTS: [id_of(it) for it in node.eContents]}
        return entry
    shape = mirror.shapes.of(node.eClass.name)
    above = node.eContainer()
    entry = Entry(shape, id_of(above) if above is not None else _root_of(node))
    for form in shape.forms.values():
        value = node.eGet(form.name)
        if form.many:
            values = [encoded(form, it) for it in value]
            entry.values.update({form.name: values} if values else {})
        else:
            entry.put(form, encoded(form, value))
        if form.unsettable and node.eIsSet(form.name):
            entry.flags.add(form.name)
    return entry


def _root_of(node: EObject) -> Any:
    """The resource of a root, or None."""
    found = node.eResource
    return found._word if found is not None else None


def read_object(repo: Repository, mirror: Mirror, number: int, holder: Any, under: str) -> List[int]:
    """Reads a new object and all objects below it. Returns their numbers."""
    waiting, found = [(number, holder, under)], []
    while waiting:
        top, above, name = waiting.pop()
        entry = asked(mirror, object_of(repo, top))
        entry.holder, entry.under = above, name
        mirror.nodes[top] = entry
        found.append(top)
        waiting += [(part, top, form.name) for form, _, part in entry.parts()]
    return found


def is_proxy(value: Any) -> bool:
    """Whether a value of a reference is a proxy: an object is its number."""
    return isinstance(value, str)
