"""Documents of the mirror's content, as `save` would write them: for pictures, and for a comparison with the program's documents."""

from __future__ import annotations

from typing import Any, Callable, Dict, Iterator, List, NamedTuple, Optional, Sequence, Tuple

from .forms import CONTENTS, Form, Id
from .mirror import Entry, Mirror

MOST = 20  # the most differences that are listed


class Place(NamedTuple):
    """The place of an object: its resource, and its fragment there."""

    resource: Id
    fragment: str


def places_of(mirror: Mirror) -> Dict[int, Place]:
    """The place of each object: its resource and its fragment."""
    found: Dict[int, Place] = {}
    for word in [it for it in mirror.nodes if isinstance(it, str)]:
        for number, fragment in fragments(mirror, mirror.nodes[word].values.get(CONTENTS, ())):
            found[number] = Place(word, fragment)
    return found


def fragments(mirror: Mirror, roots: Sequence[int]) -> Iterator[Tuple[int, str]]:
    """The roots and all objects below them, each with its fragment and before its contents."""
    waiting = [(root, '/' if len(roots) == 1 else f'/{index}') for index, root in enumerate(roots)][::-1]
    while waiting:
        number, fragment = waiting.pop()
        yield number, fragment
        entry = mirror.nodes.get(number)
        parts = list(entry.parts()) if entry else []
        waiting += [(part, f'{fragment}/@{form.name}' + (f'.{index}' if form.many else '')) for form, index, part in reversed(parts)]


def written(mirror: Mirror, roots: Sequence[int], refer: Callable[[int], str], kept: Optional[Dict[int, str]] = None) -> Dict[str, Any]:
    """The document of some roots. `refer` gives the text of a reference; only objects in `kept` are written."""
    made: Dict[int, Dict[str, Any]] = {}
    for number, _ in fragments(mirror, roots):
        entry = mirror.nodes.get(number)
        if entry is not None and entry.shape is not None and (kept is None or number in kept):
            made[number] = {'class': entry.shape.name, 'features': _features(entry, refer)}
    for number, it in made.items():
        for form, _, part in mirror.nodes[number].parts():
            if part in made and form.many:
                it['features'].setdefault(form.name, []).append(made[part])
            elif part in made:
                it['features'][form.name] = made[part]
    return {'format': 2, 'roots': [made[root] for root in roots if root in made]}


def _features(entry: Entry, refer: Callable[[int], str]) -> Dict[str, Any]:
    """The features of an object as they are written, without its containments."""
    assert entry.shape is not None
    found: Dict[str, Any] = {}
    for form in entry.shape.forms.values():
        is_set = form.name in entry.values or form.name in entry.flags
        if is_set and not form.contains and not (form.refers and _is_holder(entry, form)):
            value = entry.get(form)
            found[form.name] = [_text(form, it, refer) for it in value] if form.many else _text(form, value, refer)
    return found


def _is_holder(entry: Entry, form: Form) -> bool:
    """Whether a reference leads to the container, which has the object in its own features."""
    feature = entry.shape and entry.shape.eclass.findEStructuralFeature(form.name)
    return bool(getattr(feature, 'container', False))


def _text(form: Form, value: Any, refer: Callable[[int], str]) -> Any:
    """A value as a document has it."""
    if form.refers:
        return refer(value) if isinstance(value, int) else value
    return int(value) if form.is_long and value is not None else value


def differences(here: Any, there: Any, place: str = '') -> Iterator[str]:
    """The places at which two documents differ, and the content of each there."""
    waiting: List[Tuple[Any, Any, str]] = [(here, there, place)]
    while waiting:
        one, other, at = waiting.pop()
        if one == other:
            continue
        if isinstance(one, dict) and isinstance(other, dict):
            keys = [*one, *(key for key in other if key not in one)]
            waiting += [(one.get(key), other.get(key), f'{at}.{key}') for key in reversed(keys)]
        elif isinstance(one, list) and isinstance(other, list) and len(one) == len(other):
            waiting += [(a, b, f'{at}[{index}]') for index, (a, b) in enumerate(zip(one, other))][::-1]
        else:
            yield f'{at.lstrip(".")}: here {_shown(one)}, there {_shown(other)}'


def _shown(value: Any) -> str:
    """A value in a difference."""
    if isinstance(value, list):
        return f'{len(value)} value{"" if len(value) == 1 else "s"}'
    return f'a {value.get("class")}' if isinstance(value, dict) else repr(value)
