"""The calls that a window may make: each by its name, with its arguments. Anything else is a BadCall."""

from __future__ import annotations

import base64
import binascii
import re
from typing import Any, Callable, Dict, List, NamedTuple, Optional

from ..metamodel import EReference
from ..xmi import ToolFailed
from . import pictures, search
from .edits import NotDone
from .model import Model

LONGEST_LIST = 5_000  # nodes that one call may ask for
MOST_PROBLEMS = 500  # the most objects with problems that are listed
GREATEST = 4_294_967_295  # the greatest number of an object, and the greatest index of a list
_RESOURCE = re.compile(r'r(0|[1-9][0-9]{0,9})')


class BadCall(Exception):
    """A call that no window makes. The message says what is wrong with it."""


# Arguments

def _number(value: Any) -> bool:
    return isinstance(value, int) and not isinstance(value, bool) and 0 <= value <= GREATEST


def _node(value: Any) -> bool:
    return _number(value) or isinstance(value, str) and _RESOURCE.fullmatch(value) is not None


def _nodes(value: Any) -> bool:
    return isinstance(value, list) and len(value) <= LONGEST_LIST and all(_node(it) for it in value)


def _text(value: Any) -> bool:
    return isinstance(value, str)


def _flag(value: Any) -> bool:
    return isinstance(value, bool)


def _data(value: Any) -> bool:
    return value is None or isinstance(value, (bool, int, str))


# What an argument has to be, by its name; a `?` marks one that may be absent.
KINDS: Dict[str, Callable[[Any], bool]] = {
    'node': _node, 'object': _number, 'nodes': _nodes, 'feature': _text, 'class': _text, 'value': _data, 'was': _data, 'at': _number, 'to': _number,
    'text': _text, 'name': _text, 'folder': _number, 'force': _flag, 'xmi': _flag, 'steps': _number, 'data': _text,
}


class Call(NamedTuple):
    """A call: the names of its arguments, and what it does."""

    words: str
    do: Callable[[Model, Dict[str, Any]], Any]


def answer(model: Model, body: Any) -> Any:
    """The result of a call. Raises a BadCall for a call that does not exist, and a NotDone for a call that is refused."""
    if not isinstance(body, dict):
        raise BadCall('a call is a JSON object')
    call = CALLS.get(body.get('do')) if isinstance(body.get('do'), str) else None
    if call is None:
        raise BadCall(f'there is no call {str(body.get("do"))[:100]!r}')
    words = dict.fromkeys(name.rstrip('?') for name in call.words.split())
    for name in set(body) - {'do'} - set(words):
        raise BadCall(f'{body["do"]} has no argument {name[:100]!r}')
    for name in call.words.split():
        value = body.get(name.rstrip('?'))
        if not (value is None and name.endswith('?')) and not KINDS[name.rstrip('?')](value):
            raise BadCall(f'{body["do"]}: the argument {name.rstrip("?")!r} is absent or of the wrong kind')
    given = {**words, **{key: value for key, value in body.items() if key != 'do'}}
    if call.do in ALONE:
        return call.do(model, given)
    with model.lock:
        return call.do(model, given)


def _edit(does: Callable[[Model, Dict[str, Any]], Any]) -> Callable[[Model, Dict[str, Any]], Any]:
    """An edit whose answer has the number of its event."""
    def do(model: Model, it: Dict[str, Any]) -> Any:
        done = model.step(lambda: does(model, it))
        return {'done': done, 'number': model.events.number}
    return do


def _picks(model: Model, it: Dict[str, Any]) -> Any:
    """The objects that a reference can take."""
    entry = model.mirror.nodes.get(it['object'])
    feature = entry.shape.eclass.findEStructuralFeature(it['feature']) if entry and entry.shape else None
    if not isinstance(feature, EReference):
        raise NotDone('NO_OBJECT', 'NO_OBJECT: the object is deleted, or it has no such reference')
    return search.picks(model.mirror, it['object'], feature, it['text'])


def _search(model: Model, it: Dict[str, Any]) -> Any:
    """The objects of a class that have a text in an attribute."""
    if it['class'] is not None and it['class'] not in model.repo.metamodel.classes:
        raise NotDone('NO_CLASS', f'NO_CLASS: there is no class {it["class"][:100]}')
    return search.search(model.mirror, it['text'], it['class'])


def _below(model: Model, it: Dict[str, Any]) -> Any:
    """How many objects a delete would destroy."""
    found = it['object'] in model.mirror.nodes
    return {'count': 1 + sum(1 for _ in model.mirror.below(it['object'])) if found else 0}


def _import(model: Model, it: Dict[str, Any]) -> Any:
    """Imports a file into a folder, under a name."""
    try:
        content = base64.b64decode(it['data'], validate=True)
    except (binascii.Error, ValueError):
        raise BadCall('import: the data is not base64') from None
    made = model.files.converted(it['name'], content)
    name = it['name'] if it['name'].endswith('.json') else it['name'].rpartition('.')[0] + '.json'
    with model.lock:
        return {**model.load(it['folder'], name, made.document.decode('utf-8')), 'notes': made.notes}


def _export(model: Model, it: Dict[str, Any]) -> Any:
    """Exports a resource as a file."""
    with model.lock:
        resource = model.resource(it['node'])
        if resource is None:
            raise NotDone('NO_RESOURCE', f'NO_RESOURCE: there is no resource {it["node"]}')
        document = model.files.document(resource)
    return model.files.exported(resource, document, it['xmi'])


def _draw(model: Model, it: Dict[str, Any]) -> Any:
    """A picture of the metamodel, of the classes near a class, or of a node."""
    file, node = model.files.given.metamodel, it['node']
    try:
        if node is None:
            return {'text': pictures.picture_of_classes(file, it['class'], min(it['steps'] or 1, 10))}
        with model.lock:
            if node not in model.mirror.nodes:
                raise NotDone('NO_OBJECT', 'NO_OBJECT: the object is deleted')
            names = {resource._word: model.files.name(resource) for resource in model.repo.resources}
            document, kept = pictures.document_of_objects(model.mirror, names, node)
        return pictures.picture_of_objects(file, document, kept)
    except ToolFailed as failed:
        raise NotDone('TOOL', f'TOOL: {failed}') from None


def _hits(model: Model, it: Dict[str, Any]) -> List[Optional[Dict[str, Any]]]:
    """Nodes as hits, for rows that show their paths."""
    return [search.hit(model.mirror, node) if node in model.mirror.nodes else None for node in it['nodes']]


CALLS: Dict[str, Call] = {
    'start': Call('', lambda model, it: model.start()),
    'nodes': Call('nodes', lambda model, it: model.nodes(it['nodes'])),
    'hits': Call('nodes', _hits),
    'asked': Call('nodes', lambda model, it: model.asked(it['nodes'])),
    'compared': Call('', lambda model, it: model.compared()),
    'search': Call('text class?', _search),
    'picks': Call('object feature text', _picks),
    'below': Call('object', _below),
    'problems': Call('', lambda model, it: {'number': model.events.number, 'found': model.problems.some(MOST_PROBLEMS)}),
    'set': Call('object feature value', _edit(lambda model, it: model.edits.set(it['object'], it['feature'], it['value']))),
    'unset': Call('object feature', _edit(lambda model, it: model.edits.unset(it['object'], it['feature']))),
    'add': Call('object feature value at?', _edit(lambda model, it: model.edits.add(it['object'], it['feature'], it['value'], it['at']))),
    'remove': Call('object feature at was?', _edit(lambda model, it: model.edits.remove(it['object'], it['feature'], it['at'], it['was']))),
    'move': Call('node feature to at was?', _edit(lambda model, it: model.edits.move(it['node'], it['feature'], it['to'], it['at'], it['was']))),
    'resolve': Call('object feature at', _edit(lambda model, it: model.edits.resolve(it['object'], it['feature'], it['at']))),
    'resolve all': Call('', _edit(lambda model, it: model.repo.resolve_all()._asdict())),
    'new': Call('class node feature at?', _edit(lambda model, it: model.edits.new(it['class'], it['node'], it['feature'], it['at']))),
    'place': Call('object node feature at?', _edit(lambda model, it: model.edits.place(it['object'], it['node'], it['feature'], it['at']))),
    'delete': Call('object', _edit(lambda model, it: model.edits.delete(it['object']))),
    'save': Call('force', lambda model, it: model.save(it['force'])),
    'new file': Call('folder name', lambda model, it: {'resource': model.new_file(it['folder'], it['name'])}),
    'import': Call('folder name data', _import),
    'export': Call('node xmi', _export),
    'draw': Call('node? class? steps?', _draw),
}
# The calls that run a tool: they hold the lock of the model only while they need the model.
ALONE = (_import, _export, _draw)
