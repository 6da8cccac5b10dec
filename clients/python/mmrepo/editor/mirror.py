"""The server's copy of the model. It is read once, and then kept only by notifications, as docs/ADAPTERS.md replays them."""

from __future__ import annotations

from typing import Any, Dict, Iterator, List, NamedTuple, Optional, Sequence, Set, Tuple

from ..metamodel import Metamodel
from ..notices import Kind, Notice
from .forms import CONTENTS, ROOTS, Form, Id, Shape, Shapes, encoded, id_of

# The kind, the node, the feature, the value before and after, the position, and the class of the node: None for a resource.
Told = Tuple[str, Id, str, Any, Any, int, Optional[str]]


class Entry:
    """A node: its values other than defaults, its unsettable attributes that are set, and its container. A resource has no shape."""

    __slots__ = ('shape', 'values', 'flags', 'holder', 'under')

    def __init__(self, shape: Optional[Shape], holder: Optional[Id] = None, under: Optional[str] = None) -> None:
        self.shape = shape
        self.values: Dict[str, Any] = {}
        self.flags: Set[str] = set()
        self.holder, self.under = holder, under

    def form(self, feature: str) -> Optional[Form]:
        """The form of one of its features, or None."""
        return (ROOTS if feature == CONTENTS else None) if self.shape is None else self.shape.forms.get(feature)

    def get(self, form: Form) -> Any:
        """The value of a feature. A list is not to be changed."""
        return self.values.get(form.name, () if form.many else form.default)

    def put(self, form: Form, value: Any) -> None:
        """Sets a single value."""
        if value == form.default:
            self.values.pop(form.name, None)
        else:
            self.values[form.name] = value

    def parts(self) -> Iterator[Tuple[Form, int, int]]:
        """Its contents: the feature, the index there, and the object."""
        for form in (ROOTS,) if self.shape is None else self.shape.parts:
            value = self.values.get(form.name)
            if value is not None:
                yield from ((form, index, part) for index, part in enumerate(value if form.many else (value,)))

    def state(self) -> Dict[str, Any]:
        """What the page gets."""
        return {
            'class': self.shape.name if self.shape else None, 'values': self.values, 'flags': sorted(self.flags),
            'in': None if self.holder is None else [self.holder, self.under],
        }


class Changes(NamedTuple):
    """The result of a replay: new objects that are not known yet, with their containers; and objects that are gone."""

    come: Dict[int, Tuple[Id, str]]
    gone: List[int]


class Mirror:
    """All nodes that are in resources."""

    def __init__(self, metamodel: Metamodel) -> None:
        self.shapes = Shapes(metamodel)
        self.nodes: Dict[Id, Entry] = {}

    def told(self, notice: Notice) -> Told:
        """A notification as JSON has it."""
        node = id_of(notice.notifier)
        feature = notice.feature or ''
        entry = self.nodes.get(node)
        form = (entry.form(feature) if entry else None) or self.shapes.of(notice.notifier.eClass.name).forms[feature]
        old = notice.old if notice.kind is Kind.MOVE else encoded(form, notice.old)
        kind = entry.shape.name if entry and entry.shape else None
        return notice.kind.name, node, feature, old, encoded(form, notice.new), notice.position, kind

    def replay(self, notices: Sequence[Told]) -> Changes:
        """Applies the notifications of a command."""
        come: Dict[int, Tuple[Id, str]] = {}
        lost: List[int] = []
        for told in notices:
            entry = self.nodes.get(told[1])
            form = entry.form(told[2]) if entry else None
            if entry is None or form is None:
                continue
            _apply(entry, form, told)
            if form.contains:
                self._move(told, come, lost)
        return Changes(come, [gone for it in lost for gone in self._drop(it)])

    def _move(self, told: Told, come: Dict[int, Tuple[Id, str]], lost: List[int]) -> None:
        """Follows an object that leaves a container, and an object that gets one."""
        kind, node, feature, old, new = told[:5]
        if kind == 'MOVE' or old == new:
            return
        if isinstance(old, int):
            come.pop(old, None)
            entry = self.nodes.get(old)
            if entry is not None and (entry.holder, entry.under) == (node, feature):
                entry.holder = entry.under = None
                lost.append(old)
        if isinstance(new, int):
            entry = self.nodes.get(new)
            if entry is None:
                come[new] = (node, feature)
            else:
                entry.holder, entry.under = node, feature

    def _drop(self, top: int) -> Iterator[int]:
        """Forgets an object that nothing contains, and all objects below it."""
        entry = self.nodes.get(top)
        waiting = [top] if entry is not None and entry.holder is None else []
        while waiting:
            number = waiting.pop()
            entry = self.nodes.pop(number, None)
            if entry is not None:
                waiting += [part for _, _, part in entry.parts()]
                yield number

    # What is asked

    def label(self, node: Id) -> str:
        """The name of an object for a reader: its attribute `name` or `id`, else its class and number."""
        entry = self.nodes.get(node)
        if entry is None or entry.shape is None:
            return str(node)
        for name in entry.shape.names:
            if entry.values.get(name):
                return entry.values[name]
        return f'{entry.shape.name} {node}'

    def path(self, node: Id) -> List[Id]:
        """The nodes from a resource down to a node, both included."""
        found: List[Id] = []
        at: Optional[Id] = node
        while at is not None and at in self.nodes:
            found.append(at)
            at = self.nodes[at].holder
        return found[::-1]

    def below(self, node: Id) -> Iterator[int]:
        """All objects below a node, each before its contents."""
        waiting = [part for _, _, part in self.nodes[node].parts()][::-1]
        while waiting:
            top = waiting.pop()
            yield top
            if top in self.nodes:
                waiting.extend([part for _, _, part in self.nodes[top].parts()][::-1])


def _apply(entry: Entry, form: Form, told: Told) -> None:
    """Changes the one end that a notification names. A notification that can't be true is skipped."""
    kind, _, name, old, new, at, _ = told
    if kind in ('SET', 'UNSET') or kind == 'RESOLVE' and at < 0:
        entry.put(form, new)
        if form.unsettable:
            (entry.flags.add if kind == 'SET' else entry.flags.discard)(name)
        return
    values = entry.values.setdefault(name, [])
    if kind == 'ADD' and at <= len(values):
        values.insert(at, new)
    elif kind == 'REMOVE' and at < len(values):
        del values[at]
    elif kind == 'MOVE' and max(old, at) < len(values):
        values.insert(at, values.pop(old))
    elif kind == 'RESOLVE' and at < len(values):
        values[at] = new
    if not values:
        del entry.values[name]
