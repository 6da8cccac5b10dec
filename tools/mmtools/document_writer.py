"""The text of a document of objects, as the repository saves it."""

from __future__ import annotations

from json.encoder import encode_basestring
from typing import Any, Dict, List

from .metamodel import MClass
from .objects import ATTRIBUTE, CONTAINED, CONTAINER, REFERENCE, Graph, Obj, Slot
from .progress import Progress

FORMAT = 2
PIECE = 20_000  # texts that are joined to one piece of output


class DocumentWriter:
    """Writes one document, with the keys in order and without spaces."""

    def __init__(self, file: str, graph: Graph, count: int) -> None:
        """`count` says how many objects there are, for the progress."""
        self.graph, self.plans = graph, graph.plans
        self.progress = Progress(f'writing the objects of {file}', count)
        self.heads: Dict[MClass, str] = {}
        self.count = 0  # objects since the last flush
        self.out: List[str] = []
        self.done: List[bytes] = []

    def pieces(self) -> List[bytes]:
        """The text in UTF-8, in pieces."""
        self.out.append(f'{{"format":{FORMAT},"roots":[')
        for place, root in enumerate(self.graph.roots):
            self.out.append(',' if place else '')
            self.object(root)
        self.out.append(']}\n')
        self.flush()
        self.progress.end()
        return self.done

    def flush(self) -> None:
        """Joins what was written."""
        self.progress.step(self.count)
        self.count = 0
        self.done.append(''.join(self.out).encode('utf-8'))
        self.out.clear()

    def object(self, obj: Obj) -> None:
        """An object with all that it contains."""
        of, out, fragment = obj.of, self.out, self.graph.fragment
        head = self.heads.get(of)
        if head is None:
            head = self.heads[of] = f'{{"class":{encode_basestring(of.name)},"features":{{'
        out.append(head)
        slots, values = self.plans[of].by_name, obj.values
        comma = ''
        for name in sorted(values):
            slot, value = slots[name], values[name]
            if type(value) is Obj and slot.kind == REFERENCE:
                out.append(f'{comma}"{name}":"{fragment(value)}"')
            elif slot.kind == CONTAINER or value == slot.default or slot.is_many and not value:
                continue
            elif type(value) is str:
                out.append(f'{comma}"{name}":{encode_basestring(value)}')
            else:
                out.append(f'{comma}"{name}":')
                (self.list if slot.is_many else self.one)(slot, value)
            comma = ','
        out.append('}}')
        self.count += 1
        if len(out) > PIECE:
            self.flush()

    def list(self, slot: Slot, values: List[Any]) -> None:
        """The values of a list."""
        if slot.kind == ATTRIBUTE and type(values[0]) is str:
            self.out.append(f'[{",".join([encode_basestring(value) for value in values])}]')
            return
        mark = '['
        for value in values:
            self.out.append(mark)
            self.one(slot, value)
            mark = ','
        self.out.append(']')

    def one(self, slot: Slot, value: Any) -> None:
        """One value."""
        if type(value) is Obj:
            if slot.kind == CONTAINED:
                self.object(value)
            else:
                self.out.append(f'"{self.graph.fragment(value)}"')
        elif type(value) is str:
            self.out.append(encode_basestring(value))
        elif value is None:
            self.out.append('null')
        elif value is True or value is False:
            self.out.append('true' if value else 'false')
        else:
            self.out.append(str(value))
