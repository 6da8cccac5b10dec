"""Writes a picture as a Graphviz graph."""

from __future__ import annotations

from collections import Counter
from typing import FrozenSet, List, Tuple

from .picture import BOTH, CONTAINS, INHERITS, Box, Line, Picture

STYLES = {
    INHERITS: 'arrowhead=empty',
    CONTAINS: 'dir=both, arrowtail=diamond, arrowhead=none',
    BOTH: 'dir=none',
}


def quoted(text: str) -> str:
    """A text between quotation marks; a control character becomes a space."""
    shown = ''.join(char if char.isprintable() else ' ' for char in text)
    return shown.replace('&', '&amp;').replace('\\', '\\\\').replace('"', '\\"')


def field_text(text: str) -> str:
    """A text of a record, whose marks are escaped too."""
    return ''.join('\\' + char if char in '{}|<> ' else char for char in quoted(text))


def box_text(place: int, box: Box) -> str:
    """The node of a box: a record with a field for the title and one for the rows."""
    above = f'«{field_text(box.above)}»\\n' if box.above else ''
    rows = ''.join(f'{field_text(row)}\\l' for row in box.rows)
    return f'  n{place} [label="{{{above}{field_text(box.title)}' + (f'|{rows}' if rows else '') + '}"];'


def pair(line: Line) -> FrozenSet[int]:
    """The boxes of a line."""
    return frozenset((line.start, line.end))


def labels(line: Line, is_one_of_many: bool) -> List[Tuple[str, str]]:
    """The texts of a line. If many lines join two boxes, the bounds are in the label, since at the ends they would lie over each other."""
    if not is_one_of_many or not line.far:
        return [('label', line.label), ('taillabel', line.near), ('headlabel', line.far)]
    bounds = f'{line.near} / {line.far}' if line.near else line.far
    return [('label', f'{line.label} [{bounds}]')]


def graphviz(picture: Picture) -> str:
    """The graph."""
    out: List[str] = ['digraph model {', '  rankdir=BT;', '  node [shape=record];']
    out += [box_text(place, box) for place, box in enumerate(picture.boxes)]
    between = Counter(pair(line) for line in picture.lines)
    for line in picture.lines:
        words = [STYLES[line.kind]] if line.kind in STYLES else []
        for key, text in labels(line, between[pair(line)] > 1):
            if text:
                words.append(f'{key}="{quoted(text)}"')
        out.append(f'  n{line.start} -> n{line.end}' + (f' [{", ".join(words)}]' if words else '') + ';')
    return '\n'.join(out + ['}']) + '\n'
