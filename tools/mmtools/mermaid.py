"""Writes a picture as a Mermaid class diagram."""

from __future__ import annotations

import re
from typing import List, Set

from .names import is_name, numbered
from .picture import BOTH, CONTAINS, INHERITS, Picture

ARROWS = {CONTAINS: '*--', BOTH: '--'}
PLAIN = re.compile(r'[A-Za-z0-9_ .,:=/*\[\]+-]', re.ASCII)
KEYWORDS = frozenset(
    'accdescr acctitle annotation as call callback class classdef classdiagram click cssclass default direction end graph '
    'hide href link lollipop namespace note of for style subgraph title tb bt rl lr td __proto__ constructor'.split()
)


def quoted(text: str) -> str:
    """A text in which each character that Mermaid could read is written as its number; a control character becomes a space."""
    shown = ''.join(char if char.isprintable() else ' ' for char in text)
    return ''.join(char if PLAIN.match(char) or ord(char) > 127 else f'#{ord(char)};' for char in shown)


def row_text(row: str) -> str:
    """A row. A star at its end would be read as a mark."""
    text = quoted(row)
    return f'{text[:-1]}#42;' if text.endswith('*') else text


def identifiers(picture: Picture) -> List[str]:
    """The identifier of each box: its title if the title is a name, no keyword of Mermaid and not in use, else a numbered name."""
    taken = {box.title for box in picture.boxes}
    given: List[str] = []
    used: Set[str] = set()
    for box in picture.boxes:
        name = box.title
        if not is_name(name) or name.lower() in KEYWORDS or name in used:
            name = numbered(f'box_{len(given)}', taken)
            taken.add(name)
        used.add(name)
        given.append(name)
    return given


def mermaid(picture: Picture) -> str:
    """The diagram."""
    names = identifiers(picture)
    out = ['classDiagram']
    for name, box in zip(names, picture.boxes):
        head = f'  class {name}' + ('' if name == box.title else f'["{quoted(box.title)}"]')
        rows = [f'    {row_text(row)}' for row in box.rows]
        if box.above:
            rows.insert(0, f'    <<{quoted(box.above)}>>')
        out += [f'{head} {{', *rows, '  }'] if rows else [head]
    for line in picture.lines:
        if line.kind == INHERITS:
            out.append(f'  {names[line.end]} <|-- {names[line.start]}')
            continue
        near = f' "{line.near}"' if line.near else ''
        far = f' "{line.far}"' if line.far else ''
        label = f' : {quoted(line.label)}' if line.label else ''
        out.append(f'  {names[line.start]}{near} {ARROWS.get(line.kind, "-->")}{far} {names[line.end]}{label}')
    return '\n'.join(out) + '\n'
