"""What the lines of a journal have made (docs/JOURNAL.md)."""

from __future__ import annotations

import json
from typing import List, NamedTuple

from .metamodel import Metamodel
from .walking import Shapes


class Made(NamedTuple):
    """The URIs of the resources that were made, in order, and how many objects were made, destroyed ones included."""

    uris: List[str]
    objects: int


def made_by(journal: str, metamodel: Metamodel) -> Made:
    """What the lines of a journal have made. The program has opened the journal, so each of its lines was done."""
    uris: List[str] = []
    objects = 0
    shapes = Shapes(metamodel)
    with open(journal, 'rb') as file:
        for line in file:
            verb, _, words = line.strip(b' \n').partition(b' ')
            if verb == b'new':
                objects += 1
            elif verb == b'load':
                document = json.loads(words.lstrip(b' ').partition(b' ')[2])
                objects += sum(1 for _ in shapes.walk(document))
            elif verb == b'resource':
                uris.append(json.loads(words))
    return Made(uris, objects)
