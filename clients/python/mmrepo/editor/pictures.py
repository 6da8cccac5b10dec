"""Pictures: the text of the tool `diagram` for the metamodel, or for an object and the objects below it."""

from __future__ import annotations

import json
import os
import subprocess
import sys
import tempfile
from pathlib import Path
from typing import Any, Dict, List, Optional, Sequence, Tuple

from ..xmi import tool_file
from .documents import Place, fragments, places_of, written
from .edits import NotDone
from .forms import CONTENTS, Id
from .mirror import Mirror

OBJECTS = 40  # the most objects of a picture
SECONDS = 60  # seconds that the tool may take


def picture_of_classes(metamodel: str, around: Optional[str], steps: int) -> str:
    """The diagram of a metamodel, or of the classes near a class."""
    return _drawn([metamodel] + (['--around', around, '--steps', str(steps)] if around is not None else []))


def document_of_objects(mirror: Mirror, names: Dict[Id, str], node: Id) -> Tuple[Dict[str, Any], Dict[int, str]]:
    """The document of a node and of the first objects below it, and the fragment of each."""
    roots = [node] if isinstance(node, int) else list(mirror.nodes[node].values.get(CONTENTS, ()))
    found = set(_nearest(mirror, roots))
    kept = {number: fragment for number, fragment in fragments(mirror, roots[:OBJECTS]) if number in found}
    places: Dict[int, Place] = {}

    def refer(number: int) -> str:
        """A fragment in the picture, or the address of an object outside of it."""
        if number in kept:
            return kept[number]
        if not places:
            places.update(places_of(mirror))
        place = places.get(number)
        return f'{names[place.resource]}#{place.fragment}' if place else 'nowhere#/'

    return written(mirror, roots[:OBJECTS], refer, kept), kept


def picture_of_objects(metamodel: str, document: Dict[str, Any], kept: Dict[int, str]) -> Dict[str, Any]:
    """The diagram of a document, with its objects by their fragments."""
    with tempfile.TemporaryDirectory() as room:
        file = Path(room, 'document.json')
        file.write_text(json.dumps(document), encoding='utf-8')
        text = _drawn([metamodel, str(file)])
    return {'text': text, 'shown': len(kept), 'objects': {fragment: number for number, fragment in kept.items()}}


def _nearest(mirror: Mirror, roots: Sequence[int]) -> List[int]:
    """The first objects at and below roots, level by level."""
    found: List[int] = []
    level = list(roots)
    while level and len(found) < OBJECTS:
        found += level[:OBJECTS - len(found)]
        level = [part for number in level[:OBJECTS] if number in mirror.nodes for _, _, part in mirror.nodes[number].parts()]
    return found


def _drawn(words: Sequence[str]) -> str:
    """What the tool draws."""
    command = [sys.executable, tool_file('diagram'), *words]
    environment = {**os.environ, 'PYTHONIOENCODING': 'utf-8'}
    try:
        done = subprocess.run(
            command, env=environment, stdin=subprocess.DEVNULL, stdout=subprocess.PIPE, stderr=subprocess.PIPE, timeout=SECONDS
        )
    except subprocess.TimeoutExpired:
        raise NotDone('TOOL', 'TOOL: the picture took too long') from None
    if done.returncode != 0:
        raise NotDone('TOOL', f'TOOL: {done.stderr.decode("utf-8", "replace").strip()}')
    return done.stdout.decode('utf-8')
