"""What a diagram shows: boxes with rows, and lines between them."""

from __future__ import annotations

import json
from dataclasses import dataclass, field, replace
from typing import Any, Dict, List, Optional, Set

from .metamodel import MClass, Metamodel, MFeature
from .objects import ATTRIBUTE, Graph, Obj, held

INHERITS, CONTAINS, REFERS, BOTH = 'inherits', 'contains', 'refers', 'both'
LONGEST_TEXT = 40  # the most characters of a value
ANY = 'EObject'


@dataclass
class Box:
    """A box: its title, what is above the title, and its rows."""

    title: str
    above: str = ''
    rows: List[str] = field(default_factory=list)


@dataclass
class Line:
    """A line from one box to another, by their places; `near` and `far` are at its ends."""

    kind: str
    start: int
    end: int
    label: str = ''
    near: str = ''
    far: str = ''


@dataclass
class Picture:
    """The boxes and lines in order."""

    boxes: List[Box] = field(default_factory=list)
    lines: List[Line] = field(default_factory=list)


def bounds(feature: MFeature) -> str:
    """The bounds of a feature, as `0..*`."""
    return f'{feature.lower}..{"*" if feature.upper == -1 else feature.upper}'


def attribute_row(feature: MFeature) -> str:
    """An attribute with its type; its bounds if they are not 0..1, and its default."""
    row = f'{feature.name} : {feature.type_name}'
    if (feature.lower, feature.upper) != (0, 1):
        row += f' [{bounds(feature)}]'
    return row + (f' = {shortened(feature.default)}' if feature.default is not None else '')


def shortened(text: str) -> str:
    """A text that is not longer than a row takes."""
    return text if len(text) <= LONGEST_TEXT else text[:LONGEST_TEXT - 1] + '…'


def reference_line(places: Dict[int, int], feature: MFeature) -> Line:
    """The line of a reference, or of two opposites, from the end that contains."""
    assert isinstance(feature.type, MClass)
    other = feature.opposite
    kind = CONTAINS if feature.containment else BOTH if other else REFERS
    line = Line(kind, places[id(feature.owner)], places[id(feature.type)], feature.name, '', bounds(feature))
    if other is not None:
        line.label, line.near = f'{feature.name} / {other.name}', bounds(other)
    return line


def class_picture(meta: Metamodel) -> Picture:
    """The enumerations and classes of a metamodel, with supertypes and references."""
    made = Picture([Box(it.name, 'enumeration', list(it.literals)) for it in meta.enums])
    places: Dict[int, int] = {}
    for it in meta.classes:
        places[id(it)] = len(made.boxes)
        rows = [attribute_row(feature) for feature in it.features if not feature.is_reference]
        made.boxes.append(Box(it.name, 'abstract' if it.is_abstract else '', rows))
    root = common_root(meta)
    made.lines = [Line(INHERITS, places[id(it)], places[id(above)]) for it in meta.classes for above in it.supers if above is not root]
    drawn: Set[MFeature] = set()
    for it in meta.classes:
        for feature in it.features:
            if feature.is_reference and feature not in drawn and not feature.is_container:
                made.lines.append(reference_line(places, feature))
                drawn |= {feature} | ({feature.opposite} if feature.opposite else set())
    return made


def common_root(meta: Metamodel) -> Optional[MClass]:
    """The class `EObject`, if it is above each other class: lines to it would say nothing."""
    root = next((it for it in meta.classes if it.name == ANY), None)
    return root if root is not None and all(root in it.above() for it in meta.classes) else None


def cut_around(picture: Picture, title: str, steps: int) -> Optional[Picture]:
    """What is at most so many lines away from a box; None if there is no box of that title."""
    near = {place for place, box in enumerate(picture.boxes) if box.title == title}
    if not near:
        return None
    for _ in range(steps):
        near |= {place for line in picture.lines for place in (line.start, line.end) if {line.start, line.end} & near}
    kept = sorted(near)
    places = {old: new for new, old in enumerate(kept)}
    lines = [replace(line, start=places[line.start], end=places[line.end]) for line in picture.lines if {line.start, line.end} <= near]
    return Picture([picture.boxes[place] for place in kept], lines)


def value_text(value: Any, is_literal: bool) -> str:
    """A value of an attribute: a text in quotation marks, a literal as it is."""
    return shortened(str(value) if is_literal else json.dumps(value, ensure_ascii=False))


def value_row(feature: MFeature, values: List[Any]) -> str:
    """An attribute with its values."""
    texts = [value_text(it, not isinstance(feature.type, str)) for it in values]
    return f'{feature.name} = ' + (shortened('[' + ', '.join(texts) + ']') if feature.is_many else texts[0])


def object_picture(graph: Graph) -> Picture:
    """The objects of a document, by their fragments, with what they hold; each proxy is a box of its own."""
    made = Picture()
    places: Dict[object, int] = {}
    objects = list(graph.walk())
    for obj in objects:
        places[id(obj)] = len(made.boxes)
        slots = [slot for slot in graph.plans[obj.of].slots if slot.kind == ATTRIBUTE and held(obj, slot)]
        rows = [value_row(slot.feature, held(obj, slot)) for slot in slots]
        made.boxes.append(Box(f'{graph.fragment(obj)} : {obj.of.name}', '', rows))
    drawn: Set[object] = set()
    for obj in objects:
        for slot in graph.plans[obj.of].slots:
            for value in held(obj, slot) if slot.kind != ATTRIBUTE else []:
                draw_link(made, places, drawn, obj, slot.feature, value)
    return made


def draw_link(made: Picture, places: Dict[object, int], drawn: Set[object], obj: Obj, feature: MFeature, value: Any) -> None:
    """Draws a link once, also if both of its ends name it."""
    key = id(value) if isinstance(value, Obj) else value
    if key not in places:
        places[key] = len(made.boxes)
        made.boxes.append(Box(str(value), 'proxy'))
    if (id(obj), feature, key) in drawn:
        return
    other = feature.opposite
    label, kind = feature.name, CONTAINS if feature.containment else REFERS
    if other is not None and not feature.containment:
        drawn.add((key, other, id(obj)))
        label, kind = f'{feature.name} / {other.name}', BOTH
    made.lines.append(Line(kind, places[id(obj)], places[key], label))
