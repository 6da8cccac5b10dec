"""A simulation of a repository, by the rules of docs/SCRIPT.md and docs/ADAPTERS.md: the values of each end, and the notifications of a
change.

Nodes and values are kept as a script prints them. An end of one value has a list of one value, which is null if the end has none.
"""

from collections import defaultdict
from typing import NamedTuple, Optional

from mmtools.metamodel import MClass, MEnum, MFeature
from mmtools.metamodel_reader import MetamodelReader

CONTENTS = MFeature('contents', MClass('Resource'), MClass('Any'), upper=-1, containment=True)


class Refused(Exception):
    """A refused command; the text is the number and the name of the refusal."""


class Telling(NamedTuple):
    """A notification at one end. `value` is the new value of SET and UNSET, the value of ADD and REMOVE, and the old index of MOVE. `place`
    is the index. If it is None, ADD puts the value at the end of the list, and REMOVE takes it out at its index."""

    node: str
    feature: MFeature
    kind: str
    value: str
    place: Optional[int] = None


def number(node):
    """The number of an object."""
    return int(node[1:])


def lost(node, feature, value):
    """The notification that an end loses a value."""
    return Telling(node, feature, 'REMOVE', value) if feature.is_many else Telling(node, feature, 'SET', 'null')


def gained(node, feature, value):
    """The notification that an end gains a value, which comes last if the end is a list."""
    return Telling(node, feature, 'ADD' if feature.is_many else 'SET', value)


def default(feature):
    """The value of an end of one value that is not set."""
    if isinstance(feature.type, MEnum):
        return f':{feature.default or feature.type.literals[0]}'
    return 'null' if feature.is_reference or feature.type == 'EString' else feature.default or '0'


class Model:
    """The objects, the values of their ends, and the end that contains each object."""

    def __init__(self, metamodel):
        """A repository without objects."""
        classes = MetamodelReader(str(metamodel)).read().classes
        self.features = {it.name: {feature.name: feature for feature in it.all_features()} for it in classes}
        self.numbers = {feature: place for place, feature in enumerate(feature for it in classes for feature in it.features)}
        self.class_of, self.ends, self.holder, self.live = {}, {}, {}, defaultdict(list)
        self.objects = self.resources = 0
        self.left = []  # pairs of a container and an object that has left it

    def create(self, name):
        """Makes an object of a class."""
        node = f'#{self.objects}'
        self.objects += 1
        self.class_of[node] = name
        self.live[name].append(node)
        self.ends[node] = {it.name: [] if it.is_many else [default(it)] for it in self.features[name].values()}
        return node

    def create_resource(self):
        """Makes a resource."""
        node = f'r{self.resources}'
        self.resources += 1
        self.ends[node] = {'contents': []}
        return node

    def named(self, *nodes):
        """Refuses a command that names a node that is not there."""
        if any(node[0] == '#' and node not in self.ends for node in nodes):
            raise Refused('1 NO_OBJECT')
        if any(node[0] == 'r' and node not in self.ends for node in nodes):
            raise Refused('2 NO_RESOURCE')

    def feature(self, node, name):
        """A feature of a node."""
        return CONTENTS if node[0] == 'r' else self.features[self.class_of[node]][name]

    def above(self, node):
        """The nodes that contain a node, the nearest first."""
        found = []
        while node in self.holder:
            node = self.holder[node][0]
            found.append(node)
        return found

    def below(self, node):
        """A node and all objects that it contains."""
        found = [node]
        for at in found:
            parts = (self.ends[at][name] for name in self.ends[at] if self.feature(at, name).containment)
            found += [part for values in parts for part in values if part != 'null']
        return found

    # The notifications of a change, in order.

    def far(self, feature, node, values, telling):
        """The notifications at the opposite ends of some values."""
        has_far = feature.is_reference and feature.opposite
        return [telling(value, feature.opposite, node) for value in values if has_far and value != 'null']

    def in_the_way(self, node, feature, value):
        """The links that a new link displaces, each by one of its ends and the value there."""
        ends = [(node, feature), (value, feature.opposite)]
        links = [(*end, self.ends[end[0]][end[1].name][0]) for end in ends if end[1] and not end[1].is_many]
        part = value if feature.containment else node if feature.is_container else None
        links += [(*self.holder[part], part)] if part in self.holder else []
        return [link for link in links if link[2] != 'null']

    def link(self, node, feature, value):
        """The notifications of a new link that come before the notification of the named end."""
        told = {}
        for at, by, other in self.in_the_way(node, feature, value):
            sides = [(at, by, other)] + ([(other, by.opposite, at)] if by.opposite else [])
            told.update(dict.fromkeys(sorted(sides, key=lambda side: not side[1].containment)))
        gaining = [(at, by) for at, by in ((node, feature), (value, feature.opposite)) if by and not by.is_many]
        losses = [lost(*side) for side in told if side[:2] not in gaining]
        return losses + self.far(feature, node, [value], gained)

    def check_link(self, node, feature, value):
        """Refuses a link if an end is full, or if an object would contain itself."""
        ends = [(node, feature)] + ([(value, feature.opposite)] if feature.opposite else [])
        if any(1 < by.upper <= len(self.ends[at][by.name]) for at, by in ends):
            raise Refused('12 BOUND')
        outer, inner = (node, value) if feature.containment else (value, node)
        if (feature.containment or feature.is_container) and inner in [outer, *self.above(outer)]:
            raise Refused('13 RECURSIVE')

    def set(self, node, feature, value):
        """The notifications of a set of a feature of one value."""
        named, now = Telling(node, feature, 'SET', value), self.ends[node][feature.name]
        if not feature.is_reference or now == [value]:
            return [named]
        if value == 'null':
            return [*self.far(feature, node, now, lost), named]
        self.check_link(node, feature, value)
        return [*self.link(node, feature, value), named]

    def unset(self, node, feature):
        """The notifications of an unset: back to the default value, or to an empty list."""
        values = self.ends[node][feature.name]
        far = self.far(feature, node, reversed(values), lost)
        if not feature.is_many:
            return [*far, Telling(node, feature, 'UNSET', default(feature))]
        return [*far, *(Telling(node, feature, 'REMOVE', values[place], place) for place in reversed(range(len(values))))]

    def add(self, node, feature, value, place):
        """The notifications of an addition; none if the list has the value already."""
        values = self.ends[node][feature.name]
        if place is not None and place > len(values):
            raise Refused('10 INDEX')
        if feature.unique and value in values:
            if place is not None:
                raise Refused('11 DUPLICATE')
            return []
        named = Telling(node, feature, 'ADD', value, place)
        if not feature.is_reference:
            return [named]
        self.check_link(node, feature, value)
        return [*self.link(node, feature, value), named]

    def remove(self, node, feature, place):
        """The notifications of a removal by index."""
        values = self.ends[node][feature.name]
        if place >= len(values):
            raise Refused('10 INDEX')
        return [*self.far(feature, node, [values[place]], lost), Telling(node, feature, 'REMOVE', values[place], place)]

    def move(self, node, feature, to, place):
        """The notification of a move."""
        if max(to, place) >= len(self.ends[node][feature.name]):
            raise Refused('10 INDEX')
        return [Telling(node, feature, 'MOVE', str(place), to)]

    def delete(self, node):
        """The notifications of a delete: what the ends of other nodes lose with the object and all objects below it, its container last."""
        gone, losses = set(self.below(node)), []
        for at in self.class_of.keys() - gone:
            for name, values in self.ends[at].items():
                by = self.feature(at, name)
                if by.is_reference and self.holder.get(node) != (at, by):
                    losses += [(self.numbers[by], number(at), place, lost(at, by, it)) for place, it in enumerate(values) if it in gone]
        last = [lost(*self.holder[node], node)] if node in self.holder else []
        return [loss[3] for loss in sorted(losses, key=lambda loss: loss[:3])] + last

    # The effects of a change.

    def tell(self, it):
        """Makes the change of one end, and returns its notification as a script prints it."""
        values, end = self.ends[it.node][it.feature.name], f'{it.node}.{it.feature.name}'
        if it.kind in ('SET', 'UNSET'):
            old, values[:] = values[0], [it.value]
            return f'{it.kind} {end} {old} {it.value} -1'
        if it.kind == 'ADD':
            place = len(values) if it.place is None else it.place
            values.insert(place, it.value)
            if it.feature.containment:
                self.holder[it.value] = it.node, it.feature
            return f'ADD {end} null {it.value} {place}'
        if it.kind == 'MOVE':
            value = values.pop(int(it.value))
            values.insert(it.place, value)
            return f'MOVE {end} {it.value} {value} {it.place}'
        place = values.index(it.value) if it.place is None else it.place
        if it.feature.containment:
            del self.holder[it.value]
            self.left.append((it.node, it.value))
        return f'REMOVE {end} {values.pop(place)} null {place}'

    def destroy(self, gone):
        """Removes objects from the model."""
        for node in gone:
            self.live[self.class_of.pop(node)].remove(node)
            del self.ends[node]
            self.holder.pop(node, None)
