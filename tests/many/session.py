"""What a script prints, by the simulations of a repository and of its adapters."""

from adapters import Adapters
from model import Model, Refused


class Session:
    """Answers the lines of a script one after another. Strings in the lines have no spaces."""

    def __init__(self, metamodel, adapters):
        """An empty repository, and a pool of `adapters` adapters."""
        self.model, self.adapters = Model(metamodel), Adapters(adapters)

    def run(self, line):
        """All that a line prints."""
        verb, *words = line.split()
        try:
            return getattr(self, verb)(*words)
        except Refused as refused:
            return [f'refused {refused}']

    def change(self, answer, tellings):
        """An answer, with the lines of the adapters that are notified of a change. They are found in the state before the change."""
        hearing = [self.adapters.audience(it.node, self.model.above(it.node)) for it in tellings]
        self.adapters.reserve(hearing)
        notices = [self.model.tell(it) for it in tellings]
        return [answer, *(adapter.hear(notice) for notice, some in zip(notices, hearing) for adapter in some)]

    def at(self, node, name, value='null'):
        """A feature of a node; refused if the node or the value is not there."""
        self.model.named(node, *([value] if value[0] == '#' else []))
        return self.model.feature(node, name)

    def new(self, name):
        """new NAME"""
        return [self.model.create(name)]

    def resource(self, _uri):
        """resource STR"""
        return [self.model.create_resource()]

    def get(self, node, name):
        """get NODE NAME"""
        self.model.named(node)
        return [self.printed(node, name, self.model.ends[node][name])]

    def printed(self, node, name, values):
        """The values of an end, as a script prints them."""
        return f'[{" ".join(values)}]' if self.model.feature(node, name).is_many else values[0]

    def set(self, node, name, value):
        """set NODE NAME VALUE"""
        return self.change('ok', self.model.set(node, self.at(node, name, value), value))

    def unset(self, node, name):
        """unset NODE NAME"""
        return self.change('ok', self.model.unset(node, self.at(node, name)))

    def add(self, node, name, value, place=None):
        """add NODE NAME VALUE, add NODE NAME VALUE N"""
        tellings = self.model.add(node, self.at(node, name, value), value, None if place is None else int(place))
        return self.change('true' if tellings else 'false', tellings)

    def remove(self, node, name, place):
        """remove NODE NAME N"""
        tellings = self.model.remove(node, self.at(node, name), int(place))
        return self.change(tellings[-1].value, tellings)

    def removevalue(self, node, name, value):
        """removevalue NODE NAME VALUE"""
        feature = self.at(node, name, value)
        values = self.model.ends[node][name]
        return self.change('true', self.model.remove(node, feature, values.index(value))) if value in values else ['false']

    def move(self, node, name, to, place):
        """move NODE NAME N N"""
        tellings = self.model.move(node, self.at(node, name), int(to), int(place))
        return self.change(self.model.ends[node][name][int(place)], tellings)

    def delete(self, node):
        """delete OBJ"""
        self.model.named(node)
        gone = self.model.below(node)
        lines = self.change(f'deleted {len(gone)}', self.model.delete(node))
        self.model.destroy(gone)
        dead = [(adapter, at) for adapter in self.adapters.attached.values() for at in adapter.targets if at not in self.model.ends]
        return [*lines, *(self.adapters.drop(*target) for target in dead), *self.adapters.release()]

    def attach(self, name, node, depth):
        """attach AD NODE flat, attach AD NODE deep"""
        adapter = self.adapters.take(int(name[1:]))
        self.model.named(node)
        self.adapters.check_limit()
        self.adapters.aim(adapter, node, depth == 'deep')
        return ['ok']

    def watch(self, name, node, depth):
        """watch AD NODE flat, watch AD NODE deep"""
        self.model.named(node)
        attached = self.adapters.attached.get(int(name[1:]))
        if attached and node in attached.targets:
            return ['false']
        self.adapters.check_limit()
        self.adapters.aim(self.adapters.of(int(name[1:])), node, depth == 'deep')
        return ['true']

    def unwatch(self, name, node):
        """unwatch AD NODE"""
        self.model.named(node)
        adapter = self.adapters.of(int(name[1:]))
        return ['true', self.adapters.drop(adapter, node), *self.adapters.release()] if node in adapter.targets else ['false']

    def detach(self, name):
        """detach AD"""
        adapter = self.adapters.of(int(name[1:]))
        return ['ok', *[self.adapters.drop(adapter, node) for node in list(adapter.targets)], *self.adapters.release()]

    def seen(self, name):
        """seen AD"""
        return [f'seen {self.adapters.of(int(name[1:])).heard}']
