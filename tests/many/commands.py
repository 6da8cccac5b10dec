"""Makes random scripts by a seed, for a pool of adapters that have many targets among many objects."""

import random

# Weights by class: how often an object is made, edited, and chosen as a target.
MADE = {'Folder': 7, 'Book': 9, 'Library': 3, 'Person': 2}
EDITED = {'Folder': 2, 'Book': 9, 'Library': 4, 'Person': 3}
AIMED = {'Folder': 7, 'Book': 5, 'Library': 6, 'Person': 1}
SINGLE = {'Folder': ['parent'], 'Book': ['name', 'pages', 'library', 'next', 'prev'], 'Library': ['name'], 'Person': ['job', 'favourite']}
LISTS = {'Folder': ['subs'], 'Book': ['tags'], 'Library': ['books', 'members', 'staff', 'staff'], 'Person': ['likes']}
HOLDERS = {'Folder': ('Folder', 'subs'), 'Book': ('Library', 'books'), 'Person': ('Library', 'members')}
RESOURCES = ('r0', 'r1', 'r2')
AIMING = ('attach', 'watch', 'unwatch', 'detach', 'delete')
VERBS = {
    'set': 30, 'unset': 4, 'add': 16, 'remove': 5, 'removevalue': 4, 'move': 8, 'new': 5, 'delete': 3,
    'watch': 12, 'unwatch': 7, 'attach': 8, 'detach': 2, 'seen': 2, 'get': 2,
}
LARGEST = 12  # most deletes destroy at most so many objects


class Commands:
    """The lines of a script, and what each must print by the model of a session."""

    def __init__(self, session, views, seed):
        """An empty script."""
        self.session, self.model, self.adapters, self.views = session, session.model, session.adapters, views
        self.random, self.lines, self.answers = random.Random(seed), [], []
        self.last = None  # the node of the last edit; many lines name it or its adapters, since the program may remember whom it notifies

    def run(self, line):
        """Adds a line to the script, and its answer by the model."""
        answer = self.session.run(line)
        self.views.follow(len(self.lines), line, answer)
        self.lines.append(line)
        self.answers.append(answer)

    # Words.

    def once_in(self, times=30):
        """True once in `times` calls, on average."""
        return not self.random.randrange(times)

    def one(self, weights):
        """A random key, by its weight."""
        return self.random.choices(list(weights), weights.values())[0]

    def live(self, name):
        """An object of a class, often the last node."""
        if not self.model.live[name]:
            self.run(f'new {name}')
        return self.last if self.is_last(name) else self.random.choice(self.model.live[name])

    def is_last(self, name):
        """Whether the last node is taken for an object of a class."""
        return self.once_in(3) and self.model.class_of.get(self.last) == name

    def named(self, node):
        """A node, rarely one that is not there or is deleted. The other words of a line are made first, since they may make an object."""
        gone = f'#{self.random.randrange(self.model.objects)}'
        strays = [f'#{self.model.objects}', f'r{len(RESOURCES)}', *([] if gone in self.model.ends else [gone])]
        return self.random.choice(strays) if self.once_in(60) else node

    def target(self):
        """A node for an adapter, often the last node."""
        if self.once_in(2) and self.last in self.model.ends:
            return self.last
        return self.named(self.random.choice(RESOURCES) if self.once_in(100) else self.live(self.one(AIMED)))

    def depth(self):
        """The depth of a target: `flat` or `deep`."""
        return self.random.choice(('flat', 'deep'))

    def value(self, feature):
        """A value for a feature, rarely an object that is not there."""
        if feature.is_reference:
            value = self.live(self.one(MADE) if feature.name == 'contents' else feature.type_name)
            return f'#{self.model.objects}' if self.once_in(100) else value
        return str(self.random.randrange(1000)) if feature.type == 'EInt' else f'"{self.random.choice("abcdefgh")}"'

    def place(self, end):
        """An index below `end`, rarely `end` itself, which is one too high."""
        return self.random.randrange(end + self.once_in() or 1)

    def end(self, features):
        """An end: a node and a feature. `features` has the features to choose from, by class."""
        if self.last not in self.model.class_of or not self.once_in(3):
            self.last = self.live(self.one(EDITED))
        return self.last, self.model.feature(self.last, self.random.choice(features[self.model.class_of[self.last]]))

    def list_end(self):
        """An end that is a list."""
        if self.once_in(15):
            node = self.random.choice(RESOURCES)
            return node, self.model.feature(node, 'contents')
        return self.end(LISTS)

    def filled(self):
        """An end that is a list, mostly one with a value: its words, and its values."""
        ends = [self.list_end() for _ in range(20)]
        node, feature = next(((node, it) for node, it in ends if self.model.ends[node][it.name]), ends[0])
        return f'{self.named(node)} {feature.name}', self.model.ends[node][feature.name]

    def adapter(self, is_free=False):
        """An attached adapter, often one at the last node, or a free one; rarely any number."""
        size, near = len(self.adapters.pool), sorted(it.no for it in self.adapters.at[self.last])
        if near and not is_free and self.once_in(3):
            return f'A{self.random.choice(near)}'
        nos = self.random.choices(range(1, size + 1), k=50)
        found = next((no for no in nos if self.adapters.is_free(no) == is_free), nos[0])
        return f'A{self.random.randrange(size + 2) if self.once_in() else found}'

    # The words of a line, by its verb.

    def set(self):
        """The words of a set, sometimes to null."""
        node, feature = self.end(SINGLE)
        value = 'null' if self.once_in(6) and feature.name != 'pages' else self.value(feature)
        return f'{self.named(node)} {feature.name} {value}'

    def unset(self):
        """The words of an unset, mostly of a feature of one value."""
        node, feature = self.list_end() if self.once_in(8) else self.end(SINGLE)
        return f'{self.named(node)} {feature.name}'

    def add(self):
        """The words of an addition, half of the times with an index."""
        node, feature = self.list_end()
        value, end = self.value(feature), len(self.model.ends[node][feature.name]) + 1
        return f'{self.named(node)} {feature.name} {value}' + (f' {self.place(end)}' if self.once_in(2) else '')

    def remove(self):
        """The words of a removal by index."""
        end, values = self.filled()
        return f'{end} {self.place(len(values))}'

    def removevalue(self):
        """The words of a removal by value, mostly of a value that is there."""
        node, feature = self.list_end()
        values = self.model.ends[node][feature.name]
        value = self.random.choice(values) if values else self.value(feature)
        return f'{self.named(node)} {feature.name} {value}'

    def move(self):
        """The words of a move."""
        end, values = self.filled()
        return f'{end} {self.place(len(values))} {self.place(len(values))}'

    def get(self):
        """The words of a read."""
        node, feature = self.list_end() if self.once_in(2) else self.end(SINGLE)
        return f'{self.named(node)} {feature.name}'

    def new(self):
        """The class of a new object."""
        return self.one(MADE)

    def delete(self):
        """The object of a delete, mostly one that contains few objects."""
        nodes = [self.live(self.one(MADE)) for _ in range(4)]
        small = next((node for node in nodes if len(self.model.below(node)) <= LARGEST), nodes[0])
        self.last = self.model.holder.get(small, (self.last,))[0]
        return f'#{self.model.objects}' if self.once_in(60) else small

    def attach(self):
        """The words of an attach."""
        return f'{self.adapter(is_free=True)} {self.target()} {self.depth()}'

    def watch(self):
        """The words of a watch: a new target, or one that the adapter has already."""
        name = self.adapter()
        return f'{name} {self.own_target(name) if self.once_in(8) else self.target()} {self.depth()}'

    def unwatch(self):
        """The words of an unwatch, mostly of a target that the adapter has."""
        name = self.adapter()
        return f'{name} {self.target() if self.once_in(8) else self.own_target(name)}'

    def own_target(self, name):
        """A target of an adapter if it has one, often the last node."""
        attached = self.adapters.attached.get(int(name[1:]))
        if attached and self.last in attached.targets and self.once_in(2):
            return self.last
        return self.random.choice(list(attached.targets)) if attached else self.target()

    detach = seen = adapter

    # Scripts.

    def place_object(self, name):
        """Makes an object, and adds it mostly to an object, else to a resource."""
        self.run(f'new {name}')
        part = f'#{self.model.objects - 1}'
        if name in HOLDERS and not self.once_in(12):
            holder, feature = HOLDERS[name]
            return self.run(f'add {self.live(holder)} {feature} {part}')
        return self.run(f'add {self.random.choice(RESOURCES)} contents {part}')

    def build(self, objects):
        """Makes the resources, and `objects` objects."""
        for name in RESOURCES:
            self.run(f'resource "http://m.example/{name}"')
        for _ in range(objects):
            self.place_object(self.one(MADE))

    def aim(self, more):
        """Attaches each adapter to an object of its own, and gives it up to `more` further targets."""
        nodes = self.random.sample(sorted(self.model.class_of), len(self.adapters.pool))
        for no, node in zip(self.adapters.pool, nodes):
            self.run(f'attach A{no} {node} {self.depth()}')
            for _ in range(self.random.randrange(more + 1)):
                self.run(f'watch A{no} {self.target()} {self.depth()}')

    def change(self, count, verbs):
        """Adds `count` commands, by the weights of their verbs. A command on targets is mostly followed by one that notifies."""
        for _ in range(count):
            verb = self.one(verbs)
            self.run(f'{verb} {getattr(self, verb)()}')
            if verb in AIMING and self.last in self.model.class_of and not self.once_in(3):
                self.run(f'unset {self.last} {self.random.choice(SINGLE[self.model.class_of[self.last]])}')

    def read_all(self):
        """Reads each feature of each node; returns the number of each line, by node and feature."""
        places = {}
        for node, name in [(node, name) for node in self.model.ends for name in self.model.ends[node]]:
            places[node, name] = len(self.lines)
            self.run(f'get {node} {name}')
        return places

    def detach_all(self):
        """Adds `seen` and `detach` for each adapter."""
        for no in list(self.adapters.attached):
            self.run(f'seen A{no}')
            self.run(f'detach A{no}')
