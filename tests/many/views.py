"""Views that take a snapshot of a deep target and then only replay the notifications of its adapter, by docs/ADAPTERS.md."""

from collections import defaultdict


class View:
    """A view of a deep target: the values of each node by the notifications, and the nodes that have been below the target all along."""

    def __init__(self, no, target, values):
        """A view that begins with a snapshot: the values of the features of each node."""
        self.no, self.target, self.values, self.stayed = no, target, values, set(values)

    def replay(self, kind, end, old, new, place):
        """Makes the change of a notification at one end; does nothing if the view has no such end or index."""
        node, _, name = end.partition('.')
        values, place = self.values.get(node, {}).get(name), int(place)
        if values is None or place > len(values):
            return
        if kind in ('SET', 'UNSET'):
            values[:] = [new]
        elif kind == 'ADD':
            values.insert(place, new)
        elif kind == 'REMOVE':
            del values[place:place + 1]
        elif int(old) < len(values):
            values.insert(place, values.pop(int(old)))


class Views:
    """The views of a session."""

    def __init__(self, session):
        """No views."""
        self.session, self.at, self.begun = session, defaultdict(list), defaultdict(list)

    def follow(self, place, line, answer):
        """Follows a line of the script: notes which nodes have left which targets, and begins a view if the line adds a deep target."""
        model, words = self.session.model, line.split()
        for container, part in model.left:
            self.leave([container, *model.above(container)], part)
        model.left.clear()
        if words[-1] == 'deep' and answer[0] in ('ok', 'true'):
            values = {node: {name: list(held) for name, held in model.ends[node].items()} for node in model.below(words[2])}
            view = View(words[1], words[2], values)
            self.at[view.target].append(view)
            self.begun[place].append(view)

    def leave(self, up, part):
        """Notes that an object is no longer below the nodes `up`, except those that still contain it. The nodes that are destroyed are left
        out at the end."""
        model = self.session.model
        left = set(up).difference(model.above(part)) if part in model.ends else ()
        gone = model.below(part) if any(self.at[node] for node in left) else ()
        for view in [view for node in left for view in self.at[node]]:
            view.stayed.difference_update(gone)

    def replayed(self, blocks):
        """The views that exist after some answers, each with the notifications of its adapter replayed."""
        views = defaultdict(dict)
        for place, block in enumerate(blocks):
            self.hear(views, [line.split() for line in block if line.startswith('told ')])
            for view in self.begun[place]:
                views[view.no][view.target] = view
        return [view for some in views.values() for view in some.values()]

    @staticmethod
    def hear(views, told):
        """Replays notifications in the views of their adapters; a view ends with the last notification from its target."""
        for _, no, kind, *words in told:
            if kind == 'REMOVING_ADAPTER':
                views[no].pop(words[0], None)
            for view in views[no].values():
                view.replay(kind, *words)

    def printed(self, view, node, name):
        """The values of an end by a view, as a script prints them."""
        return [self.session.printed(node, name, view.values[node][name])]

    def differing(self, blocks, places):
        """How many views exist after some answers, and the ends at which a view differs from what the lines at `places` read; each end is
        named with the adapter and the target of its view."""
        views = self.replayed(blocks)
        ends = [(view, end, place) for view in views for end, place in places.items() if end[0] in view.stayed]
        return len(views), [(view.no, view.target, *end) for view, end, place in ends if self.printed(view, *end) != blocks[place]]
