"""Simulates a pool of adapters and decides which of them are notified, by the rules of docs/ADAPTERS.md and docs/SCRIPT.md."""

from collections import Counter, defaultdict

from model import Refused

MOST_TOLD = 2**64 - 1
MOST_TARGETS = 100_000
ROOMS = {5: 2, 6: 100, **dict.fromkeys((1, 2, 3, 4), float('inf'))}  # how many notifications an adapter keeps; all others none


class Adapter:
    """An adapter of the pool. If it is attached, it has targets in the order in which it got them: nodes, each flat or deep."""

    def __init__(self, no):
        """A free adapter without notifications; A8 can count two notifications."""
        self.no, self.targets, self.order = no, {}, 0
        self.told = MOST_TOLD - 2 if no == 8 else 0

    @property
    def heard(self):
        """How many notifications it got, and how many it keeps."""
        return f'{self.told} kept {min(self.told, ROOMS.get(self.no, 0))}'

    def reserve(self, places):
        """Refuses a change that needs more notifications than the adapter can count."""
        if self.told + places > MOST_TOLD:
            raise Refused('27 ADAPTER_FULL')

    def hear(self, notice):
        """Counts a notification, and returns the line that a script prints for it."""
        self.told += 1
        return f'told A{self.no} {notice}'


class Adapters:
    """The pool of a session, its attached adapters, and for each node the adapters that have it as a target."""

    def __init__(self, size):
        """A pool of `size` adapters, none of them attached."""
        self.pool = {no: Adapter(no) for no in range(1, size + 1)}
        self.attached, self.at, self.count, self.order = {}, defaultdict(set), 0, 0

    def is_free(self, no):
        """Whether an adapter is in the pool and not attached."""
        return no in self.pool and no not in self.attached

    def take(self, no):
        """A free adapter, to be attached; refused if there is none of that number."""
        if no not in self.pool:
            raise Refused('25 NO_ADAPTER')
        if no in self.attached:
            raise Refused('26 ADAPTER_TAKEN')
        return self.pool[no]

    def of(self, no):
        """An attached adapter; refused if it is not attached."""
        if no not in self.attached:
            raise Refused('25 NO_ADAPTER')
        return self.attached[no]

    def check_limit(self):
        """Refuses a target beyond the greatest number of targets."""
        if self.count >= MOST_TARGETS:
            raise Refused('14 LIMIT')

    def aim(self, adapter, node, is_deep):
        """Adds a target to an adapter. With its first target the adapter becomes the last one in attach order."""
        adapter.reserve(len(adapter.targets) + 1)
        if adapter.no not in self.attached:
            self.order += 1
            adapter.order = self.order
            self.attached[adapter.no] = adapter
        adapter.targets[node] = is_deep
        self.at[node].add(adapter)
        self.count += 1

    def drop(self, adapter, node):
        """Takes a target from an adapter; returns the line of the last notification from that target."""
        index = sorted(it.order for it in self.at[node]).index(adapter.order)
        del adapter.targets[node]
        self.at[node].remove(adapter)
        self.count -= 1
        return adapter.hear(f'REMOVING_ADAPTER {node} A{adapter.no} null {index}')

    def audience(self, node, above):
        """The adapters that are notified of a change at a node, in attach order; `above` are the nodes that contain it."""
        deep = {adapter for up in above for adapter in self.at[up] if adapter.targets[up]}
        return sorted(self.at[node] | deep, key=lambda adapter: adapter.order)

    def reserve(self, hearing):
        """Refuses a change that notifies some adapter more often than the adapter can count."""
        for adapter, notices in Counter(adapter for some in hearing for adapter in some).items():
            adapter.reserve(notices + len(adapter.targets))

    def release(self):
        """Puts the adapters without targets back into the pool; returns their lines in attach order."""
        released = [adapter for adapter in self.attached.values() if not adapter.targets]
        for adapter in released:
            del self.attached[adapter.no]
        return [f'released A{adapter.no} told {adapter.heard}' for adapter in released]
