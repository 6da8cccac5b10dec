"""Random calls: a list of the client does what a Python list does, and a view that replays its notifications has what the repository has.
"""

import random

from support import ClientTest, LibraryTest

from mmrepo import Kind

SEED = 20
CALLS = 300


def change(values, ways):
    """Makes a random change of a list, by methods that a list of the client and a Python list both have."""
    length = len(values)
    way = ways.choice(['append', 'append', 'append', 'insert', 'remove', 'pop', 'del', 'slice', 'extend', 'clear'])
    text, place = ways.choice('abcdefgh'), ways.randint(-length, max(length - 1, 0))
    if way in ('append', 'extend'):
        getattr(values, way)(text)
    elif way == 'insert':
        values.insert(place, text)
    elif way == 'remove' and text in values:
        values.remove(text)
    elif way == 'pop' and length:
        values.pop(place)
    elif way == 'del' and length:
        del values[place]
    elif way == 'slice':
        del values[place:ways.randint(-length, length):ways.choice([1, 2, -1])]
    elif way == 'clear' and ways.random() < 0.2:
        values.clear()


class Lists(ClientTest):
    """Random changes of a list of texts that may repeat."""

    def test_same_as_python(self):
        """After each change the list equals the Python list with the same changes."""
        wanted, ways, again = [], random.Random(SEED), random.Random(SEED)
        found = self.kinds().create('Kind').texts
        for _ in range(CALLS):
            change(wanted, ways)
            change(found, again)
            self.assertEqual(found, wanted)

    def test_moves(self):
        """`move` does what `pop` and `insert` do on a Python list."""
        ways, texts = random.Random(SEED), self.kinds().create('Kind').texts
        wanted = list('abcdefgh')
        texts.extend(wanted)
        for _ in range(CALLS // 3):
            to, place = ways.randrange(8), ways.randrange(8)
            moved = wanted.pop(place)
            wanted.insert(to, moved)
            self.assertEqual(texts.move(to, place), moved)
            self.assertEqual(texts, wanted)


class Replays(LibraryTest):
    """A view that takes a snapshot and then only replays notifications, by the rules of docs/ADAPTERS.md."""

    def setUp(self):
        super().setUp()
        self.ways = random.Random(SEED)
        self.library, *below = self.made('Library', *['Book'] * 6, *['Person'] * 4)
        self.books, self.persons = below[:6], below[6:]
        self.library.books.extend(self.books)
        self.library.members.extend(self.persons)

    def snapshot(self):
        """The values of each feature of the library and of all objects below it."""
        nodes = [self.library, *self.library.eAllContents()]
        found = {}
        for node in nodes:
            for feature in node.eClass.eAllStructuralFeatures():
                values = node.eGet(feature)
                found[node, feature.name] = list(values) if feature.many else [values]
        return found

    def replay(self, notice):
        """Makes the change of a notification in the snapshot."""
        values = self.view[notice.notifier, notice.feature]
        if notice.kind in (Kind.SET, Kind.UNSET):
            self.assertEqual(values, [notice.old])
            values[:] = [notice.new]
        elif notice.kind is Kind.ADD:
            values.insert(notice.position, notice.new)
        elif notice.kind is Kind.REMOVE:
            self.assertEqual(values.pop(notice.position), notice.old)
        else:
            self.assertIs(notice.kind, Kind.MOVE)
            values.insert(notice.position, values.pop(notice.old))

    def command(self):
        """Makes a random change that leaves all objects below the library."""
        ways = self.ways
        book, other, person = ways.choice(self.books), ways.choice(self.books), ways.choice(self.persons)
        ways.choice([
            lambda: book.eSet('pages', ways.randrange(9)),
            lambda: book.eSet('name', ways.choice([None, 'Emma', 'a "b" é'])),
            lambda: book.eSet('genre', ways.choice(['NOVEL', 'POEM', 'PLAY'])),
            lambda: book.eUnset(ways.choice(['pages', 'note', 'tags', 'genre', 'next'])),
            lambda: book.eSet('next', ways.choice([None, other])),
            lambda: book.eSet('prev', other),
            lambda: book.tags.append(ways.choice('abcd')),
            lambda: book.tags and book.tags.move(0, -1),
            lambda: self.library.books.move(ways.randrange(6), ways.randrange(6)),
            lambda: person.likes.append(book),
            lambda: person.likes and person.likes.pop(0),
            lambda: person.eSet('favourite', book),
            lambda: len(self.library.staff) < 2 and person.eSet('job', self.library),
            lambda: person.eSet('job', None),
            lambda: self.library.eUnset('staff'),
        ])()

    def test_notices_are_enough(self):
        """After many changes the snapshot equals a new one."""
        self.view = self.snapshot()
        self.repo.attach(self.replay, self.library)
        for _ in range(CALLS):
            self.command()
        self.assertEqual(self.view, self.snapshot())
