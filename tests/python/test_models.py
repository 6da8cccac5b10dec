"""What users of PyEcore look for: all objects, copies, the feature that contains an object, and snapshots."""

from support import LibraryTest

from mmrepo import Kind

URI = 'http://m.example/a'


class Objects(LibraryTest):
    """All objects of a repository, and what the client knows of an object."""

    def test_objects(self):
        """`objects` returns the live objects in the order of their numbers, those of one class and its subclasses if a class is named."""
        library, book, person = self.made('Library', 'Book', 'Person')
        other = self.repo.create('Book')
        self.assertEqual(self.repo.objects(), [library, book, person, other])
        self.assertEqual(self.repo.objects('Book'), [book, other])
        self.assertEqual(self.repo.objects('Named'), [library, book, person, other])
        self.assertEqual(self.repo.objects(person.eClass), [person])
        book.delete()
        self.assertEqual(self.repo.objects('Book'), [other])
        town = self.repo.resource(URI)
        town.load('{"format":2,"roots":[{"class":"Book","features":{}},{"class":"Folder","features":{}}]}')
        with self.repo.batch() as batch:
            last = batch.create('Book')
        self.assertEqual(self.repo.objects('Book'), [other, town.contents[0], last])
        self.assertEqual([it.number for it in self.repo.objects()], [0, 2, 3, 4, 5, 6])
        with self.assertRaises(KeyError):
            self.repo.objects('Nothing')

    def test_number(self):
        """`number` is the number of an object, unless its class has a feature of that name."""
        meta = self.file('meta.json', '{"classes":[{"name":"Order","features":[{"name":"number","kind":"attribute","type":"EInt"}]}]}')
        order = self.opened(meta).create('Order', number=4)
        self.assertEqual((order.number, self.made('Book', 'Book')[1].number), (4, 1))
        with self.assertRaises(AttributeError):
            self.repo.create('Book').number = 3

    def test_containing_feature(self):
        """The feature that contains an object, None if nothing does."""
        library, book, person = self.made('Library', 'Book', 'Person')
        self.assertIsNone(book.eContainmentFeature())
        library.books.append(book)
        library.members.append(person)
        features = library.eClass.findEStructuralFeature
        self.assertIs(book.eContainmentFeature(), features('books'))
        self.assertIs(person.eContainingFeature(), features('members'))


class Uris(LibraryTest):
    """The URIs of resources."""

    def test_as_the_repository_has_it(self):
        """`uri` is normalised as the program does it, so an address that begins with it leads to the root."""
        for uri in ('HTTP://M.Example', 'http://m.example/a/../b c', 'https://m.example:443/\u00e9?x=\u00e9', 'http://m.example/\t%7e'):
            resource = self.repo.resource(uri)
            book = self.repo.create('Book')
            resource.append(book)
            self.assertIs(self.repo.at(resource.uri + '#/'), book)
        self.assertEqual([it.uri for it in self.repo.resources][:2], ['http://m.example/', 'http://m.example/b%20c'])


class Copies(LibraryTest):
    """Copies of objects."""

    def test_tree(self):
        """A copy has copies of all contained objects; references between them lead to copies, other references to the same objects, if they
        can."""
        library, first, second, person = self.made('Library', 'Book', 'Book', 'Person')
        library.name = 'Town'
        library.books.extend([first, second])
        library.members.append(person)
        first.tags.extend(['a', 'b'])
        first.genre, first.pages, first.next = 'POEM', 3, second
        person.likes.extend([second, first])
        outer = self.repo.create('Book')
        person.favourite = outer
        second.next = outer
        copy = self.repo.copy(library)
        one, two = copy.books
        member, = copy.members
        self.assertEqual((copy.name, copy.eContainer(), copy.eResource), ('Town', None, None))
        self.assertEqual((list(one.tags), one.genre, one.pages, one.next), (['a', 'b'], 'POEM', 3, two))
        self.assertEqual((list(member.likes), member.favourite), ([two, one], outer))
        self.assertIsNone(two.next)
        self.assertEqual((outer.prev, first.next, list(library.books)), (second, second, [first, second]))
        self.assertEqual(len({it.number for it in (library, first, second, person, outer, copy, one, two, member)}), 9)

    def test_both_ends_of_lists(self):
        """A copy keeps the order of both ends of a many-to-many association."""
        meta = self.file('meta.json', """{"classes":[{"name":"A","features":[
            {"name":"parts","kind":"reference","type":"A","upper":-1,"containment":true},
            {"name":"there","kind":"reference","type":"A","upper":-1,"opposite":"back"},
            {"name":"back","kind":"reference","type":"A","upper":-1,"opposite":"there"}]}]}""")
        repo = self.opened(meta)
        root, *parts = [repo.create('A') for _ in range(5)]
        root.parts.extend(parts)
        for left, right in ((3, 0), (0, 2), (1, 0), (2, 0), (0, 0), (3, 2)):
            parts[left].there.append(parts[right])
        parts[0].back.move(0, 2)
        copy = repo.copy(root)
        place = {it: index for index, it in enumerate(root.parts)}
        placed = {it: index for index, it in enumerate(copy.parts)}
        for old, new in zip(root.parts, copy.parts):
            self.assertEqual([place[it] for it in old.there], [placed[it] for it in new.there])
            self.assertEqual([place[it] for it in old.back], [placed[it] for it in new.back])

    def test_proxies(self):
        """An object with a proxy can't be copied, and then no object is made."""
        town = self.repo.resource(URI)
        town.load('{"format":2,"roots":[{"class":"Person","features":{"favourite":"b#/"}}]}')
        before = len(self.repo.objects())
        with self.assertRaises(ValueError):
            self.repo.copy(town.contents[0])
        self.assertEqual(len(self.repo.objects()), before)


class Snapshots(LibraryTest):
    """Snapshots of what is below a node, kept up to date by notifications."""

    def test_replay(self):
        """A snapshot that replays the notifications equals a new snapshot."""
        library, first, second = self.made('Library', 'Book', 'Book')
        town = self.repo.resource(URI)
        town.append(library)
        library.books.extend([first, second])
        for node in (library, town):
            snapshot = self.repo.snapshot(node)
            self.assertEqual(set(snapshot), {library, first, second} | ({town} if node is town else set()))
            self.assertEqual((snapshot[library]['books'], snapshot[first]['pages']), (list(library.books), first.pages))
            view = self.repo.attach(snapshot.replay, node)
            first.pages, first.name, first.genre = 3, 'Emma', 'PLAY'
            first.tags.extend(['a', 'b', 'c'])
            first.tags.move(0, 2)
            first.tags.remove('a')
            library.books.move(0, 1)
            del first.pages
            first.next = second
            self.assertEqual(snapshot, self.repo.snapshot(node))
            view.detach()
            first.tags.clear()
            first.next = None

    def test_resolved(self):
        """A snapshot replays RESOLVE notifications."""
        town = self.repo.resource(URI)
        town.load('{"format":2,"roots":[{"class":"Person","features":{"likes":["b#/0","b#/1"],"favourite":"b#/1"}}]}')
        person = town.contents[0]
        other = self.repo.resource('http://m.example/b')
        books = self.made('Book', 'Book')
        other.contents.extend(books)
        snapshot, heard = self.repo.snapshot(person), []
        self.repo.attach(snapshot.replay, person)
        self.repo.attach(heard.append, person)
        self.repo.resolve_all()
        self.assertEqual({it.kind for it in heard}, {Kind.RESOLVE})
        self.assertEqual((snapshot[person]['likes'], snapshot[person]['favourite']), (books, books[1]))
