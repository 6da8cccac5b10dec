"""Resources: their roots, documents, addresses and proxies."""

import json

from support import LibraryTest

from mmrepo import Proxy, Refused

URI = 'http://m.example/a'

# The example of docs/DOCUMENTS.md, which explains it.
TOWN = """{
  "format": 2,
  "roots": [
    {"class": "Library", "features": {
      "name": "Town library",
      "books": [
        {"class": "Book", "features": {"name": "Emma", "tags": ["love", "england"], "next": "//@books.1"}},
        {"class": "Book", "features": {"name": "Persuasion", "prev": "//@books.0", "note": null}}
      ],
      "members": [
        {"class": "Person", "features": {"name": "Ann", "job": "/", "likes": ["//@books.1", "b#//@books.7"]}}
      ],
      "staff": ["//@members.0"]
    }}
  ]
}
"""


class Roots(LibraryTest):
    """The roots of a resource."""

    def test_contents(self):
        """The roots are a list that can be changed but not assigned."""
        town = self.repo.resource(URI)
        library, folder = self.made('Library', 'Folder')
        self.assertEqual((town.contents, town.eContents), ([], []))
        self.assertTrue(town.append(library))
        self.assertFalse(town.append(library))
        town.contents += [folder]
        self.assertEqual((town.contents, town.eContents), ([library, folder], [library, folder]))
        self.assertIs(town.contents.move(0, 1), folder)
        town.remove(library)
        self.assertEqual(town.contents, [folder])
        with self.assertRaises(ValueError):
            town.remove(library)
        with self.assertRaises(AttributeError):
            town.contents = [library]
        town.contents.clear()
        self.assertEqual(town.contents, [])

    def test_leaves_the_other_resource(self):
        """A root that is added to another resource leaves its old one."""
        first, second = self.repo.resource(URI), self.repo.resource('http://m.example/b')
        library, = self.made('Library')
        first.append(library)
        second.append(library)
        self.assertEqual((first.contents, second.contents), ([], [library]))
        self.assertIs(library.eResource, second)

    def test_refused(self):
        """A URI that exists, is no http URI of a resource, or is too long is refused."""
        self.assertEqual(self.repo.resource(URI).uri, URI)
        with self.refused(16, 'RESOURCE_EXISTS'):
            self.repo.resource(URI)
        for wrong in ('', 'a', 'ftp://m.example/a', 'http://m.example/#a', '"\n" x'):
            with self.subTest(wrong), self.refused(15, 'BAD_URI'):
                self.repo.resource(wrong)
        with self.refused(9, 'TEXT_LENGTH'):
            self.repo.resource('http://m.example/' + 'a' * 65_535)
        with self.assertRaises(TypeError):
            self.repo.resource(None)

    def test_newline_in_a_uri(self):
        """Newlines are removed from a URI, as the URL Standard requires."""
        self.repo.resource('http://m.example/\nb')
        with self.refused(16, 'RESOURCE_EXISTS'):
            self.repo.resource('http://m.example/b')

    def test_no_features_of_objects(self):
        """A resource has no features but its roots."""
        town = self.repo.resource(URI)
        with self.assertRaises(AttributeError):
            town.name
        self.assertEqual(repr(town), '<Resource r0>')


class Addresses(LibraryTest):
    """Fragments and addresses."""

    def test_fragment_and_at(self):
        """`fragment` and `at` are inverse, and a fragment follows the changes of the roots."""
        town = self.repo.resource(URI)
        library, book, folder = self.made('Library', 'Book', 'Folder')
        library.books.append(book)
        with self.refused(19, 'DANGLING'):
            book.fragment()
        town.append(library)
        self.assertEqual((library.fragment(), book.fragment()), ('/', '//@books.0'))
        self.assertIs(self.repo.at(f'{URI}#//@books.0'), book)
        self.assertIsNone(self.repo.at(f'{URI}#//@books.1'))
        self.assertIsNone(self.repo.at('http://m.example/b#/'))
        with self.refused(15, 'BAD_URI'):
            self.repo.at(URI)
        town.append(folder)
        self.assertEqual((book.fragment(), folder.fragment()), ('/0/@books.0', '/1'))


class Documents(LibraryTest):
    """Saving and loading."""

    def test_saved(self):
        """The text of a saved document."""
        town = self.repo.resource(URI)
        library, book, person = self.made('Library', 'Book', 'Person')
        town.append(library)
        book.name = 'Emma'
        library.books.append(book)
        library.members.append(person)
        person.likes.append(book)
        wanted = (
            '{"format":2,"roots":[{"class":"Library","features":{"books":[{"class":"Book","features":{"name":"Emma"}}],'
            '"members":[{"class":"Person","features":{"likes":["//@books.0"]}}]}}]}'
        )
        self.assertEqual(town.save(), wanted)

    def test_empty(self):
        """An empty resource is saved, and an empty document is loaded."""
        town = self.repo.resource(URI)
        self.assertEqual(town.save(), '{"format":2,"roots":[]}')
        self.assertEqual(town.load('{"format":2,"roots":[]}'), 0)

    def test_loaded(self):
        """A load makes the objects, values and links of its document, and is refused if the resource has roots."""
        town = self.repo.resource(URI)
        self.assertEqual(town.load(TOWN), 4)
        library, = town.contents
        emma, persuasion = library.books
        ann, = library.members
        self.assertEqual((library.name, emma.name, persuasion.name, ann.name), ('Town library', 'Emma', 'Persuasion', 'Ann'))
        self.assertEqual(emma.tags, ['love', 'england'])
        self.assertIs(emma.next, persuasion)
        self.assertIs(ann.job, library)
        self.assertEqual((persuasion.eIsSet('note'), emma.eIsSet('note'), emma.pages), (True, False, 100))
        self.assertEqual(ann.likes, [persuasion, Proxy('http://m.example/b#//@books.7')])
        with self.refused(17, 'NOT_EMPTY'):
            town.load(TOWN)

    def test_saved_and_loaded(self):
        """What was saved is loaded and saved again as the same text."""
        town = self.repo.resource(URI)
        town.load(TOWN)
        text = town.save()
        other = self.opened().resource(URI)
        self.assertEqual(other.load(text), 4)
        self.assertEqual(other.save(), text)
        texts = json.loads(text)
        self.assertEqual(texts['roots'][0]['features']['members'][0]['features']['likes'], ['//@books.1', 'http://m.example/b#//@books.7'])

    def test_any_text(self):
        """A text of any characters is saved and loaded."""
        text = ''.join(map(chr, range(32))) + '"\\é\u2028\U0001f600'
        book, = self.made('Book')
        book.name = text
        town = self.repo.resource(URI)
        town.append(book)
        saved = town.save()
        self.assertEqual(json.loads(saved)['roots'][0]['features']['name'], text)
        other = self.repo.resource('http://m.example/b')
        other.load(saved)
        self.assertEqual(other.contents[0].name, text)

    def test_refused(self):
        """Each fault of a document has its cause, and makes no object."""
        town = self.repo.resource(URI)
        cases = [
            ('', (1, 'SYNTAX')),
            ('nonsense', (1, 'SYNTAX')),
            ('\ufeff{"format":2,"roots":[]}', (1, 'SYNTAX')),
            ('{"format":2,"roots":[{"class":"Book","features":{"name":"a\nb"}}]}', (1, 'SYNTAX')),
            ('{"format":2,"roots":\n[],"x":1}', (2, 'LAYOUT')),
            ('{"format":3,"roots":[]}', (3, 'FORMAT')),
            ('{"format":2,"roots":[{"class":"Film","features":{}}]}', (4, 'CLASS')),
            ('{"format":2,"roots":[{"class":"Book","features":{"x":1}}]}', (5, 'FEATURE')),
            ('{"format":2,"roots":[{"class":"Book","features":{"pages":"1"}}]}', (6, 'VALUE')),
            ('{"format":2,"roots":[{"class":"Book","features":{"next":"/7"}}]}', (7, 'REFERENCE')),
            ('{"format":2,"roots":[{"class":"Book","features":{"tags":["a","a"]}}]}', (8, 'DUPLICATE')),
            ('{"format":2,"roots":[{"class":"Book","features":{"scores":[1,2,3,4]}}]}', (9, 'BOUND')),
            ('{"format":2,"roots":[{"class":"Book","features":{"next":"/1"}},{"class":"Book","features":{}}]}', (10, 'ONE_SIDED')),
        ]
        for text, cause in cases:
            with self.subTest(text), self.refused(18, 'DOCUMENT', cause):
                town.load(text)
        self.assertEqual(town.contents, [])
        if self.repo._session.engine.load is None:
            with self.assertRaises(ValueError):
                town.load(' ' * 16_777_216)
        self.assertEqual(town.load(TOWN), 4)

    def test_explained(self):
        """An error explains the faults of its own document, and of no earlier one."""
        town = self.repo.resource(URI)
        cases = [
            ('{"format":2,"roots":[{"class":"Boook","features":{}},{"class":"Named","features":{}}]}', (
                'roots[0]: "Boook" is no class; is "Book" meant?', 'roots[1]: class Named is abstract; name a subclass',
            )),
            ('{"format":3,"roots":[]}', ('"format" is 3, and has to be 2, or 1',)),
        ]
        for text, wanted in cases:
            with self.assertRaises(Refused) as found:
                town.load(text)
            self.assertEqual(found.exception.explained, wanted)
            self.assertTrue(str(found.exception).endswith('\n' + '\n'.join(wanted)))
        with self.assertRaises(Refused) as found:
            self.repo.create('Nothing')
        self.assertEqual(found.exception.explained, ())

    def test_not_saved(self):
        """A resource with a reference to an object outside of all resources is not saved."""
        town = self.repo.resource(URI)
        person, book = self.made('Person', 'Book')
        town.append(person)
        person.favourite = book
        with self.refused(19, 'DANGLING'):
            town.save()

    def test_a_long_document(self):
        """A document longer than a pipe holds is loaded and saved."""
        name = 'a' * 60_000
        roots = ','.join(f'{{"class":"Book","features":{{"name":"{name}","pages":{i}}}}}' for i in range(101, 121))
        text = f'{{"format":2,"roots":[{roots}]}}'
        town = self.repo.resource(URI)
        self.assertEqual(town.load(text), 20)
        self.assertEqual(town.save(), text)


class Proxies(LibraryTest):
    """References into another resource."""

    def setUp(self):
        super().setUp()
        self.town = self.repo.resource(URI)
        self.town.load(TOWN)
        self.ann = self.town.contents[0].members[0]

    def other(self, books):
        """Makes the resource that the proxy leads to, with a library of so many books; returns the library."""
        made = self.repo.resource('http://m.example/b')
        library, = self.made('Library')
        library.books.extend(self.made(*['Book'] * books))
        made.append(library)
        return library

    def test_resolved(self):
        """`resolve` puts the object in the place of its proxy."""
        library = self.other(8)
        self.assertIs(self.ann.resolve('likes', 1), library.books[7])
        self.assertIs(self.ann.likes[1], library.books[7])

    def test_resolved_by_the_list(self):
        """`resolve` of a list counts negative indexes from the end."""
        library = self.other(8)
        self.assertIs(self.ann.likes.resolve(-1), library.books[7])

    def test_refused(self):
        """A proxy that can't be resolved, and what is no proxy, are refused."""
        with self.refused(10, 'INDEX'):
            self.ann.resolve('likes', 2)
        with self.refused(8, 'TYPE'):
            self.ann.resolve('name')
        with self.refused(22, 'NOT_PROXY'):
            self.ann.resolve('likes')
        with self.refused(23, 'UNLOADED'):
            self.ann.resolve('likes', 1)
        with self.assertRaises(IndexError):
            self.ann.resolve('likes', -1)
        self.other(7)
        with self.refused(24, 'UNRESOLVED'):
            self.ann.resolve('likes', 1)

    def test_taken_out(self):
        """A proxy is removed from a list as any value is."""
        self.assertEqual(self.ann.likes.pop(), Proxy('http://m.example/b#//@books.7'))

    def test_heard(self):
        """A view gets a RESOLVE notification with the proxy, the object and the position."""
        heard = []
        self.repo.attach(heard.append, self.ann)
        library = self.other(8)
        self.ann.resolve('likes', 1)
        notice, = heard
        self.assertEqual((notice.kind.name, notice.feature, notice.position), ('RESOLVE', 'likes', 1))
        self.assertEqual(notice.old, Proxy('http://m.example/b#//@books.7'))
        self.assertIs(notice.new, library.books[7])

    def test_all(self):
        """`resolve_all` returns how many proxies it has resolved, and how many are left."""
        self.assertEqual(self.repo.resolve_all(), (0, 1))
        self.other(8)
        self.assertEqual(self.repo.resolve_all(), (1, 0))
        self.assertEqual(self.repo.resolve_all(), (0, 0))
