"""Objects: their features, their identity, their containers, and their classes."""

import copy
import gc
import json

from support import ClientTest, LibraryTest

from mmrepo import Metamodel

NUMBER = {'kind': 'attribute', 'type': 'EInt'}


class Features(LibraryTest):
    """Features of one value."""

    def test_attribute_and_item(self):
        """A feature is read and set as an attribute, as an item, and by `eGet` and `eSet`."""
        book, = self.made('Book')
        book.name = 'Emma'
        self.assertEqual(book['name'], 'Emma')
        book['name'] = 'Persuasion'
        self.assertEqual(book.name, 'Persuasion')
        self.assertEqual(book.eGet('name'), 'Persuasion')
        book.eSet('name', 'Emma')
        self.assertEqual(book.name, 'Emma')

    def test_default_and_unset(self):
        """A feature that is not set has its default value; `del` and `eUnset` restore it."""
        book, = self.made('Book')
        self.assertEqual(book.pages, 100)
        self.assertFalse(book.eIsSet('pages'))
        book.pages = 474
        self.assertTrue(book.eIsSet('pages'))
        del book.pages
        self.assertEqual(book.pages, 100)
        book.pages = 474
        del book['pages']
        self.assertEqual(book.pages, 100)
        book.pages = 474
        book.eUnset('pages')
        self.assertFalse(book.eIsSet('pages'))

    def test_unsettable(self):
        """An unsettable feature tells apart null and unset."""
        book, = self.made('Book')
        self.assertFalse(book.eIsSet('note'))
        book.note = None
        self.assertTrue(book.eIsSet('note'))
        del book.note
        self.assertFalse(book.eIsSet('note'))

    def test_by_the_feature(self):
        """The calls take the feature itself in place of its name."""
        book, = self.made('Book')
        pages = book.eClass.findEStructuralFeature('pages')
        book.eSet(pages, 1)
        self.assertEqual((book.eGet(pages), book.eIsSet(pages)), (1, True))
        book.eUnset(pages)
        self.assertEqual(book.pages, 100)

    def test_opposite(self):
        """A set changes the opposite end, and displaces the link that was there."""
        first, second, third = self.made('Book', 'Book', 'Book')
        first.next = second
        self.assertIs(second.prev, first)
        third.next = second
        self.assertIs(second.prev, third)
        self.assertIsNone(first.next)
        second.prev = None
        self.assertIsNone(third.next)

    def test_no_such_feature(self):
        """An unknown feature is an AttributeError as an attribute, and NO_FEATURE as an item."""
        book, = self.made('Book')
        with self.assertRaises(AttributeError):
            book.colour
        with self.assertRaises(AttributeError):
            book.colour = 1
        with self.assertRaises(AttributeError):
            del book.colour
        self.assertFalse(hasattr(book, 'staff'))
        with self.refused(5, 'NO_FEATURE'):
            book['colour']
        with self.refused(5, 'NO_FEATURE'):
            book['colour'] = 1
        with self.refused(5, 'NO_FEATURE'):
            book.eIsSet('colour')

    def test_no_name(self):
        """A text that can be no name of a feature is a ValueError, and is not sent."""
        book, = self.made('Book')
        for wrong in ('', 'a b', 'name "x"\nset #0 pages', 'é', '1', 'name ', 'name\n'):
            with self.subTest(wrong), self.assertRaises(ValueError):
                book[wrong]
        with self.assertRaises(TypeError):
            book[0]
        self.assertIsNone(book.name)

    def test_refusals_of_one_value(self):
        """A value of another type, and a value for a list, are refused."""
        library, book = self.made('Library', 'Book')
        with self.refused(6, 'NOT_SINGLE'):
            library.books = book
        with self.refused(8, 'TYPE'):
            book.pages = 'many'
        with self.refused(8, 'TYPE'):
            book.name = 7
        self.assertEqual((book.pages, book.name, library.books), (100, None, []))

    def test_named_as_a_method(self):
        """A feature that is named as a method is reached as an item alone."""
        kind = self.kinds().create('Kind')
        self.assertEqual(kind['delete'], 'a default')
        kind['delete'] = 'x'
        kind['_word'] = 3
        kind['__x__'] = 4
        self.assertEqual((kind['delete'], kind['_word'], kind['__x__']), ('x', 3, 4))
        for name in ('delete', '_word'):
            with self.assertRaises(AttributeError):
                setattr(kind, name, 1)
        self.assertEqual(kind.delete(), 1)

    def test_names_for_a_shell(self):
        """`dir` names features and methods."""
        names = dir(self.repo.create('Book'))
        self.assertTrue({'pages', 'name', 'library', 'delete', 'eClass'} <= set(names))


class Identity(LibraryTest):
    """The Python objects that stand for objects of the model."""

    def test_same(self):
        """One object of the model is one Python object, which compares and hashes by identity."""
        library, book = self.made('Library', 'Book')
        library.books.append(book)
        self.assertIs(library.books[0], book)
        self.assertIs(book.library, library)
        self.assertEqual(len({library.books[0], book}), 1)
        self.assertNotEqual(library, book)

    def test_forgotten(self):
        """An object that Python has collected is made again when it is read."""
        library, = self.made('Library')
        library.books.append(self.repo.create('Book'))
        gc.collect()
        library.books[0].name = 'Emma'
        self.assertEqual(library.books[0].name, 'Emma')

    def test_of_two_repositories(self):
        """Objects of two repositories are never equal."""
        self.assertNotEqual(self.repo.create('Book'), self.opened().create('Book'))

    def test_no_copy(self):
        """An object can't be copied by `copy.deepcopy`."""
        book, = self.made('Book')
        with self.assertRaises(Exception):
            copy.deepcopy(book).name

    def test_shown(self):
        library, book = self.made('Library', 'Book')
        library.books.append(book)
        self.assertEqual((repr(library), repr(library.books)), ('<Library #0>', '[<Book #1>]'))


class Places(LibraryTest):
    """The container, the contents and the resource of objects, and their deletion."""

    def setUp(self):
        super().setUp()
        self.library, self.first, self.second, self.person = self.made('Library', 'Book', 'Book', 'Person')
        self.library.members.append(self.person)
        self.library.books.extend([self.first, self.second])

    def test_container(self):
        """The container of an object, None for a root."""
        self.assertIs(self.first.eContainer(), self.library)
        self.assertIsNone(self.library.eContainer())

    def test_contents(self):
        """The contents of an object, feature by feature."""
        self.assertEqual(self.library.eContents, [self.first, self.second, self.person])
        self.assertEqual(self.first.eContents, [])

    def test_all_contents(self):
        """All contents, each object before what it contains."""
        folders = self.made('Folder', 'Folder', 'Folder', 'Folder')
        folders[0].subs.extend([folders[1], folders[3]])
        folders[1].subs.append(folders[2])
        self.assertEqual(list(folders[0].eAllContents()), folders[1:])

    def test_resource(self):
        """The resource of an object is that of its root, and a resource is no container."""
        self.assertIsNone(self.first.eResource)
        town = self.repo.resource('http://m.example/town')
        town.append(self.library)
        self.assertIs(self.first.eResource, town)
        self.assertIsNone(self.library.eContainer())

    def test_below_itself(self):
        """An object can't contain itself, by either end."""
        upper, lower = self.made('Folder', 'Folder')
        upper.subs.append(lower)
        with self.refused(13, 'RECURSIVE'):
            lower.subs.append(upper)
        with self.refused(13, 'RECURSIVE'):
            upper.parent = lower

    def test_validate(self):
        """`validate` names the features that have fewer values than their lower bound."""
        self.assertEqual(self.person.validate(), ['favourite'])
        self.person.favourite = self.first
        self.assertEqual(self.person.validate(), [])

    def test_delete(self):
        """`delete` destroys an object with its contents, cuts the links to them, and returns how many objects it has destroyed."""
        self.person.likes.extend([self.first, self.second])
        self.person.favourite = self.first
        self.assertEqual(self.first.delete(), 1)
        self.assertEqual(self.person.likes, [self.second])
        self.assertIsNone(self.person.favourite)
        self.assertEqual(self.library.delete(), 3)
        for gone in (self.library, self.second, self.person):
            with self.refused(1, 'NO_OBJECT'):
                gone.name
        with self.refused(1, 'NO_OBJECT'):
            self.library.delete()

    def test_deleted_as_a_value(self):
        """A deleted object is refused as a value."""
        self.first.delete()
        with self.refused(1, 'NO_OBJECT'):
            self.second.next = self.first

    def test_a_number_is_not_given_twice(self):
        """The number of a deleted object is not given again."""
        self.second.delete()
        self.assertEqual(repr(self.repo.create('Book')), '<Book #4>')


class Making(LibraryTest):
    """How objects are made."""

    def test_by_the_class(self):
        """`create` takes the class itself in place of its name."""
        book = self.repo.create(self.repo.metamodel.classes['Book'])
        self.assertIs(book.eClass, self.repo.metamodel.classes['Book'])

    def test_refused(self):
        """An unknown or abstract class is refused, and then no object is made."""
        with self.refused(3, 'NO_CLASS'):
            self.repo.create('Film')
        with self.refused(4, 'ABSTRACT'):
            self.repo.create('Named')
        with self.assertRaises(ValueError):
            self.repo.create('Book\nnew Book')
        with self.assertRaises(TypeError):
            self.repo.create(0)
        self.assertEqual(repr(self.repo.create('Book')), '<Book #0>')

    def test_class_is_asked(self):
        """The class of an object that the client does not know is read from the program."""
        library, = self.made('Library')
        library.books.append(self.repo.create('Book'))
        gc.collect()
        self.assertEqual(library.books[0].eClass.name, 'Book')


class Classes(ClientTest):
    """The metamodel as the client reads it."""

    def test_library(self):
        """The classes, features and enumerations of the library."""
        found = self.opened().metamodel
        library, book = found.classes['Library'], found.classes['Book']
        self.assertEqual(list(found.classes), ['Named', 'Library', 'Book', 'Person', 'Folder'])
        self.assertEqual(found.enums['Genre'].eLiterals, ['NOVEL', 'POEM', 'PLAY'])
        self.assertIs(found.getEClassifier('Genre'), found.enums['Genre'])
        self.assertIs(found.getEClassifier('Book'), book)
        self.assertIsNone(found.getEClassifier('Film'))
        self.assertTrue(found.classes['Named'].abstract)
        self.assertEqual(library.eSuperTypes, [found.classes['Named']])
        self.assertEqual([it.name for it in library.eStructuralFeatures], ['books', 'members', 'staff'])
        self.assertEqual([it.name for it in library.eAllStructuralFeatures()], ['name', 'books', 'members', 'staff'])
        books = library.findEStructuralFeature('books')
        self.assertEqual((books.many, books.lower, books.upper, books.containment), (True, 0, -1, True))
        self.assertIs(books.eType, book)
        self.assertIs(books.eOpposite, book.findEStructuralFeature('library'))
        self.assertTrue(books.eOpposite.container)
        pages = book.findEStructuralFeature('pages')
        self.assertEqual((pages.many, pages.default, pages.unsettable, pages.eType.name), (False, '100', False, 'EInt'))
        self.assertTrue(book.findEStructuralFeature('note').unsettable)
        self.assertFalse(book.findEStructuralFeature('scores').unique)
        self.assertTrue(found.classes['Person'].findEStructuralFeature('favourite').required)
        self.assertIsNone(library.findEStructuralFeature('members').eOpposite)

    def test_long_chain(self):
        """A chain of supertypes of as many classes as a metamodel takes (1,000) is read without recursion."""
        classes = [{'name': f'C{i}', 'supers': [f'C{i + 1}'], 'features': [{**NUMBER, 'name': f'f{i}'}]} for i in range(999)]
        classes.append({'name': 'C999', 'features': [{**NUMBER, 'name': 'f999'}]})
        found = Metamodel(json.dumps({'classes': classes}).encode()).classes['C0'].eAllStructuralFeatures()
        self.assertEqual([feature.name for feature in found], [f'f{i}' for i in reversed(range(1000))])

    def test_diamond(self):
        """A feature that is inherited by two paths is there once, at its first position."""
        supers = {'D': ['B', 'C'], 'B': ['A'], 'C': ['A'], 'A': []}
        classes = [{'name': name, 'supers': above, 'features': [{**NUMBER, 'name': name.lower()}]} for name, above in supers.items()]
        repo = self.opened(self.file('diamond.json', json.dumps({'classes': classes})))
        it = repo.create('D')
        self.assertEqual([feature.name for feature in it.eClass.eAllStructuralFeatures()], ['a', 'b', 'c', 'd'])
        it.a = 7
        self.assertEqual(it.a, 7)
