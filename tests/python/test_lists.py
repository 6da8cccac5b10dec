"""Lists of features behave as Python lists do, and are refused as EMF's lists are."""

from support import LibraryTest

from mmrepo import IndexRefused


class Attributes(LibraryTest):
    """A unique list of texts (`tags`), and a list of at most three numbers that may repeat (`scores`)."""

    def setUp(self):
        super().setUp()
        self.book = self.repo.create('Book')
        self.tags, self.scores = self.book.tags, self.book.scores

    def test_begins_empty(self):
        self.assertEqual((self.tags, len(self.tags), list(self.tags)), ([], 0, []))
        self.assertFalse(self.tags)

    def test_append(self):
        """`append` returns whether the list has changed: a unique list takes no value twice."""
        self.assertIs(self.tags.append('a'), True)
        self.assertIs(self.tags.append('b'), True)
        self.assertIs(self.tags.append('a'), False)
        self.assertEqual(self.tags, ['a', 'b'])

    def test_insert(self):
        """`insert` counts negative indexes from the end; a value that is there and an index past the end are refused."""
        self.tags.insert(0, 'c')
        self.tags.insert(0, 'a')
        self.tags.insert(1, 'b')
        self.tags.insert(3, 'e')
        self.tags.insert(-1, 'd')
        self.assertEqual(self.tags, ['a', 'b', 'c', 'd', 'e'])
        with self.refused(11, 'DUPLICATE'):
            self.tags.insert(0, 'a')
        with self.refused(10, 'INDEX'):
            self.tags.insert(6, 'f')
        for wrong in (-6, 2**32):
            with self.assertRaises(IndexError):
                self.tags.insert(wrong, 'f')
        self.assertEqual(self.tags, ['a', 'b', 'c', 'd', 'e'])

    def test_bound(self):
        """A value past the upper bound is refused."""
        self.scores.extend([1, 1, 2])
        with self.refused(12, 'BOUND'):
            self.scores.append(3)
        with self.refused(12, 'BOUND'):
            self.scores.extend([3, 4])
        self.assertEqual(self.scores, [1, 1, 2])

    def test_extend(self):
        """`extend` and `+=` take any iterable, the list itself included."""
        self.tags.extend(iter(['a', 'b']))
        self.book.tags += ['c']
        self.tags += ('d',)
        self.tags.extend(self.tags)
        self.assertEqual(self.book.tags, ['a', 'b', 'c', 'd'])

    def test_another_list_is_no_value(self):
        """A list can't be assigned to a feature."""
        for value in (['a'], self.repo.create('Book').tags):
            with self.assertRaises(TypeError):
                self.book.tags = value

    def test_remove(self):
        """`remove` takes out the first equal value; an absent value is a ValueError."""
        self.scores.extend([1, 2, 1])
        self.scores.remove(1)
        self.assertEqual(self.scores, [2, 1])
        with self.assertRaises(ValueError):
            self.scores.remove(3)
        with self.refused(8, 'TYPE'):
            self.scores.remove('a')
        self.assertEqual(self.scores, [2, 1])

    def test_pop(self):
        """`pop` returns the value at an index, the last one by default."""
        self.tags.extend('abcd')
        self.assertEqual((self.tags.pop(), self.tags.pop(0), self.tags.pop(-2)), ('d', 'a', 'b'))
        self.assertEqual(self.tags, ['c'])
        with self.refused(10, 'INDEX'):
            self.tags.pop(1)
        with self.assertRaises(IndexRefused):
            self.tags.pop(1)
        with self.assertRaises(IndexError):
            self.tags.pop(-2)
        self.tags.pop()
        with self.assertRaises(IndexError):
            self.tags.pop()

    def test_delete_places(self):
        """`del` takes an index or a slice."""
        self.tags.extend('abcdefg')
        del self.tags[0]
        del self.tags[-1]
        self.assertEqual(self.tags, list('bcdef'))
        del self.tags[1:3]
        self.assertEqual(self.tags, list('bef'))
        del self.tags[::2]
        self.assertEqual(self.tags, ['e'])
        with self.assertRaises(IndexError):
            del self.tags[1]
        del self.tags[5:]
        del self.tags[:]
        self.assertEqual(self.tags, [])

    def test_delete_backwards(self):
        """`del` takes a slice with a negative step."""
        self.tags.extend('abcde')
        del self.tags[3:0:-1]
        self.assertEqual(self.tags, ['a', 'e'])

    def test_clear(self):
        """`clear`, and `del` of the feature, empty the list."""
        self.tags.extend('abc')
        self.tags.clear()
        self.assertEqual(self.tags, [])
        self.tags.extend('abc')
        del self.book.tags
        self.assertEqual(self.tags, [])

    def test_move(self):
        """`move(to, index)` moves one value and returns it."""
        self.tags.extend('abc')
        self.assertEqual(self.tags.move(0, 2), 'c')
        self.assertEqual(self.tags, ['c', 'a', 'b'])
        self.assertEqual(self.tags.move(-1, 0), 'c')
        self.assertEqual(self.tags, ['a', 'b', 'c'])
        with self.refused(10, 'INDEX'):
            self.tags.move(0, 3)
        with self.refused(10, 'INDEX'):
            self.tags.move(3, 0)

    def test_reading(self):
        """Indexes, slices, `index`, `count`, `in` and `reversed` are those of a Python list."""
        self.tags.extend('abcd')
        self.assertEqual((self.tags[0], self.tags[3], self.tags[-1], self.tags[-4]), ('a', 'd', 'd', 'a'))
        for place in (4, -5):
            with self.assertRaises(IndexError):
                self.tags[place]
        self.assertEqual(self.tags[1:3], ['b', 'c'])
        self.assertEqual(self.tags[::-1], ['d', 'c', 'b', 'a'])
        self.assertEqual(list(reversed(self.tags)), ['d', 'c', 'b', 'a'])
        self.assertEqual(self.tags.index('c'), 2)
        self.assertEqual((self.tags.count('a'), self.tags.count('x')), (1, 0))
        self.assertTrue('d' in self.tags and 'x' not in self.tags)
        with self.assertRaises(ValueError):
            self.tags.index('c', 3)

    def test_equality(self):
        """A list equals a Python list of the same values, and has no hash."""
        other = self.repo.create('Book')
        self.tags.extend('ab')
        other.tags.extend('ab')
        self.assertTrue(self.tags == ['a', 'b'] and ['a', 'b'] == self.tags and self.tags == other.tags)
        self.assertTrue(self.tags != ['b', 'a'] and self.tags != ('a', 'b') and self.tags != 'ab')
        with self.assertRaises(TypeError):
            hash(self.tags)

    def test_goes_through_what_was_there(self):
        """Iteration goes through the values that were there when it began."""
        self.tags.extend('abc')
        for tag in self.tags:
            self.tags.remove(tag)
        self.assertEqual(self.tags, [])

    def test_no_assignment_to_a_place(self):
        """A value can't be assigned to an index."""
        self.tags.append('a')
        with self.assertRaises(TypeError):
            self.tags[0] = 'b'

    def test_null_is_no_value_of_a_list(self):
        """None is refused as a value of a list."""
        with self.refused(8, 'TYPE'):
            self.tags.append(None)

    def test_shown(self):
        self.tags.extend('ab')
        self.assertEqual(repr(self.tags), "['a', 'b']")


class References(LibraryTest):
    """Lists of references, with and without containment."""

    def test_both_ends(self):
        """Both ends of an association agree after each change, and the upper bound of the opposite end applies."""
        library, other, first, second, third = self.made('Library', 'Library', 'Person', 'Person', 'Person')
        library.staff.append(first)
        self.assertIs(first.job, library)
        second.job = library
        self.assertEqual(library.staff, [first, second])
        with self.refused(12, 'BOUND'):
            third.job = library
        other.staff.append(first)
        self.assertEqual((library.staff, other.staff), ([second], [first]))

    def test_an_object_stands_once(self):
        """A list of references has each object once."""
        library, book = self.made('Library', 'Book')
        self.assertTrue(library.books.append(book))
        self.assertFalse(library.books.append(book))
        with self.refused(11, 'DUPLICATE'):
            library.books.insert(0, book)
        self.assertEqual(library.books, [book])
        self.assertIn(book, library.books)

    def test_leaves_its_container(self):
        """An object that is added to a container leaves its old container."""
        library, other, book = self.made('Library', 'Library', 'Book')
        library.books.append(book)
        other.books.append(book)
        self.assertEqual((library.books, other.books), ([], [book]))
        self.assertIs(other.books.pop(), book)
        self.assertIsNone(book.library)

    def test_move(self):
        """`move` changes the order of contained objects."""
        library, first, second = self.made('Library', 'Book', 'Book')
        library.books.extend([first, second])
        self.assertIs(library.books.move(0, 1), second)
        self.assertEqual(library.books, [second, first])

    def test_many(self):
        """A list takes several hundred objects at once."""
        library, = self.made('Library')
        books = self.made(*['Book'] * 300)
        library.books.extend(books)
        self.assertEqual(library.books, books)
        self.assertEqual(len(library.books), 300)
